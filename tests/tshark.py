#!/usr/bin/env python3
"""Gives frames that the proved code sealed to Wireshark's `tshark`, which gets the temporal key and nothing else, and compares the bodies it
shows with the plain ones. Every header shape, key ID and priority occurs, b15 without QoS Control, one body in seven is the longest, and
packet numbers are from 1 on and, in the last eight frames, above 2^32. Each frame is given again with one bit of its addresses, body or code
turned over: of that one tshark may show no body.

  tests/tshark.py [FRAMES [SEED]]        1,024 frames and seed 1 where none is given; needs tshark (Debian's package tshark, 4.0.17)
"""
import ctypes
import os
import pathlib
import random
import re
import struct
import subprocess
import sys
import tempfile

import proved

RAW_80211 = 105
SNAP = bytes.fromhex("aaaa0300000088b5")
MOST_BODY = 7_935
frames = int(sys.argv[1]) if len(sys.argv) > 1 else 1_024
seed = int(sys.argv[2]) if len(sys.argv) > 2 else 1
exported = proved.library()
source = random.Random(seed)


def seal(key, key_id, address, last, frame):
    record = (ctypes.create_string_buffer(key, 16), ctypes.byref(ctypes.c_uint8(key_id)), ctypes.create_string_buffer(address, 6))
    answer, out, size = (ctypes.c_uint64 * 4)(), ctypes.create_string_buffer(len(frame) + 16), ctypes.c_size_t
    exported.bench_ccmp_seal(*record, ctypes.byref(ctypes.c_uint64(last)), answer, frame, size(len(frame)), out, size(len(out)))
    if answer[0]:
        sys.exit(f"seed {seed}: frame {frame.hex()} after packet number {last}: refused with {answer[0]}")
    return out.raw


def header(case, address):
    qos, ds, order = case % 2, case // 2 % 4, case // 32 % 2
    control = bytes([0x08 | qos << 7, ds | source.randrange(16) << 2 | order << 7])
    octets = control + source.randbytes(8) + address + source.randbytes(8)
    octets += source.randbytes(6) if ds == 3 else b""
    octets += bytes([case // 64 % 16 | source.choice((0x00, 0x20, 0x60)), 0]) if qos else b""
    return octets + (source.randbytes(4) if qos and order else b"")


def flipped(octets, places):
    at, bit = source.choice(places), source.randrange(8)
    return octets[:at] + bytes([octets[at] ^ 1 << bit]) + octets[at + 1 :]


def capture(packets):
    head = struct.pack("<IHHiIII", 0xA1B2C3D4, 2, 4, 0, 0, 65535, RAW_80211)
    return head + b"".join(struct.pack("<IIII", i, 0, len(p), len(p)) + p for i, p in enumerate(packets))


def decrypted(packets, key):
    """What tshark shows as decrypted by CCMP of each packet, or None."""
    with tempfile.TemporaryDirectory() as folder:
        file = pathlib.Path(folder, "sealed.pcap")
        file.write_bytes(capture(packets))
        options = ["wlan.enable_decryption:TRUE", "wlan.ignore_wep:No", "wlan.defragment:FALSE", f'uat:80211_keys:"tk","{key.hex()}"']
        command = ["tshark", "-n", "-x", "-r", file] + [x for option in options for x in ("-o", option)]
        alone = dict(os.environ, WIRESHARK_CONFIG_DIR=folder)  # no key of the user's own
        done = subprocess.run(command, env=alone, capture_output=True, text=True)
    if done.returncode:
        sys.exit(f"tshark: {done.stderr}")
    dumps = [re.search(r"^Decrypted CCMP data .*\n((?:[0-9a-f]{4}  .*\n?)*)", d, re.M) for d in done.stdout.rstrip("\n").split("\n\n")]
    return [d and b"".join(bytes.fromhex(line[6:53]) for line in d[1].splitlines()) for d in dumps]


key, address = source.randbytes(16), b"\x02" + source.randbytes(5)
bodies, sealed, damaged = [], [], []
for case in range(frames):
    front, length = header(case, address), MOST_BODY if case % 7 == 6 else len(SNAP) + case % 193
    body = SNAP + source.randbytes(length - len(SNAP))
    last = case if case < frames - 8 else 0xA5B4_C3D2_0000 + case
    bodies.append(body)
    sealed.append(seal(key, case // 8 % 4, address, last, front + body))
    damaged.append(flipped(sealed[-1], [*range(4, 22), *range(len(front) + 8, len(sealed[-1]))]))
# Two captures: of a damaged frame tshark may keep a wrong guess of the cipher for those after it.
for which, packets, expected in ("frame", sealed, bodies), ("damaged frame", damaged, [None] * frames):
    shown = decrypted(packets, key)
    if len(shown) != frames:
        sys.exit(f"seed {seed}: {frames} {which}s, and tshark shows {len(shown)}")
    for case, (packet, ours, theirs) in enumerate(zip(packets, expected, shown)):
        if theirs != ours:
            sys.exit(f"{which} {case} of seed {seed}: {packet.hex()}: {ours and ours.hex()}, and tshark {theirs and theirs.hex()}")
print(f"{frames} frames of seed {seed}: tshark shows every plain body, and none of a damaged frame")

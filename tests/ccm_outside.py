#!/usr/bin/env python3
"""Compares the proved CCM with that of Python's `cryptography` (OpenSSL): random messages of 0 to MOST octets with 1 to 64 octets of
authenticated data, sealed, opened, and opened again with one bit turned over.

  tests/ccm_outside.py [CASES [SEED [MOST]]]        10,000 cases, seed 1 and 8,000 octets where none is given
"""
import ctypes
import random
import sys

from cryptography.hazmat.primitives.ciphers.aead import AESCCM

import proved

REFUSED = 2**64 - 1
cases = int(sys.argv[1]) if len(sys.argv) > 1 else 10_000
seed = int(sys.argv[2]) if len(sys.argv) > 2 else 1
most = int(sys.argv[3]) if len(sys.argv) > 3 else 8_000
exported = proved.library()
source = random.Random(seed)


def call(function, key, nonce, aad, text, room):
    out = ctypes.create_string_buffer(room, len(room))
    function.restype = ctypes.c_uint64
    size = ctypes.c_size_t
    return function(key, nonce, aad, size(len(aad)), text, size(len(text)), out, size(len(room))), out.raw


def flipped(octets):
    at, bit = source.randrange(len(octets)), source.randrange(8)
    return octets[:at] + bytes([octets[at] ^ 1 << bit]) + octets[at + 1 :]


for case in range(cases):
    key, nonce = source.randbytes(16), source.randbytes(13)
    aad, body = source.randbytes(source.randint(1, 64)), source.randbytes(source.randint(0, most))
    room = source.randbytes(len(body) + 8 + source.randint(0, 20))
    text = AESCCM(key, tag_length=8).encrypt(nonce, body, aad)
    here = f"case {case} of seed {seed}"
    assert call(exported.bench_ccm_seal, key, nonce, aad, body, room) == (len(text), text + room[len(text) :]), f"{here}: sealing"
    assert call(exported.bench_ccm_open, key, nonce, aad, text, room) == (len(body), body + room[len(body) :]), f"{here}: opening"
    which = case % 3
    damaged = [flipped(x) if i == which else x for i, x in enumerate((nonce, aad, text))]
    assert call(exported.bench_ccm_open, key, *damaged, room) == (REFUSED, room), f"{here}: a damaged one"
    assert call(exported.bench_ccm_seal, key, nonce, aad, body, room[: len(text) - 1]) == (REFUSED, room[: len(text) - 1]), f"{here}: too little room"
print(f"{cases} messages of seed {seed}: all alike")

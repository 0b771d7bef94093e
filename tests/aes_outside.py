#!/usr/bin/env python3
"""Compares the proved AES-128 with that of Python's `cryptography` (OpenSSL) on random keys and blocks.

  tests/aes_outside.py [CASES [SEED]]        10,000 cases and seed 1 where none is given
"""
import ctypes
import random
import sys

from cryptography.hazmat.primitives.ciphers import Cipher, algorithms, modes

import proved

cases = int(sys.argv[1]) if len(sys.argv) > 1 else 10_000
seed = int(sys.argv[2]) if len(sys.argv) > 2 else 1
exported = proved.library()
source = random.Random(seed)
table, schedule = (ctypes.c_uint64 * 256)(), ctypes.create_string_buffer(176)
exported.bench_aes_fill(table)
for case in range(cases):
    key, block = source.randbytes(16), source.randbytes(16)
    ours = ctypes.create_string_buffer(block, 16)
    exported.bench_aes_expand(table, key, schedule)
    exported.bench_aes_encrypt(table, schedule, ours)
    theirs = Cipher(algorithms.AES(key), modes.ECB()).encryptor().update(block)
    if ours.raw != theirs:
        sys.exit(f"case {case} of seed {seed}: key {key.hex()} block {block.hex()}: {ours.raw.hex()}, and outside {theirs.hex()}")
print(f"{cases} keys and blocks of seed {seed}: all alike")

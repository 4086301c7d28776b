#!/usr/bin/env python3
"""Writes to standard output what shake_vectors must print: python3 expected.py > stdout"""
from hashlib import shake_256


def message(length):
    return bytes((7 * j + 1) % 256 for j in range(length))


def whole(m, parts=""):
    print(f"{len(m)} bytes{parts}: {shake_256(m).hexdigest(32)}")


def words(m, size, name, skip):
    output = shake_256(m).digest(skip + 300 * size)
    checksum = 0
    for i in range(skip, len(output), size):
        checksum = (checksum * 31 + int.from_bytes(output[i:i + size], "little")) % 2**32
    print(f"words of {name} bytes from {skip}: {checksum:08x}")


for m in [b"\x0f", b"\xa3" * 200]:
    whole(m)
for length in [0, 1, 135, 136, 137, 271, 272, 300, 1000, 4000]:
    whole(message(length))
m = message(1000)
for part in [1, 7, 8, 135, 136, 137]:
    whole(m, f" in parts of {part}")
for length in [0, 1, 136, 137, 600]:
    print(f"output of {length} bytes: {shake_256(m).hexdigest(length)}")
for skip in [0, 1, 2, 3, 134]:
    words(m, 2, "two", skip)
    words(m, 4, "four", skip)

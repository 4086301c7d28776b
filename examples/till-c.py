#!/usr/bin/env python3
"""Writes what examples/till.c must print, by the rules of docs/RULES.md alone:

    python3 examples/till-c.py < examples/till-c.txt > examples/till-c.out
"""
import sys
from hashlib import shake_256

# number, n, p, k, alpha
SETS = {"S": (0, 4, 97, 10, 2), "I": (1, 512, 8383489, 16384, 32)}


def product(p, a, b):
    n = len(a)
    whole = [0] * (2 * n)
    for i in range(n):
        if a[i]:
            for j in range(n):
                whole[i + j] += a[i] * b[j]
    return [(whole[i] - whole[i + n]) % p for i in range(n)]


def challenge(n, alpha, r, digest, counter):
    message = b"".join(v.to_bytes(4, "little") for v in r) + digest + counter.to_bytes(2, "little")
    stream = shake_256(message).digest(2 * 512)
    c = [0] * n
    for i in range(0, len(stream), 2):
        word = int.from_bytes(stream[i:i + 2], "little")
        if sum(v != 0 for v in c) < alpha and c[word % n] == 0:
            c[word % n] = -1 if word >> 15 else 1
    return c


def first(flags):
    return next((i for i, flag in enumerate(flags) if flag), None)


def verdict(parameters, key, last, record):
    """The refusal as it is told, or the counter and the digest."""
    number, n, p, k, alpha = parameters
    size = 40 + 4 * n + n // 4
    if len(key) != 2 * n:
        return "2"
    at = first(v >= p for v in key)
    if at is not None:
        return f"3 area public index {at}"
    if len(record) != size or int.from_bytes(record[:4], "little") != size - 4:
        return "6"
    if record[4:6] != bytes([number, 0x47]):
        return "7"
    z = [int.from_bytes(record[i:i + 2], "little", signed=True) for i in range(40, 40 + 4 * n, 2)]
    at = first(abs(v) > k - alpha for v in z)
    if at is not None:
        return f"8 index {at}"
    codes = [byte >> shift & 3 for byte in record[40 + 4 * n:] for shift in (0, 2, 4, 6)]
    at = first(code == 2 for code in codes)
    if at is not None:
        return f"9 index {at}"
    c = [(0, 1, 0, -1)[code] for code in codes]
    counter, digest = int.from_bytes(record[6:8], "little"), record[8:40]
    az, tc = product(p, key[:n], z[:n]), product(p, c, key[n:])
    r = [(x + y - w) % p for x, y, w in zip(az, z[n:], tc)]
    if challenge(n, alpha, r, digest, counter) != c:
        return "10"
    if last is not None and counter <= last:
        return "24"
    return counter, digest


def main():
    a = t = key = last = parameters = None
    for line in sys.stdin:
        command, *words = line.split() or ["#"]
        if command == "set":
            parameters = SETS[words[0]]
        elif command == "a":
            a = [int(w) for w in words]
        elif command == "t":
            t = [int(w) for w in words]
        elif command == "poke":
            area, at = (a, int(words[1])) if int(words[1]) < len(a) else (t, int(words[1]) - len(a))
            area[at] = int(words[2])
        elif command == "till":
            key, last = a + t, int(words[0]) if words else None
        elif command == "last":
            print("last", "none" if last is None else last)
        elif command == "check":
            said = verdict(parameters, key, last, bytes.fromhex("".join(words)))
            if isinstance(said, str):
                print("check refused", said)
            else:
                last, digest = said
                print("check ok counter", last, "digest", digest.hex())


main()

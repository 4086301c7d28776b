#!/usr/bin/env python3
"""The signing of specs/Signing.antt once more, written from docs/CARD.md and docs/RULES.md: a card of the small set in two shares.

It prints, for each nonce word list, tries and mask words that the page has, how the signing ends, with its counts, and of a passing
attempt the record."""

import hashlib
import struct

N, P, K, ALPHA, KIND = 4, 97, 10, 2, 0x4700
SHARES = 2
PAIRS = SHARES * (SHARES - 1) // 2
REACH = K - ALPHA
LIMIT = 2 * K + 1
BITS = LIMIT.bit_length()

CANDIDATE = 17 * PAIRS
CONVERSION = 2 * (SHARES - 1) + 33 * (SHARES + 1) * PAIRS
COMMIT = 2 * PAIRS * N
CHECK = 2 * N * (33 * SHARES + 16) * PAIRS + PAIRS
OPEN = 4 * PAIRS * N

A, S1, S2 = [61, 8, 90, 35], [1, 0, -1, 1], [0, -1, 1, 1]
DIGEST = bytes.fromhex("dad9ade6750ec9b46d9e12812b5388b4ba78f43e2042648660d892e354de46d3")
FIRST = [
    3639915378, 3464210657, 1550541524, 459136104, 3795096572, 1960916727, 2582401695, 2677995019, 2951508522,
    1584219882, 1234003348, 4083750547, 2930481448, 3306174735, 1854743077, 1573586385, 3292234054, 4016096166,
]
SECOND = [
    2279892564, 1021583507, 5511260, 1950252504, 2232961497, 3858494825, 4036238173, 2073288536, 1408525079,
    4189151727, 995164759, 3906237119, 1288954916, 3901212276, 2939397880, 1753806513, 677196677, 3228740397,
]
LAST = [1600113980, 1381241514, 2844437340]


class Ended(Exception):
    """A source has too few words: which one, and at which step."""


def times(a, b):
    """The product with x to the n equal to −1, by the powers of x."""
    out = [0] * N
    for i, x in enumerate(a):
        for j, y in enumerate(b):
            place, sign = (i + j) % N, -1 if i + j >= N else 1
            out[place] += sign * x * y
    return [v % P for v in out]


def plus(a, b):
    return [(x + y) % P for x, y in zip(a, b)]


def centred(a):
    return [v if v <= (P - 1) // 2 else v - P for v in a]


def challenge(r, counter):
    message = b"".join(struct.pack("<I", v) for v in r) + DIGEST + struct.pack("<H", counter)
    words = struct.unpack("<512H", hashlib.shake_256(message).digest(1024))
    c, taken = [0] * N, 0
    for word in words:
        if taken < ALPHA and c[word % N] == 0:
            c[word % N] = -1 if word >= 0x8000 else 1
            taken += 1
    return c


def record(z, c, counter):
    codes = [v % 4 for v in c]
    packed = bytes(sum(codes[4 * i + j] << (2 * j) for j in range(4)) for i in range(N // 4))
    body = struct.pack("<HH", KIND, counter) + DIGEST + struct.pack(f"<{2 * N}h", *z) + packed
    return struct.pack("<I", len(body)) + body


class Signing:
    """Draws nonce words by whole groups and mask words by steps, and counts."""

    def __init__(self, nonces, masks):
        self.nonces, self.masks = list(nonces), masks
        self.attempts = self.candidates = self.drawn = self.spent = 0

    def pay(self, cost, step):
        took = min(cost, self.masks)
        self.masks -= took
        self.spent += took
        if took < cost:
            raise Ended("masks", step)

    def candidate(self, step):
        group, self.nonces = self.nonces[:SHARES], self.nonces[SHARES:]
        self.drawn += len(group)
        if len(group) < SHARES:
            raise Ended("nonces", step)
        self.candidates += 1
        x = 0
        for word in group:
            x ^= word % 2**BITS
        self.pay(CANDIDATE, step)
        return x

    def coefficient(self, polynomial, index):
        while True:
            x = self.candidate(("candidate", polynomial, index))
            if x < LIMIT:
                self.pay(CONVERSION, ("conversion", polynomial, index))
                return x - K

    def attempt(self, counter):
        self.attempts += 1
        y = [[self.coefficient(polynomial, i) for i in range(N)] for polynomial in (1, 2)]
        self.pay(COMMIT, "commit")
        c = challenge(plus(times(A, y[0]), y[1]), counter)
        z = [centred(plus(times(s, c), nonce)) for s, nonce in zip((S1, S2), y)]
        self.pay(CHECK, "check")
        passes = all(abs(v) <= REACH for half in z for v in half)
        if passes:
            self.pay(OPEN, "open")
        return passes, z[0] + z[1], c

    def run(self, tries):
        for _ in range(tries):
            passes, z, c = self.attempt(1)
            print("   ", "passes" if passes else "rejected", z, c)
            if passes:
                return record(z, c, 1).hex(" ")
        return "every try failed"


def show(what, nonces, tries, masks):
    print(what, f"({len(nonces)} nonce words, {tries} tries, {masks} mask words)")
    signing = Signing(nonces, masks)
    try:
        end = signing.run(tries)
    except Ended as ended:
        end = f"{ended.args[0]} ended at {ended.args[1]}"
    print("   ", end)
    print("    attempts", signing.attempts, "candidates", signing.candidates, "nonces", signing.drawn, "masks", signing.spent)


ALL = FIRST + SECOND + LAST
show("passes_second", ALL, 2, 3268)
show("no_further_try", ALL, 1, 3268)
show("nonces_cut", ALL[:25], 2, 3268)
for masks in (16, 117, 134, 968, 1625, 1642, 3267):
    show("short of a step", ALL, 2, masks)

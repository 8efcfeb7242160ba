#!/usr/bin/env python3
"""Writes the table of roots that the program crate `root_replay` reads: a line each, the bits of a number and of its root.

usage: python3 oracle/roots/make.py > crates/root_replay/stdin

The answers are those of math.sqrt, which is the processor's own square root instruction, correctly rounded by IEEE 754.
Every answer is checked here once more with whole numbers alone. A NaN is written 7ff8000000000000.
"""
import math
import struct
from fractions import Fraction

NAN = 0x7FF8000000000000


def bits(x):
    return NAN if x != x else struct.unpack("<Q", struct.pack("<d", x))[0]


def number(b):
    return struct.unpack("<d", struct.pack("<Q", b))[0]


def root(x):
    return math.sqrt(x) if x >= 0 else math.nan


def operands():
    yield from (0, 1 << 63, 0x7FF0000000000000, 0xFFF0000000000000, NAN, 0x7FF0000000000001, 0xFFFFFFFFFFFFFFFF)
    yield from (1, 2, 3, 4, 5, 0x000FFFFFFFFFFFFF, 0x000FFFFFFFFFFFFE, 0x0008000000000000)  # subnormals
    yield from (0x0010000000000000, 0x0010000000000001, 0x001FFFFFFFFFFFFF, 0x0020000000000000)  # the smallest normal numbers
    yield from (0x7FEFFFFFFFFFFFFF, 0x7FEFFFFFFFFFFFFE, 0x7FE0000000000000)  # the largest
    for b in (bits(1.0), bits(2.0), bits(4.0), bits(0.25)):  # a power of two and its neighbours
        yield from (b - 2, b - 1, b, b + 1, b + 2)
    for x in (-1.0, -4.0, -5e-324, -1.7976931348623157e308):
        yield bits(x)
    for e in range(-1074, 1024, 61):  # powers of two, even and odd
        yield bits(math.ldexp(1.0, e))
    for n in (3, 5, 7, 9, 10, 99, 1000, 12345, 2**20 + 1, 94906265, 94906266):  # squares and the numbers next to them
        b = bits(float(n * n))
        yield from (b - 1, b, b + 1)
    state = 20240601
    for i in range(398):  # random patterns: any number, then numbers of one scale, then subnormal ones
        state = (state * 6364136223846793005 + 1442695040888963407) % 2**64
        b = state ^ (state >> 29)
        if i % 4 == 1:
            b = 0x3FE0000000000000 + b % 0x0020000000000000
        if i % 4 == 2:
            b = b % 0x0010000000000000
        if i % 4 == 3:
            r = number(0x3FF0000000000000 + b % 0x0010000000000000)
            b = bits(r * r)  # next to a square
        yield b


def is_nearest(x, r):
    """x between the squares of the middles of r and its neighbours"""
    below, above = number(bits(r) - 1), number(bits(r) + 1)
    middle = lambda y: (Fraction(r) + Fraction(y)) / 2
    return middle(below) ** 2 < Fraction(x) < middle(above) ** 2


for b in operands():
    x = number(b)
    r = root(x)
    if 0 < x < math.inf:
        assert is_nearest(x, r), hex(b)
    print("%016x %016x" % (b, bits(r)))

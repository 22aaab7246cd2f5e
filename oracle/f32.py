"""Rounding to binary32, written once and exactly, and the bit patterns of its numbers.

A value is a Fraction of 0 or more that binary32 can hold; `near` gives the one nearest to any other, ties to even. No floating point
of the machine is used there, so nothing can share a mistake with it. The functions on bit patterns at the end only make requests.
"""

import struct
from ctypes import c_float
from fractions import Fraction
from functools import lru_cache

# binary32 keeps 24 bits; its smallest exponent is -126 and below that the unit stays the same.
FRACTION_BITS = 23
LOWEST = -126
HIGHEST = 127

SIGN, INFINITY, NAN, ONE = 0x8000_0000, 0x7F80_0000, 0x7FC0_0000, 0x3F80_0000


def exponent(value):
    """The exponent of a value over 0: 2^exponent is the largest power not over it."""
    top, bottom = value.numerator, value.denominator
    guess = top.bit_length() - bottom.bit_length()
    return guess if value >= Fraction(2) ** guess else guess - 1


def unit(value):
    """The distance of neighbouring binary32 numbers at the value."""
    return Fraction(2) ** (max(exponent(value), LOWEST) - FRACTION_BITS)


def near(value):
    """The binary32 number nearest to the value, ties to even."""
    if value == 0:
        return Fraction(0)
    # Python rounds a fraction to the nearest whole number, ties to even.
    result = round(value / unit(value)) * unit(value)
    if result >= Fraction(2) ** (HIGHEST + 1):
        raise OverflowError("past the largest binary32 number")
    return result


def pattern(value):
    """The bit pattern of a binary32 number."""
    if value == 0:
        return 0
    steps = value / unit(value)
    assert steps.denominator == 1, "not a binary32 number"
    # A full 24-bit count of steps carries one into the exponent field, hence 126 and not 127.
    field = max(exponent(value), LOWEST) - LOWEST
    return (field << FRACTION_BITS) + steps.numerator


@lru_cache(maxsize=None)
def bits(value):
    """The bit pattern as eight hex digits."""
    return f"{pattern(value):08x}"


# ---- for requests


def packed(patterns):
    return struct.pack(f"<{len(patterns)}I", *patterns)


def add(a, b):
    """The pattern of a sum."""
    x, y = struct.unpack("<2f", packed((a, b)))
    (total,) = struct.unpack("<I", bytes(c_float(x + y)))
    return NAN if total & ~SIGN > INFINITY else total


def above(bits):
    """The next float up; NaN and infinity stay."""
    if bits & ~SIGN > INFINITY or bits == INFINITY:
        return bits
    if bits in (0, SIGN):
        return 1
    return bits - 1 if bits & SIGN else bits + 1


def below(bits):
    return above(bits ^ SIGN) ^ SIGN

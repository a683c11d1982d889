#!/usr/bin/env python3
"""The edges of the conversions of numbers: rust/calicofern/tests/edges.txt, by exact fractions, from IEEE 754 and document 01 alone. Run it anywhere: python3 tests/expected/edges.py

A line `half H F`: the half's bits and its float's. A line `float F H S C`: a float's bits, those of the nearest half, its signed
normalised byte and its byte as colour. All numbers are hexadecimal."""
from fractions import Fraction
from pathlib import Path

PLACE = Path(__file__).resolve().parents[2] / "rust/calicofern/tests/edges.txt"


class Format:
    """A binary format of IEEE 754: p fraction bits, the bias of its exponent, and its sign's bit."""

    def __init__(self, p, bias):
        self.p, self.bias = p, bias
        self.infinity = (2 * bias + 1) << p
        self.sign = (2 * bias + 2) << p

    def value(self, bits):
        """The number, without its sign, that finite bits stand for."""
        field, fraction = bits % self.sign >> self.p, bits % (1 << self.p)
        return (fraction + (1 << self.p if field else 0)) * Fraction(2) ** (max(field, 1) - self.bias - self.p)

    def nearest(self, number):
        """The bits nearest to a number, of two those that end in 0."""
        exponent = 1 - self.bias
        while number >= Fraction(2) ** (exponent + 1):
            exponent += 1
        units = round(number / Fraction(2) ** (exponent - self.p))
        return min((exponent + self.bias - 1 << self.p) + units, self.infinity)


HALF, FLOAT = Format(10, 15), Format(23, 127)


def float_of_half(half):
    rest = half % HALF.sign
    if rest >= HALF.infinity:
        return half // HALF.sign * FLOAT.sign + FLOAT.infinity + (rest - HALF.infinity << 13)
    return half // HALF.sign * FLOAT.sign + FLOAT.nearest(HALF.value(rest))


def half_of_float(bits):
    sign, rest = bits // FLOAT.sign * HALF.sign, bits % FLOAT.sign
    if rest > FLOAT.infinity:
        return sign + HALF.infinity + (0x200 | rest >> 13 & 0x3FF)
    return sign + (HALF.infinity if rest == FLOAT.infinity else HALF.nearest(FLOAT.value(rest)))


def scaled(bits, factor):
    """The size of a float times a whole number, rounded to a float; `None` for a NaN. What is infinite is above everything here."""
    rest = bits % FLOAT.sign
    if rest > FLOAT.infinity:
        return None
    if rest == FLOAT.infinity:
        return Fraction(1 << 200)
    return FLOAT.value(FLOAT.nearest(FLOAT.value(rest) * factor))


def snorm_of_float(bits):
    product = scaled(bits, 127)
    size = 0 if product is None else int(min(product, 127))
    return -size % 256 if bits >= FLOAT.sign else size


def colour_of_float(bits):
    product = scaled(bits, 255)
    return 0 if product is None or bits >= FLOAT.sign else int(min(product, 255))


def halves():
    for rest in [0, 1, 2, 0x1FF, 0x200, 0x201, 0x3FE, 0x3FF, 0x400, 0x401, 0x3BFF, 0x3C00, 0x3C01, 0x7BFE, 0x7BFF, 0x7C00, 0x7C01, 0x7DFF, 0x7E00, 0x7E01, 0x7FFF]:
        yield from (rest, rest + HALF.sign)


def floats():
    # subnormal floats; 2^-25, half of the least half; 2^-24 and ties above it; 2^-14 and ties around it; 0.5 and 1; 65,504, 65,520, 65,536; infinity, NaNs
    places = [0, 1, 0x7FFFFF, 0x800000, 0x33000000, 0x33800000, 0x33C00000, 0x34200000, 0x34600000, 0x387FA000, 0x387FC000, 0x387FE000]
    places += [0x38800000, 0x38801000, 0x38803000, 0x3F000000, 0x3F800000, 0x3F801000, 0x477FE000, 0x477FF000, 0x47800000, 0x7F7FFFFF, 0x7F800000]
    places += [0x7F802000, 0x7FC00000, 0x7FFFFFFE]
    # whole bytes, and between them
    places += [FLOAT.nearest(Fraction(2 * k + between, 2 * most)) for most in [127, 255] for k in [0, 1, 63, 126, 127, 254] for between in [0, 1]]
    for rest in sorted({near for place in places for near in (place - 1, place, place + 1) if 0 <= near < FLOAT.sign}):
        yield from (rest, rest + FLOAT.sign)


if __name__ == "__main__":
    lines = [f"half {half:x} {float_of_half(half):x}" for half in halves()]
    lines += [f"float {bits:x} {half_of_float(bits):x} {snorm_of_float(bits):x} {colour_of_float(bits):x}" for bits in floats()]
    PLACE.write_text("\n".join(lines) + "\n")

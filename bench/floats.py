#!/usr/bin/env python3
"""Writes 10,000 floats and their texts: the lines that the program `test_cases` checks.

usage: floats.py >crates/test_cases/data/floats

Each line has the type, the bits in hexadecimal digits, and the text that a cell has. A float's text is the shortest decimal
number that is read as this float, of several the nearest one, and of two that are equally near the one further from zero, as
Rust's `Display` writes it, without an exponent. It is worked out here with fractions of any size. For f64, Python's `repr` must
be as near; of two that are equally near it takes the even one.
"""

import random
import struct
from fractions import Fraction

SEED = 20  # any number; the lines change with it
COUNT = 5000  # of each type
FORMATS = {"f32": ("<I", "<f", 8, 23), "f64": ("<Q", "<d", 11, 52)}


class Type:
    """A type of floats: the sizes of its parts in bits."""

    def __init__(self, name):
        self.name = name
        self.bits_code, self.float_code, self.exponent, self.mantissa = FORMATS[name]
        self.size = 1 + self.exponent + self.mantissa
        self.infinity = ((1 << self.exponent) - 1) << self.mantissa
        self.least = 2 - (1 << (self.exponent - 1)) - self.mantissa  # the exponent of the least float

    def value(self, bits):
        """The value of bits without a sign, also of those that stand for infinity."""
        exponent, mantissa = bits >> self.mantissa, bits & ((1 << self.mantissa) - 1)
        if exponent == 0:
            return Fraction(mantissa) * Fraction(2) ** self.least
        return Fraction(mantissa + (1 << self.mantissa)) * Fraction(2) ** (self.least + exponent - 1)

    def nearest(self, number):
        """The bits of the float that is nearest to one of Python's, which has a greater range."""
        return struct.unpack(self.bits_code, struct.pack(self.float_code, number))[0]

    def digits(self, bits):
        """The digits of the shortest number, and the power of ten that they are multiplied by."""
        value = self.value(bits)
        low, high = (self.value(bits - 1) + value) / 2, (value + self.value(bits + 1)) / 2
        ties = bits % 2 == 0  # a number in the middle is read as the float whose mantissa is even

        def fits(number):
            return low < number < high or (ties and number in (low, high))

        power = len(str(int(high))) if high >= 1 else 1
        while Fraction(10) ** power > high:
            power -= 1
        while True:
            unit = Fraction(10) ** power
            below = int(value / unit)
            found = [n for n in (below, below + 1) if n and fits(n * unit)]
            if found:
                return min(found, key=lambda n: (abs(n * unit - value), -n)), power
            power -= 1

    def text(self, bits):
        sign = "-" if bits >> (self.size - 1) else ""
        bits &= (1 << (self.size - 1)) - 1
        if bits > self.infinity:
            return "NaN"
        if bits == self.infinity:
            return sign + "inf"
        if bits == 0:
            return sign + "0"
        digits, power = self.digits(bits)
        if self.name == "f64":
            shown = repr(struct.unpack("<d", struct.pack("<Q", bits))[0])
            distances = [abs(text - self.value(bits)) for text in (Fraction(shown), digits * Fraction(10) ** power)]
            assert distances[0] == distances[1], shown
        return sign + plain(str(digits), power)


def plain(digits, power):
    """Digits with so many zeros behind them, or so many places behind the point."""
    if power >= 0:
        return digits + "0" * power
    whole = digits[:power] or "0"
    return f"{whole}.{digits[power:].rjust(-power, '0')}".rstrip("0").rstrip(".")


def chosen(kind):
    """Floats at the edges of the type, and around powers of two and of ten."""
    one = kind.nearest(1.0)
    least = 1 << kind.mantissa  # the least that isn't subnormal
    yield from (0, 1, 2, 3, least - 1, least, least + 1, one - 1, one, one + 1)
    yield from (kind.infinity - 1, kind.infinity, kind.infinity + 1, kind.infinity | (least >> 1))
    for exponent in range(1, (1 << kind.exponent) - 1, 1 if kind.name == "f32" else 16):
        yield from ((exponent << kind.mantissa) + step for step in (-1, 0, 1))
    for power in range(-30, 31):
        yield from (kind.nearest(10.0**power) + step for step in (-1, 0, 1))


def drawn(kind, source):
    """A float of a random sort: with few places, an integer, near to 1, subnormal, or of any bits."""
    sort = source.randrange(10)
    if sort < 3:
        return kind.nearest(source.randrange(10**7) / 10 ** source.randrange(8))
    if sort < 5:
        return kind.nearest(float(source.randrange(2 ** source.randrange(1, 64))))
    if sort < 7:
        return kind.nearest(source.uniform(0, 1) * 2.0 ** source.randrange(-40, 40))
    if sort == 7 and source.randrange(4) == 0:
        return source.randrange(1 << kind.mantissa)
    return source.randrange(1 << (kind.size - 1))


def floats(kind, source):
    """Each float once, about half of them below zero."""
    seen = set()
    for bits in chosen(kind):
        for sign in (0, 1) if bits in (0, kind.infinity) else (source.randrange(2),):
            seen.add(bits | sign << (kind.size - 1))
    while len(seen) < COUNT:
        seen.add(drawn(kind, source) | source.randrange(2) << (kind.size - 1))
    return sorted(seen)


def main():
    source = random.Random(SEED)
    for kind in map(Type, FORMATS):
        for bits in floats(kind, source):
            print(kind.name, f"{bits:0{kind.size // 4}x}", kind.text(bits))


if __name__ == "__main__":
    main()

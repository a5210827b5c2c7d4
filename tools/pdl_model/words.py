"""Numbers of a given width, and the operations of the language on them."""

from typing import NamedTuple


WIDEST = 128


class Word(NamedTuple):
    """A whole number from 0 to 2 to the width, less 1."""

    value: int
    width: int


def word(value, width):
    """A number, cut to a width."""
    return Word(value % (1 << width), width)


def signed(a):
    """The number that the bits are in two's complement."""
    return a.value - (1 << a.width) if a.value >> (a.width - 1) else a.value


def shifted_left(a, b):
    return word(a.value << b.value, a.width) if b.value < a.width else Word(0, a.width)


def shifted_right(a, b):
    return Word(a.value >> b.value, a.width) if b.value < a.width else Word(0, a.width)


def truth(holds):
    return Word(int(holds), 1)


BINARY = {
    "+": lambda a, b: word(a.value + b.value, a.width),
    "-": lambda a, b: word(a.value - b.value, a.width),
    "*": lambda a, b: word(a.value * b.value, a.width),
    "&": lambda a, b: Word(a.value & b.value, a.width),
    "|": lambda a, b: Word(a.value | b.value, a.width),
    "^": lambda a, b: Word(a.value ^ b.value, a.width),
    "<<": shifted_left,
    ">>": shifted_right,
    "==": lambda a, b: truth(a.value == b.value),
    "!=": lambda a, b: truth(a.value != b.value),
    "<": lambda a, b: truth(a.value < b.value),
    "lts": lambda a, b: truth(signed(a) < signed(b)),
    "cat": lambda a, b: Word(a.value << b.width | b.value, a.width + b.width),
}


def inverted(a):
    """The same bits, each one turned over."""
    return word(~a.value, a.width)


def part(a, high, low):
    """The bits from `high` down to `low`."""
    return word(a.value >> low, high - low + 1)


def extended(a, width, keeps_sign):
    """A wider number, with zeros or with copies of the top bit above."""
    return word(signed(a) if keeps_sign else a.value, width)

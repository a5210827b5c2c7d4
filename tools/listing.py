#!/usr/bin/env python3
"""Words as the instructions that they are with a table of `pdl asm` (docs/assembler.md).

    listing.py TABLE WORD..

A WORD is hexadecimal, as in an image. It prints a line for each: the word, and its instruction, or `-` where it is none.
"""

import pathlib
import tomllib

import usage


class Table:
    """A table of an instruction set, read the other way round: from a word to its instruction."""

    def __init__(self, text):
        table = tomllib.loads(text)
        self.width = table["word"]
        self.names = {number: name for name, number in reversed(list(table.get("regs", {}).items()))}
        self.rows = [(it["name"], [arg.split(":") for arg in it["args"]], it["bits"].replace(" ", "")) for it in table["insn"]]

    def field(self, bits, letter, word):
        """The operand of a letter: its places in `bits`, the most significant first, and how many they are."""
        places = [at for at, it in enumerate(bits) if it == letter]
        value = 0
        for at in places:
            value = 2 * value + (word >> (self.width - 1 - at) & 1)
        return value, len(places)

    def operand(self, bits, letter, kind, word):
        value, count = self.field(bits, letter, word)
        if kind == "reg":
            return self.names.get(value)
        if kind in ("sint", "rel") and value >> (count - 1) & 1:
            value -= 1 << count
        return f"{value:+d}" if kind == "rel" else str(value)

    def instruction(self, word):
        """The first instruction of the table that is this word, or None. A `rel` is shown as its distance."""
        for name, arguments, bits in self.rows:
            if all(it not in "01" or int(it) == word >> (self.width - 1 - at) & 1 for at, it in enumerate(bits)):
                operands = [self.operand(bits, letter, kind, word) for letter, kind in arguments]
                if None not in operands:
                    return f"{name} {', '.join(operands)}".rstrip()
        return None


def read(path):
    """The table that a file has; where it has none, the tool ends and says so."""
    try:
        return Table(pathlib.Path(path).read_text())
    except (ValueError, KeyError, TypeError, AttributeError) as reason:
        usage.ends(f"{path} is no table of `pdl asm`: {reason}")


def label(names, values, table):
    """The values of these variables, in hexadecimal: those that are bound. One as wide as a table's word is its instruction."""
    shown = []
    for name in names:
        if name in values:
            value = values[name]
            text = table.instruction(value.value) if table and value.width == table.width else None
            shown.append(text or f"{value.value:0{(value.width + 3) // 4}x}")
    return " ".join(shown)


def main():
    table, *words = usage.words(__doc__, 2)
    table = read(table)
    for word in words:
        if set(word) - set("0123456789abcdef"):
            usage.ends(f"`{word}` is no word in hexadecimal")
        print(word, table.instruction(int(word, 16)) or "-")


if __name__ == "__main__":
    usage.runs(main)

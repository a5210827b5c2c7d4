#!/usr/bin/env python3
"""Prints the image of a program for the cores of this folder: elf_image.py FILE

FILE is a 32-bit little-endian ELF file of RISC-V, linked as c/link.ld says. The memories `code` and `data` have 16,384
words of 32 bits each, and both begin with the whole program: the word at address a is word (a / 4) mod 16,384.
"""
import pathlib
import struct
import sys

sys.path.append(str(pathlib.Path(__file__).resolve().parents[2] / "tools"))
import usage

BYTES = 65536


def segments(elf):
    """The address and the bytes of each part of the file that is loaded."""
    if elf[:5] != b"\x7fELF\x01" or elf[5] != 1:
        raise SystemExit("not a 32-bit little-endian ELF file")
    machine, = struct.unpack_from("<H", elf, 18)
    if machine != 243:
        raise SystemExit("not a program for RISC-V")
    table, = struct.unpack_from("<I", elf, 28)
    size, count = struct.unpack_from("<HH", elf, 42)
    for i in range(count):
        kind, offset, address, _, in_file, in_memory, _, _ = struct.unpack_from("<8I", elf, table + i * size)
        if kind == 1:
            if in_memory > BYTES:
                raise SystemExit("a segment of %d bytes is larger than the memory" % in_memory)
            yield address, elf[offset:offset + in_file]


def memory_of(elf):
    """The memory at the start, byte by byte."""
    memory = bytearray(BYTES)
    for address, part in segments(elf):
        for i, byte in enumerate(part):
            memory[(address + i) % BYTES] = byte
    return bytes(memory)


def image_of(memory):
    """The text of the image; words that are 0 are left out."""
    words = list(enumerate(struct.unpack("<%dI" % (BYTES // 4), memory)))
    lines = ["%s %d %x" % (name, at, word) for name in ("code", "data") for at, word in words if word]
    return "\n".join(["image 1"] + lines) + "\n"


def main():
    with open(usage.words(__doc__, 1, 1)[0], "rb") as stream:
        elf = stream.read()
    try:
        sys.stdout.write(image_of(memory_of(elf)))
    except (struct.error, IndexError):
        usage.ends("the file ends too early")


if __name__ == "__main__":
    usage.runs(main)

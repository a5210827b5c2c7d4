"""A model of RV32IM, written from the manual of the instruction set and not from the cores: what a program writes."""
import struct

ALL = 0xffffffff
BYTES = 65536


def signed(value, bits=32):
    value &= (1 << bits) - 1
    return value - (1 << bits) if value >> (bits - 1) else value


def field(word, high, low):
    return word >> low & (1 << high - low + 1) - 1


def imm_i(word):
    return signed(field(word, 31, 20), 12)


def imm_s(word):
    return signed(field(word, 31, 25) << 5 | field(word, 11, 7), 12)


def imm_b(word):
    return signed(field(word, 31, 31) << 12 | field(word, 7, 7) << 11 | field(word, 30, 25) << 5 | field(word, 11, 8) << 1, 13)


def imm_j(word):
    return signed(field(word, 31, 31) << 20 | field(word, 19, 12) << 12 | field(word, 20, 20) << 11 | field(word, 30, 21) << 1, 21)


def arithmetic(kind, other, a, b):
    """What the arithmetic unit makes of two words; `other` picks SUB for ADD and SRA for SRL."""
    shift = b & 31
    return {
        0: a - b if other else a + b,
        1: a << shift,
        2: int(signed(a) < signed(b)),
        3: int(a < b),
        4: a ^ b,
        5: (signed(a) if other else a) >> shift,
        6: a | b,
        7: a & b,
    }[kind]


def divided(a, b, bits):
    """Quotient, cut towards zero, and remainder, as the manual has them also of a division by zero and of one that overflows."""
    if b == 0:
        return (1 << bits) - 1, a
    quotient = abs(a) // abs(b) * (1 if (a < 0) == (b < 0) else -1)
    return quotient, a - quotient * b


def multiplied(kind, a, b):
    """What the unit for multiplication and division makes of two words."""
    return {
        0: lambda: a * b,
        1: lambda: signed(a) * signed(b) >> 32,
        2: lambda: signed(a) * b >> 32,
        3: lambda: a * b >> 32,
        4: lambda: divided(signed(a), signed(b), 32)[0],
        5: lambda: divided(a, b, 32)[0],
        6: lambda: divided(signed(a), signed(b), 32)[1],
        7: lambda: divided(a, b, 32)[1],
    }[kind]()


class Model:
    """A run from address 0x10000; `writes` are those of each memory in order, a pair of address and word each."""

    def __init__(self, memory):
        self.code, self.memory = memory, bytearray(memory)
        self.x, self.pc, self.count = [0] * 32, 0x10000, 0
        self.writes = {"x": [], "data": []}

    def load(self, address, size):
        return int.from_bytes(bytes(self.memory[(address + i) % BYTES] for i in range(size)), "little")

    def store(self, address, size, value):
        for i in range(size):
            self.memory[(address + i) % BYTES] = value >> 8 * i & 255
        word = address % BYTES // 4
        self.writes["data"].append((word, struct.unpack_from("<I", self.memory, 4 * word)[0]))

    def set(self, register, value):
        if register:
            self.x[register] = value & ALL
            self.writes["x"].append((register, value & ALL))

    def taken(self, kind, a, b):
        return {0: a == b, 1: a != b, 4: signed(a) < signed(b), 5: signed(a) >= signed(b), 6: a < b, 7: a >= b}[kind]

    def step(self):
        """One instruction; no at ECALL and EBREAK, which are not carried out."""
        word, = struct.unpack_from("<I", self.code, self.pc % BYTES)
        major, d, kind = field(word, 6, 0), field(word, 11, 7), field(word, 14, 12)
        a, b = self.x[field(word, 19, 15)], self.x[field(word, 24, 20)]
        after = self.pc + 4
        if major == 0x37:                                                   # LUI
            self.set(d, word & 0xfffff000)
        elif major == 0x17:                                                 # AUIPC
            self.set(d, self.pc + (word & 0xfffff000))
        elif major == 0x6f:                                                 # JAL
            self.set(d, after)
            after = self.pc + imm_j(word)
        elif major == 0x67:                                                 # JALR
            self.set(d, after)
            after = a + imm_i(word) & ~1
        elif major == 0x63:                                                 # branches
            if self.taken(kind, a, b):
                after = self.pc + imm_b(word)
        elif major == 0x03:                                                 # loads
            size = 1 << (kind & 3)
            value = self.load(a + imm_i(word), size)
            self.set(d, value if kind & 4 else signed(value, 8 * size))
        elif major == 0x23:                                                 # stores
            self.store(a + imm_s(word), 1 << kind, b)
        elif major == 0x13:                                                 # with a constant
            self.set(d, arithmetic(kind, kind == 5 and field(word, 30, 30), a, imm_i(word) & ALL))
        elif major == 0x33:                                                 # with two registers
            multiplies = field(word, 31, 25) == 1
            self.set(d, multiplied(kind, a, b) if multiplies else arithmetic(kind, field(word, 30, 30), a, b))
        elif major == 0x73:                                                 # ECALL, EBREAK
            return False
        elif major != 0x0f:                                                 # FENCE does nothing
            raise ValueError("the word %08x at %x is no instruction of RV32IM" % (word, self.pc))
        self.pc, self.count = after & ALL, self.count + 1
        return True

    def run(self, most=10 ** 7):
        while self.count < most and self.step():
            pass
        return self

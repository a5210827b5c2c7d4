"""A model of RV32I with machine mode, written from the manuals and not from the core: what a program writes that takes traps."""
import struct

from rv32i_model import ALL, BYTES, Model, field

START = 0x80000000
MSTATUS, MTVEC, MSCRATCH, MEPC, MCAUSE, MTVAL, INSTRET = 0x300, 0x305, 0x340, 0x341, 0x342, 0x343, 0xc02
# Where the core keeps a register in its memory `csr`.
PLACES = {MSTATUS: 0, MTVEC: 5, MSCRATCH: 8, MEPC: 9, MCAUSE: 10, MTVAL: 11}
MIE, MPIE, MPP = 1 << 3, 1 << 7, 3 << 11
ECALL, EBREAK, MRET, STANDS = 0x00000073, 0x00100073, 0x30200073, 0x0000006f
BY_ECALL, BY_EBREAK, NO_INSTRUCTION = 11, 3, 2

# The instructions of RV32I: which bits are looked at, and what they are.
WHOLE = [(0x7f, major) for major in (0x37, 0x17, 0x6f)]
KINDS = [(0x707f, major | kind << 12) for major, kinds in (
    (0x67, (0,)), (0x63, (0, 1, 4, 5, 6, 7)), (0x03, (0, 1, 2, 4, 5)), (0x23, (0, 1, 2)), (0x13, (0, 2, 3, 4, 6, 7)), (0x0f, (0,))) for kind in kinds]
SHIFTS = [(0xfe00707f, it) for it in (0x1013, 0x5013, 0x40005013)]
ARITHMETIC = [(0xfe00707f, 0x33 | kind << 12) for kind in range(8)] + [(0xfe00707f, it) for it in (0x40000033, 0x40005033)]
INSTRUCTIONS = WHOLE + KINDS + SHIFTS + ARITHMETIC


def is_instruction(word):
    """Whether a word is an instruction of RV32I, but for ECALL and EBREAK."""
    return any(word & bits == wanted for bits, wanted in INSTRUCTIONS)


class Traps(Model):
    """A run from START up to a jump to itself; `writes` have those of the control and status registers too."""

    def __init__(self, memory):
        super().__init__(memory)
        self.pc, self.csr = START, dict.fromkeys(PLACES, 0)
        self.writes["csr"] = []

    def put(self, csr, value):
        """Sets a control and status register; of some not all bits can be set."""
        if csr == MSTATUS:
            value = value & (MIE | MPIE) | MPP
        elif csr in (MTVEC, MEPC):
            value &= ~3
        self.csr[csr] = value & ALL
        self.writes["csr"].append((PLACES[csr], value & ALL))

    def trap(self, cause, value):
        """Goes to the handler; the instruction isn't counted."""
        self.put(MEPC, self.pc)
        self.put(MCAUSE, cause)
        self.put(MSTATUS, MPIE if self.csr[MSTATUS] & MIE else 0)
        self.put(MTVAL, value)
        self.pc = self.csr[MTVEC]

    def is_csr(self, word):
        """Whether a word reads or sets a register that is there, and doesn't set one that is only read."""
        if field(word, 6, 0) != 0x73 or field(word, 14, 12) in (0, 4):
            return False
        sets = field(word, 14, 12) in (1, 5) or field(word, 19, 15) != 0
        return field(word, 31, 20) in PLACES or field(word, 31, 20) == INSTRET and not sets

    def with_csr(self, word):
        """CSRRW, CSRRS and CSRRC, and those with a constant."""
        csr, kind, d, s = field(word, 31, 20), field(word, 14, 12), field(word, 11, 7), field(word, 19, 15)
        old = self.count if csr == INSTRET else self.csr[csr]
        given = s if kind & 4 else self.x[s]
        if kind & 3 == 1:
            self.put(csr, given)
        elif s:
            self.put(csr, old | given if kind & 3 == 2 else old & ~given)
        self.set(d, old)

    def step(self):
        """One instruction, or the trap that it takes; no at a jump to itself, which is not carried out."""
        word, = struct.unpack_from("<I", self.code, self.pc % BYTES)
        if word in (ECALL, EBREAK):
            self.trap(BY_ECALL if word == ECALL else BY_EBREAK, 0)
        elif word == MRET:
            state = self.csr[MSTATUS]
            self.put(MSTATUS, MPIE | (MIE if state & MPIE else 0))
            self.pc, self.count = self.csr[MEPC], self.count + 1
        elif self.is_csr(word):
            self.with_csr(word)
            self.pc, self.count = self.pc + 4 & ALL, self.count + 1
        elif is_instruction(word):
            return word != STANDS and super().step()
        else:
            self.trap(NO_INSTRUCTION, word)
        return True

/* Calls, breakpoints, words that are no instructions, and control and status registers. Where there are no traps, as on the computer
   at hand, their answers are worked out here. It multiplies nothing, since a product is a trap too. */
#ifdef __riscv
#define WITH_CSR(text) ".option push\n.option arch, +zicsr\n" text "\n.option pop"
static unsigned call(unsigned what, unsigned value) {
    register unsigned a0 __asm__("a0") = value;
    register unsigned a7 __asm__("a7") = what;
    __asm__ volatile("ecall" : "+r"(a0) : "r"(a7) : "memory");
    return a0;
}
static void stop(void) { __asm__ volatile("ebreak" : : : "memory"); }
/* No word of zeros or ones is an instruction; there is no register 0x5c0, and instret can't be set. */
static void stumble(void) {
    __asm__ volatile(".word 0\n.word 0xffffffff\n" WITH_CSR("csrr t0, 0x5c0\ncsrw instret, zero") : : : "t0", "memory");
}
static unsigned between(void) {
    unsigned a, b;
    __asm__ volatile(WITH_CSR("csrr %0, instret\nnop\nnop\ncsrr %1, instret\nsub %0, %1, %0\nli %1, 0") : "=&r"(a), "=&r"(b));
    return a;
}
static unsigned on_csr(unsigned a, unsigned b) {
    unsigned old, one, two, three, four, five, six;
    __asm__ volatile(WITH_CSR("csrrw %0, mscratch, %7\ncsrrs %1, mscratch, %8\ncsrrc %2, mscratch, %7\ncsrrwi %3, mscratch, 21\n"
                              "csrrsi %4, mscratch, 10\ncsrrci %5, mscratch, 5\ncsrrw %6, mscratch, %0")
                     : "=&r"(old), "=&r"(one), "=&r"(two), "=&r"(three), "=&r"(four), "=&r"(five), "=&r"(six) : "r"(a), "r"(b));
    return one ^ two << 3 ^ three << 5 ^ four << 7 ^ five << 11 ^ six << 13;
}
/* MIE before a trap and behind it, and MPIE. */
static unsigned enabled(void) {
    unsigned before, after;
    __asm__ volatile(WITH_CSR("csrrsi %0, mstatus, 8\nebreak\ncsrr %1, mstatus\ncsrci mstatus, 8") : "=&r"(before), "=&r"(after) : : "memory");
    return (before & 8) << 8 | (after & 0x88);
}
#else
static unsigned causes[16];
static unsigned call(unsigned what, unsigned value) { causes[11]++; return what == 0 ? value ^ 0x5a5a5a5a : causes[value & 15]; }
static void stop(void) { causes[3]++; }
static void stumble(void) { causes[2] += 4; }
static unsigned between(void) { return 3; }
static unsigned on_csr(unsigned a, unsigned b) {
    return a ^ (a | b) << 3 ^ (b & ~a) << 5 ^ 21u << 7 ^ 31u << 11 ^ 26u << 13;
}
static unsigned enabled(void) { causes[3]++; return 0x88; }
#endif
int main(void) {
    unsigned sum = 0;
    for (unsigned i = 0; i < 16; i++) {
        sum = (sum << 5 | sum >> 27) ^ call(0, i << 9);
        if (i & 1) stop();
        if ((i & 3) == 2) stumble();
        sum += on_csr(sum, i << 7 | 0x33) + between();
        sum ^= enabled() << (i & 3);
    }
    for (unsigned cause = 0; cause < 12; cause++) sum = (sum << 5 | sum >> 27) + call(1, cause);
    return (int)sum;
}

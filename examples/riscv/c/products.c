/* Products, quotients and remainders of words at the ends of their ranges, with a sign and without. What a processor that divides
   makes of a division by zero, and of the one that overflows, is what the manual says; elsewhere these are constants. */
static const unsigned words[] = {
    0, 1, 3, 0x8000, 0xffff, 0x12345678, 0x7fffffff, 0x80000000, 0xdeadbeef, 0xffffffff,
};
#define COUNT (sizeof words / sizeof *words)
#ifdef __riscv_div
#define BY(op, a, b, otherwise) ({ unsigned it; __asm__(#op " %0, %1, %2" : "=r"(it) : "r"(a), "r"(b)); it; })
#else
#define BY(op, a, b, otherwise) (otherwise)
#endif
static unsigned sum;
static void add(unsigned word) { sum = (sum << 5 | sum >> 27) ^ word; }
int main(void) {
    for (unsigned i = 0; i < COUNT; i++)
        for (unsigned j = 0; j < COUNT; j++) {
            unsigned a = words[i], b = words[j];
            int s = (int)a, t = (int)b;
            add(a * b);
            add((unsigned)((long long)s * t >> 32));
            add((unsigned)((unsigned long long)a * b >> 32));
            add((unsigned)((long long)s * (long long)(unsigned long long)b >> 32));
            if (b == 0) {
                add(BY(div, a, b, 0xffffffff));
                add(BY(divu, a, b, 0xffffffff));
                add(BY(rem, a, b, a));
                add(BY(remu, a, b, a));
            } else {
                add(a / b);
                add(a % b);
                if (a == 0x80000000 && t == -1) {
                    add(BY(div, a, b, a));
                    add(BY(rem, a, b, 0));
                } else {
                    add((unsigned)(s / t));
                    add((unsigned)(s % t));
                }
            }
        }
    return (int)sum;
}

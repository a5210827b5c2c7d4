/* What a core without multiplication does at a trap: it counts its cause, answers a call, and works out a product or a quotient. */
enum { NO_INSTRUCTION = 2, BY_ECALL = 11 };
static unsigned causes[16];

static unsigned service(unsigned what, unsigned value) {
    return what == 0 ? value ^ 0x5a5a5a5a : causes[value & 15];
}

static unsigned product(unsigned kind, unsigned a, unsigned b) {
    unsigned long long sum = 0, part = a;
    for (unsigned left = b; left; left >>= 1, part <<= 1)
        if (left & 1) sum += part;
    unsigned high = (unsigned)(sum >> 32);
    if (kind != 3 && a >> 31) high -= b;
    if (kind == 1 && b >> 31) high -= a;
    return kind == 0 ? (unsigned)sum : high;
}

static unsigned quotient(unsigned kind, unsigned a, unsigned b) {
    unsigned minus_a = ~kind & a >> 31, minus_b = ~kind & b >> 31;
    unsigned dividend = minus_a ? -a : a, divisor = minus_b ? -b : b, rest = 0, found = 0;
    for (int bit = 31; bit >= 0; bit--) {
        unsigned over = rest >> 31;
        rest = rest << 1 | (dividend >> bit & 1);
        if (over || rest >= divisor) { rest -= divisor; found |= 1u << bit; }
    }
    if (kind & 2) return minus_a ? -rest : rest;
    return b && minus_a != minus_b ? -found : found;
}

/* The registers of the program, the cause, the word that is no instruction, and where it stands; the answer is where to go on. */
unsigned handle(unsigned *x, unsigned cause, unsigned word, unsigned pc) {
    causes[cause & 15]++;
    if (cause == BY_ECALL) {
        x[10] = service(x[17], x[10]);
    } else if (cause == NO_INSTRUCTION && (word & 0xfe00007f) == 0x02000033) {
        unsigned kind = word >> 12 & 7, a = x[word >> 15 & 31], b = x[word >> 20 & 31], d = word >> 7 & 31;
        if (d) x[d] = kind & 4 ? quotient(kind & 3, a, b) : product(kind, a, b);
    }
    return pc + 4;
}

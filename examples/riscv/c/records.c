/* Records, strings, enumerations and small calls, in the manner of Dhrystone: much is copied and compared, little is worked out. */
#define ROUNDS 40
enum kind { FIRST, SECOND, THIRD, FOURTH };
struct record {
    struct record *next;
    enum kind kind;
    int number;
    char text[20];
};
static struct record heads[2];
static int numbers[48], grid[8][8];
static char name[32], other[32];
static unsigned seen;

static int length(const char *s) { int n = 0; while (s[n]) n++; return n; }
static void copy(char *to, const char *from) { while ((*to++ = *from++)) { } }
static int compare(const char *a, const char *b) {
    while (*a && *a == *b) a++, b++;
    return (unsigned char)*a - (unsigned char)*b;
}
__attribute__((noinline)) static enum kind turned(enum kind it, int limit) {
    switch (it) {
    case FIRST: return FOURTH;
    case SECOND: return limit > 100 ? FIRST : THIRD;
    case THIRD: return SECOND;
    default: return FIRST;
    }
}
__attribute__((noinline)) static int filled(int *list, int at, int value) {
    list[at] = value;
    list[at + 1] = list[at];
    list[at + 24] = at;
    for (int i = at; i <= at + 1; i++) grid[at & 7][i & 7] = at;
    grid[at & 7][(at - 1) & 7] += 1;
    grid[(at + 3) & 7][at & 7] = list[at];
    return list[at + 24] + grid[at & 7][at & 7];
}
__attribute__((noinline)) static int later(const char *a, const char *b, int round) {
    int at = 0;
    while (at < 6 && a[at] != b[at + 1]) at++;
    if (compare(a, b) > 0) return at + round;
    return a[2] == b[2] ? at : -at;
}
__attribute__((noinline)) static void passed_on(struct record *from, int round) {
    struct record *to = from->next;
    *to = *from;
    to->next = from;
    to->number = from->number + 5;
    to->kind = turned(from->kind, round);
    if (to->kind == FOURTH) {
        to->number += round;
        from->text[round % 10] = (char)('a' + (round & 15));
    } else {
        copy(to->text, "no more than this");
    }
}
int main(void) {
    enum kind kind = THIRD;
    heads[0] = (struct record){ &heads[1], FIRST, 40, "A record of its own" };
    copy(name, "The first of two names");
    for (int round = 0; round < ROUNDS; round++) {
        copy(other, round & 1 ? "The first of two words" : "The other of two names");
        int one = 2 + (round & 3), two = 3, three = one * 5 - two;
        int which = later(name, other, round);
        three += filled(numbers, which & 15, three);
        heads[0].next = &heads[1];
        passed_on(&heads[0], round);
        for (char c = 'A'; c <= name[4] - 32; c++)
            if (c == 'C' + (round & 1)) kind = turned(kind, three);
        two = three * one;
        one = two / (three | 1);
        two = 7 * (two - three) - one;
        heads[0].kind = turned(heads[0].kind, one);
        seen = (seen << 3 | seen >> 29) + (unsigned)(one ^ two) + (unsigned)kind + (unsigned)heads[1].number + (unsigned)length(heads[1].text);
    }
    for (int i = 0; i < 48; i++) seen = seen * 5 + (unsigned)(numbers[i] ^ grid[i & 7][i >> 3 & 7]);
    return (int)(seen ^ (unsigned)compare(heads[0].text, heads[1].text));
}

/* A list that is searched, turned and sorted, matrices of halves, a machine of states that reads numbers, and a CRC of what each of
   these finds, in the manner of CoreMark. */
#define ROUNDS 2
#define ITEMS 24
#define N 6
struct item { struct item *next; short key, place; };
static struct item items[ITEMS];
static short a[N][N], b[N][N];
static int c[N][N];
static const char text[] = "17,-4,+360,2.5,.75,-0.125,6.02e+23,-1.6e-19,9e9,3..1,+-2,x7,12a,.,-,4e+,31.4e-1,00.7,+8.e-2,2026,-6.5e+x,1.e,";
enum state { START, SIGNED, WHOLE, BROKEN, POINT, POWER, SIGN, SCIENCE, STATES };
static unsigned counts[STATES];

static unsigned short crc(unsigned short old, unsigned value, int bits) {
    for (int i = 0; i < bits; i++) {
        unsigned bit = (old ^ value) & 1;
        value >>= 1;
        old >>= 1;
        if (bit) old ^= 0xa001;
    }
    return old;
}
static struct item *found(struct item *it, int key) { while (it && it->key != key) it = it->next; return it; }
static struct item *turned(struct item *it) {
    struct item *before = 0;
    while (it) { struct item *next = it->next; it->next = before; before = it; it = next; }
    return before;
}
/* Sorts by merging runs of 1, 2, 4 and so on. */
static struct item *sorted(struct item *list) {
    for (int size = 1;; size += size) {
        struct item *left = list, *head = 0, **end = &head;
        int merges = 0;
        while (left) {
            struct item *right = left;
            int lefts = 0, rights = size;
            for (merges++; lefts < size && right; lefts++) right = right->next;
            while (lefts > 0 || (rights > 0 && right)) {
                int first = lefts > 0 && (rights == 0 || !right || left->key <= right->key);
                struct item *it = first ? left : right;
                if (first) { left = left->next; lefts--; } else { right = right->next; rights--; }
                *end = it;
                end = &it->next;
            }
            left = right;
        }
        *end = 0;
        list = head;
        if (merges <= 1) return list;
    }
}
static unsigned short of_list(unsigned short sum, int seed) {
    for (int i = 0; i < ITEMS; i++)
        items[i] = (struct item){ i + 1 < ITEMS ? &items[i + 1] : 0, (short)((i * 37 + seed * 11) & 63), (short)i };
    struct item *list = turned(items);
    for (int key = 0; key < 16; key++) {
        struct item *it = found(list, key * 4 + (seed & 3));
        sum = crc(sum, it ? (unsigned)it->place : 255u, 8);
    }
    for (struct item *it = sorted(list); it; it = it->next) sum = crc(sum, (unsigned)it->key, 8);
    return sum;
}
static unsigned short of_matrices(unsigned short sum, int seed) {
    for (int i = 0; i < N; i++)
        for (int j = 0; j < N; j++) { a[i][j] = (short)(seed + i * 3 - j * 2); b[i][j] = (short)(i + j * 5 + seed); }
    for (int i = 0; i < N; i++)
        for (int j = 0; j < N; j++) {
            int total = 0;
            for (int k = 0; k < N; k++) total += a[i][k] * b[k][j];
            c[i][j] = total + (a[i][j] * seed >> 2);
            sum = crc(sum, (unsigned)c[i][j], 16);
        }
    return sum;
}
static int is_digit(char at) { return at >= '0' && at <= '9'; }
static enum state after(enum state now, char at) {
    switch (now) {
    case START: return is_digit(at) ? WHOLE : at == '+' || at == '-' ? SIGNED : at == '.' ? POINT : BROKEN;
    case SIGNED: return is_digit(at) ? WHOLE : at == '.' ? POINT : BROKEN;
    case WHOLE: return at == '.' ? POINT : is_digit(at) ? WHOLE : BROKEN;
    case POINT: return at == 'e' ? POWER : is_digit(at) ? POINT : BROKEN;
    case POWER: return at == '+' || at == '-' ? SIGN : BROKEN;
    case SIGN: return is_digit(at) ? SCIENCE : BROKEN;
    case SCIENCE: return is_digit(at) ? SCIENCE : BROKEN;
    default: return BROKEN;
    }
}
static unsigned short of_states(unsigned short sum, int seed) {
    enum state now = START;
    for (int i = 0; text[i]; i++) {
        char at = (char)(i % 19 == seed ? text[i] ^ 1 : text[i]);
        if (at == ',') { counts[now]++; now = START; } else now = after(now, at);
    }
    for (int i = 0; i < STATES; i++) sum = crc(sum, counts[i], 16);
    return sum;
}
int main(void) {
    unsigned short sum = 0;
    for (int round = 1; round <= ROUNDS; round++) sum = of_states(of_matrices(of_list(sum, round), round), round);
    return sum;
}

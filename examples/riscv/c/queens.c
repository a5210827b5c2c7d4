/* How many ways there are to set n queens on n times n fields so that none attacks another: 2 for n = 4, 10, 4, 40. */
static int ways(unsigned row, unsigned left, unsigned right, unsigned full) {
    int count = 0;
    if (row == full) return 1;
    for (unsigned free = full & ~(row | left | right); free; ) {
        unsigned one = free & -free;
        free ^= one;
        count += ways(row | one, (left | one) << 1, (right | one) >> 1, full);
    }
    return count;
}
int main(void) {
    int sum = 0;
    for (int n = 4; n <= 7; n++) sum = sum * 64 + ways(0, 0, 0, (1u << n) - 1);
    return sum;
}

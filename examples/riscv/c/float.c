/* Single precision by libgcc's software: the square root of 2 by Newton's way, 3fb504f3 as bits, and sums that round. */
static float values[8];
static unsigned bits(float f) { union { float f; unsigned u; } both; both.f = f; return both.u; }
static float root(float a) {
    float x = a;
    for (int i = 0; i < 8; i++) x = (x + a / x) * 0.5f;
    return x;
}
int main(void) {
    unsigned sum = bits(root(2.0f));
    if (sum != 0x3fb504f3u) return -1;
    float s = 0.0f;
    for (int i = 0; i < 8; i++) { values[i] = 1.0f / (float)(i + 3) - (float)(i * i) * 0.25f; s += values[i]; }
    for (int i = 1; i < 8; i++) if (values[i] > values[i - 1]) sum ^= 1u << i;
    return (int)(sum ^ bits(s) ^ (unsigned)(int)(s * 1000.0f));
}

// Words of arithmetic and of memory that a compiler calls by these names, as C's own library has them: numbers of 128 bits, and bytes in a row.
typedef unsigned long long u64;
typedef long long i64;
typedef unsigned __int128 u128;
typedef __int128 i128;
typedef union {
    u128 whole;
    struct {
        u64 low, high;
    } half;
} Halves;

static u128 of_halves(u64 high, u64 low) {
    Halves h;
    h.half.low = low;
    h.half.high = high;
    return h.whole;
}
static u64 low_of(u128 n) { return ((Halves){.whole = n}).half.low; }
static u64 high_of(u128 n) { return ((Halves){.whole = n}).half.high; }

// The product of two numbers of 64 bits, by halves of 32.
static u128 product(u64 a, u64 b) {
    u64 a0 = a & 0xffffffff, a1 = a >> 32, b0 = b & 0xffffffff, b1 = b >> 32;
    u64 low = a0 * b0, mid = a1 * b0 + (low >> 32), other = a0 * b1 + (mid & 0xffffffff);
    return of_halves(a1 * b1 + (mid >> 32) + (other >> 32), (other << 32) | (low & 0xffffffff));
}
i128 __multi3(i128 a, i128 b) {
    u128 p = product(low_of(a), low_of(b));
    return of_halves(high_of(p) + low_of(a) * high_of(b) + high_of(a) * low_of(b), low_of(p));
}
i128 __ashlti3(i128 a, int by) {
    u64 low = low_of(a), high = high_of(a);
    if (by >= 64) return of_halves(low << (by - 64), 0);
    return by ? of_halves(high << by | low >> (64 - by), low << by) : a;
}
i128 __lshrti3(i128 a, int by) {
    u64 low = low_of(a), high = high_of(a);
    if (by >= 64) return of_halves(0, high >> (by - 64));
    return by ? of_halves(high >> by, low >> by | high << (64 - by)) : a;
}
i128 __ashrti3(i128 a, int by) {
    u64 low = low_of(a);
    i64 high = (i64)high_of(a);
    if (by >= 64) return of_halves((u64)(high >> 63), (u64)(high >> (by - 64)));
    return by ? of_halves((u64)(high >> by), low >> by | (u64)high << (64 - by)) : a;
}

// Long division, bit by bit.
typedef struct {
    u128 quotient, rest;
} Divided;
static Divided divide(u128 a, u128 b) {
    u64 rest_high = 0, rest_low = 0, high = 0, low = 0, b_high = high_of(b), b_low = low_of(b);
    for (int bit = 127; bit >= 0; bit--) {
        u64 next = (bit >= 64 ? high_of(a) >> (bit - 64) : low_of(a) >> bit) & 1;
        u64 over = rest_high >> 63;
        rest_high = rest_high << 1 | rest_low >> 63;
        rest_low = rest_low << 1 | next;
        if (over || rest_high > b_high || (rest_high == b_high && rest_low >= b_low)) {
            rest_high -= b_high + (rest_low < b_low);
            rest_low -= b_low;
            if (bit >= 64) high |= 1ULL << (bit - 64);
            else low |= 1ULL << bit;
        }
    }
    return (Divided){of_halves(high, low), of_halves(rest_high, rest_low)};
}
u128 __udivti3(u128 a, u128 b) { return divide(a, b).quotient; }
u128 __umodti3(u128 a, u128 b) { return divide(a, b).rest; }

typedef unsigned char byte;
void *memcpy(void *to, const void *from, u64 n) {
    for (u64 i = 0; i < n; i++) ((byte *)to)[i] = ((const byte *)from)[i];
    return to;
}
void *memmove(void *to, const void *from, u64 n) {
    if ((u64)to <= (u64)from) return memcpy(to, from, n);
    for (u64 i = n; i > 0; i--) ((byte *)to)[i - 1] = ((const byte *)from)[i - 1];
    return to;
}
void *memset(void *to, int with, u64 n) {
    for (u64 i = 0; i < n; i++) ((byte *)to)[i] = (byte)with;
    return to;
}
int memcmp(const void *a, const void *b, u64 n) {
    for (u64 i = 0; i < n; i++)
        if (((const byte *)a)[i] != ((const byte *)b)[i]) return ((const byte *)a)[i] < ((const byte *)b)[i] ? -1 : 1;
    return 0;
}
int bcmp(const void *a, const void *b, u64 n) { return memcmp(a, b, n); }
u64 strlen(const char *text) {
    u64 n = 0;
    while (text[n]) n++;
    return n;
}

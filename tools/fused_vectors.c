/* Answers of fma and sqrt, for crates/fused_vectors to compare F and the root with. docs/VECTORS.md says how to build and run it.
 *
 * Each line has 70 bytes: a letter, four words of 16 hex digits with a space before each, and a line feed.
 *   F x y z r      r is fma(x, y, z)
 *   R x r x r      r is sqrt(x), two to a line
 * A NaN answer is written 7ff8000000000000, whatever its own bits are.
 *
 * The answers are the machine's instructions, and each is compared with a call of the C library's function: a difference ends the run. */
#include <math.h>
#include <stdint.h>
#include <stdio.h>
#include <stdlib.h>
#include <string.h>

#if !defined __FMA__ && !defined __aarch64__
#error "build with -mfma, so that the answers are the machine's own"
#endif

static uint64_t state;

static uint64_t next(void) { /* splitmix64 */
    uint64_t z = (state += 0x9e3779b97f4a7c15u);
    z = (z ^ (z >> 30)) * 0xbf58476d1ce4e5b9u;
    z = (z ^ (z >> 27)) * 0x94d049bb133111ebu;
    return z ^ (z >> 31);
}

static double of(uint64_t b) { double x; memcpy(&x, &b, 8); return x; }
static uint64_t bits(double x) { uint64_t b; memcpy(&b, &x, 8); return x != x ? 0x7ff8000000000000u : b; }

static double (*volatile library_fma)(double, double, double) = fma;
static double (*volatile library_sqrt)(double) = sqrt;

#ifdef __aarch64__
static double machine_fma(double x, double y, double z) {
    double r;
    __asm__("fmadd %d0, %d1, %d2, %d3" : "=w"(r) : "w"(x), "w"(y), "w"(z));
    return r;
}

static double machine_sqrt(double x) {
    double r;
    __asm__("fsqrt %d0, %d1" : "=w"(r) : "w"(x));
    return r;
}
#else
static double machine_fma(double x, double y, double z) {
    __asm__("vfmadd213sd %2, %1, %0" : "+x"(x) : "x"(y), "x"(z));
    return x;
}

static double machine_sqrt(double x) {
    double r;
    __asm__("sqrtsd %1, %0" : "=x"(r) : "x"(x));
    return r;
}
#endif

static long fused_cases, root_cases;

static void fused(double x, double y, double z) {
    double r = machine_fma(x, y, z);
    if (bits(r) != bits(library_fma(x, y, z))) { fprintf(stderr, "fma differs: %a %a %a\n", x, y, z); exit(1); }
    printf("F %016lx %016lx %016lx %016lx\n", bits(x), bits(y), bits(z), bits(r));
    fused_cases++;
}

static void root(double x) {
    double r = machine_sqrt(x);
    if (bits(r) != bits(library_sqrt(x))) { fprintf(stderr, "sqrt differs: %a\n", x); exit(1); }
    printf(root_cases % 2 == 0 ? "R %016lx %016lx" : " %016lx %016lx\n", bits(x), bits(r));
    root_cases++;
}

/* a number with the exponent's field from lo to hi */
static double within(int lo, int hi) {
    uint64_t field = lo + next() % (hi - lo + 1);
    return of((next() & 0x8000000000000000u) | field << 52 | (next() & 0xfffffffffffffu));
}

/* few digits, or long runs of ones or of zeros: where ties and carries are */
static double plain(int lo, int hi) {
    uint64_t b = bits(within(lo, hi)), d = 0;
    switch (next() % 4) {
    case 0: d = (next() % 16) << 48; break;
    case 1: d = 0xfffffffffffffu ^ (next() % 8); break;
    case 2: d = next() % 8; break;
    case 3: d = 1ull << next() % 52; break;
    }
    return of((b & 0xfff0000000000000u) | d);
}

static double step(double x, int k) { return of(bits(x) + k); } /* k values away from zero */

static const uint64_t special[] = {
    0x0000000000000000u, 0x8000000000000000u, 0x7ff0000000000000u, 0xfff0000000000000u, 0x7ff8000000000000u, /* zeros, infinities, NaN */
    0x0000000000000001u, 0x8000000000000001u, 0x000fffffffffffffu, 0x0010000000000000u, 0x8010000000000000u, /* about the smallest numbers */
    0x3ff0000000000000u, 0xbff0000000000000u, 0x3fe0000000000000u, 0x7fefffffffffffffu, 0xffefffffffffffffu, /* one, a half, the largest */
};
enum { SPECIALS = sizeof special / sizeof *special };

/* ---- the seam between F's two ways: the short one takes factors whose exponent's field is from 768 to 1279, and addends whose field is below 1280.
 * One call of next() to a statement from here on, so that every compiler makes the same list. */

static uint64_t digits(void) { /* a significand's lower 52 digits: any, or few, or long runs */
    uint64_t kind = next(), d = next(), n = next() % 52;
    switch (kind % 6) {
    case 0: return (d % 16) << 48;
    case 1: return 0xfffffffffffffu ^ d % 8;
    case 2: return d % 8;
    case 3: return 1ull << n;
    default: return d & 0xfffffffffffffu;
    }
}

static double number(int field) {
    uint64_t sign = next() & 0x8000000000000000u, d = digits();
    return of(sign | (uint64_t)field << 52 | d);
}

static int any(int lo, int hi) { return lo + (int)(next() % (uint64_t)(hi - lo + 1)); }

static int field(double x) { return (int)(bits(x) >> 52 & 2047); }

static double scaled(double x, int by) { return of(bits(x) + ((uint64_t)(int64_t)by << 52)); } /* no number here is near the largest or the smallest */

static int beside_edge(void) { /* the window's first and last fields, and those beside them */
    static const int fields[] = {766, 767, 768, 769, 1278, 1279, 1280, 1281};
    return fields[any(0, 7)];
}

static void edges(int count) { /* each operand at an edge, the others at edges too or in the window; the addend near the product, or at the edge, or small */
    for (int i = 0; i < count; i++) {
        int fx = i % 3 == 1 ? any(768, 1279) : beside_edge();
        int fy = i % 3 == 0 ? any(768, 1279) : beside_edge();
        double x = number(fx), y = number(fy);
        int near = fx + fy - 1023 + any(-60, 60), fz = 0;
        switch (any(0, 4)) {
        case 0: fz = any(1277, 1282); break;
        case 1: fz = any(0, 2); break;
        case 2: fz = any(0, 2046); break;
        default: fz = near < 0 ? 0 : near > 2046 ? 2046 : near;
        }
        fused(x, y, number(fz));
    }
}

static void ties(int count) { /* xy is half a unit in the last place of z, odd numbers of it, or a little beside */
    for (int i = 0; i < count; i++) {
        double z = number(any(900, 1150));
        int a = any(-40, 40), odd = 2 * any(0, 3) + 1, beside = any(-1, 1);
        double x = ldexp(odd, a), y = ldexp(1, field(z) - 1023 - 53 - a);
        uint64_t sign = next() & 0x8000000000000000u;
        fused(of((bits(x) + (uint64_t)(int64_t)(i % 3 ? 0 : beside)) ^ sign), y, z);
    }
}

static void cancelling(int count) { /* z takes nearly all of xy away, or all */
    for (int i = 0; i < count; i++) {
        double x = number(any(900, 1150)), y = number(any(900, 1150));
        int few = any(0, 5), by = any(-3, 3);
        if (i % 4 == 0) x = of(bits(x) & ~0x7ffffffull), y = of(bits(y) & ~0x7ffffffull); /* then xy has 52 digits at most: exactly */
        if (few == 0) by *= 1 << any(1, 20);
        fused(x, y, -of(bits(x * y) + (uint64_t)(int64_t)by));
    }
}

static void distances(int each) { /* the product's exponent less the addend's: from -110 to 110 */
    for (int d = -110; d <= 110; d++)
        for (int i = 0; i < each; i++) {
            double x = number(any(900, 1150)), y = number(any(900, 1150));
            fused(x, y, number(field(x * y) - d));
        }
}

static void to_powers(int count) { /* the answer is a power of two, or just below it, by rounding up or by the last digits of an exact sum */
    for (int i = 0; i < count; i++) {
        uint64_t sign = next() & 0x8000000000000000u, last = i % 2 ? 0 : next() % 3;
        double z = of(sign | (uint64_t)any(900, 1150) << 52 | (0xfffffffffffffu - last));
        double x = number(any(950, 1100)), y = number(any(1000, 1040));
        int more = i % 2 ? 0 : any(-3, 2); /* xy is from half of z's last unit to all of it, or less, or some units */
        x = scaled(x, field(z) - field(x * y) - 53 + more);
        fused(bits(x * y) >> 63 == sign >> 63 || i % 5 == 0 ? x : -x, y, z);
    }
}

/* what xy+z, rounded at the product and at the sum, lacks: v is that rounded, and d what v lacks */
static double lacks(double x, double y, double z, double *d) {
    double p = x * y, e = machine_fma(x, y, -p), s = p + z;
    double a = s - p, t = (p - (s - a)) + (z - a), v = t + e, b = v - t;
    *d = (t - (v - b)) + (e - b);
    return v;
}

static void powers_lacking(int count) { /* v is a power of two and not exact: its neighbour below has another exponent */
    while (count > 0) {
        double x = number(any(1000, 1023)), y = number(any(1000, 1023)), d;
        double z = number(field(x * y) + any(-4, 50));
        double v = lacks(x, y, z, &d);
        if (d == 0 || (bits(v) & 0xfffffffffffffu) != 0) continue;
        fused(x, y, z);
        count--;
    }
}

static int seam(void) {
    edges(3000);
    ties(3000);
    cancelling(4000);
    distances(27);
    to_powers(2000);
    powers_lacking(2000);
    while (fused_cases < 20000) { double x = number(any(1000, 1023)), y = number(any(1000, 1023)); fused(x, y, number(any(1000, 1023))); }
    fprintf(stderr, "%ld of F\n", fused_cases);
    return 0;
}

int main(int argc, char **argv) {
    state = argc > 1 ? strtoull(argv[1], 0, 0) : 1;
    if (argc > 2 && strcmp(argv[2], "seam") == 0) return seam();

    for (int i = 0; i < SPECIALS; i++) /* every triple of special numbers: 3,375 */
        for (int j = 0; j < SPECIALS; j++)
            for (int k = 0; k < SPECIALS; k++) fused(of(special[i]), of(special[j]), of(special[k]));

    for (int i = 0; i < 1500; i++) { /* special numbers among ordinary ones */
        double v[3] = {within(0, 2046), within(0, 2046), within(0, 2046)};
        v[i % 3] = of(special[next() % SPECIALS]);
        fused(v[0], v[1], v[2]);
    }
    for (int i = 0; i < 2000; i++) fused(within(0, 2046), within(0, 2046), within(0, 2046)); /* any exponents */
    for (int i = 0; i < 2000; i++) { /* exponents that meet: the product and the addend overlap */
        double x = within(900, 1150), y = within(900, 1150);
        int e = (int)(bits(x) >> 52 & 2047) + (int)(bits(y) >> 52 & 2047) - 1023 + (int)(next() % 130) - 65;
        fused(x, y, within(e, e));
    }
    for (int i = 0; i < 2500; i++) { /* cancellation to a few bits, and to none */
        double x = within(600, 1400), y = within(600, 1400), z = -(x * y);
        fused(x, y, step(z, (int)(next() % 5) - 2));
    }
    for (int i = 0; i < 500; i++) { /* exact cancellation: to +0 */
        double x = plain(1000, 1040), y = ldexp(1, (int)(next() % 40) - 20);
        fused(x, y, -(x * y));
    }
    for (int i = 0; i < 3000; i++) { /* ties: half a unit in the last place of the addend, and a little more or less */
        double z = i % 2 ? plain(100, 1900) : within(100, 1900);
        int e = (int)(bits(z) >> 52 & 2047) - 1023 - 53, a = (int)(next() % 60) - 30;
        double x = ldexp(next() % 2 ? 1 : -1, a), y = ldexp(1 + next() % 3, e - a);
        fused(i % 3 == 0 ? step(x, 1) : i % 3 == 1 ? x : step(x, -1), y, z);
    }
    for (int i = 0; i < 1500; i++) { /* the product far above the addend, and far below it: only its sign can count */
        double x = plain(1000, 1500), y = plain(1000, 1500), z = plain(1, 400);
        fused(x, y, z);
        fused(plain(100, 500), plain(100, 500), plain(1000, 2046));
    }
    for (int i = 0; i < 1500; i++) { /* subnormal results, and the smallest normal ones */
        int e = 1 + (int)(next() % 900);
        fused(within(e, e), within(950 - e < 1 ? 1 : 950 - e, 1100 - e), next() % 2 ? within(0, 1) : plain(0, 3));
    }
    for (int i = 0; i < 800; i++) { /* products of a few digits that are subnormal ties, with nothing added or a zero's sign */
        int e = (int)(next() % 1000) + 30;
        fused(ldexp(1 + next() % 7, -e), ldexp(1 + next() % 7, e - 1075 - (int)(next() % 3)), of(next() % 3 == 0 ? 0 : next() % 2 ? 0x8000000000000000u : next() % 4));
    }
    for (int i = 0; i < 1200; i++) { /* overflow at its edge */
        int e = (int)(next() % 1000);
        double x = next() % 2 ? of(0x7fefffffffffffffu - next() % 3) : ldexp(2 - ldexp(next() % 4, -52), 1023), y = 1;
        if (next() % 2) { x = ldexp(x, -e); y = ldexp(next() % 4 ? 1 : 1 + ldexp(1, -52), e); }
        double z = ldexp(next() % 2 ? 1 : -1, 970 - (int)(next() % 3)) * (1 + (next() % 3) * ldexp(1, -52));
        fused(next() % 2 ? x : -x, y, z);
    }
    while (fused_cases < 22000) fused(plain(900, 1150), plain(900, 1150), plain(900, 1150)); /* runs of ones and zeros: carries into the exponent */

    for (int i = 0; i < SPECIALS; i++) root(of(special[i]));
    for (int i = 0; i < 1500; i++) root(fabs(within(0, 2046)));
    for (int i = 0; i < 500; i++) root(of(next() >> (12 + next() % 52))); /* subnormal numbers */
    for (int i = 0; i < 1200; i++) { /* squares, and their neighbours */
        double q = (double)(next() >> (38 + next() % 20)), x = ldexp(q * q, 2 * ((int)(next() % 900) - 450));
        root(x);
        root(step(x, 1));
        if (x > 0) root(step(x, -1));
    }
    while (root_cases < 6000) { /* roots next to the middle of two numbers: squares of 54 digits, cut */
        double q = fabs(within(700, 1300));
        root(step(q * q, (int)(next() % 3) - 1));
    }
    fprintf(stderr, "%ld of F, %ld of the root\n", fused_cases, root_cases);
    return 0;
}

/* Whole knots at 256ths come out exact: every place j/256 of random segments over five bases, knots up to 2^20 in magnitude, against the
 * cubic in whole numbers. Then outside of what is promised, where the same comparison has to find roundings. Exits with 1 at a surprise. */
#include "simmerstoat.h"

#include <stdio.h>
#include <stdlib.h>

/* 2^p times each matrix, p being 1 for CatmullRom and 0 for the others. */
static const struct {
    uint8_t number;
    int divisor;
    int whole[4][4];
} BASES[5] = {
    {SIMMERSTOAT_BEZIER, 1, {{-1, 3, -3, 1}, {3, -6, 3, 0}, {-3, 3, 0, 0}, {1, 0, 0, 0}}},
    {SIMMERSTOAT_CATMULL_ROM, 2, {{-1, 3, -3, 1}, {2, -5, 4, -1}, {-1, 0, 1, 0}, {0, 2, 0, 0}}},
    {SIMMERSTOAT_HERMITE, 1, {{2, 1, -2, 1}, {-3, -2, 3, -1}, {0, 1, 0, 0}, {1, 0, 0, 0}}},
    {SIMMERSTOAT_LINEAR, 1, {{0, 0, 0, 0}, {0, 0, 0, 0}, {0, -1, 1, 0}, {0, 1, 0, 0}}},
    {SIMMERSTOAT_POWER, 1, {{1, 0, 0, 0}, {0, 1, 0, 0}, {0, 0, 1, 0}, {0, 0, 0, 1}}},
};

static uint64_t state = 88172645463325252u;

static uint64_t next(void) {
    state ^= state << 13;
    state ^= state >> 7;
    state ^= state << 17;
    return state;
}

/* A whole number up to 2^bits in magnitude; one in eight stands at an end. */
static int64_t knot(int bits) {
    int64_t most = (int64_t)1 << bits;
    return next() % 8 == 0 ? (next() % 2 ? most : -most) : (int64_t)(next() % (uint64_t)(2 * most + 1)) - most;
}

/* 2 · places^3 times the cubic at j/places. */
static __int128 cubic(int b, const int64_t z[4], int64_t j, int64_t places) {
    const __int128 at = j, of = places, power[4] = {at * at * at, of * at * at, of * of * at, of * of * of};
    __int128 sum = 0;
    for (int r = 0; r < 4; r++) {
        __int128 row = 0;
        for (int i = 0; i < 4; i++) row += (__int128)z[i] * BASES[b].whole[r][i];
        sum += row * power[r];
    }
    return sum * (2 / BASES[b].divisor);
}

/* How many evaluations of so many segments a basis, at every j/places, are not the cubic's whole number. */
static long rounded(long segments, int bits, int64_t places, long *made) {
    long wrong = 0;
    *made = 0;
    for (int b = 0; b < 5; b++) {
        for (long s = 0; s < segments; s++) {
            int64_t z[4];
            double cv[4], value;
            for (int i = 0; i < 4; i++) cv[i] = (double)(z[i] = knot(bits));
            for (int64_t j = 0; j <= places; j++) {
                if (simmerstoat_spline_segment(BASES[b].number, (double)j / (double)places, cv, 4, &value) != SIMMERSTOAT_DONE) {
                    puts("refused");
                    exit(1);
                }
                /* a power of two: the product is exact */
                double scaled = value * 2.0 * (double)places * (double)places * (double)places;
                wrong += (__int128)scaled != cubic(b, z, j, places) || (double)(__int128)scaled != scaled;
                ++*made;
            }
        }
    }
    return wrong;
}

int main(void) {
    long made, wrong = rounded(780, 20, 256, &made);
    printf("knots up to 2^20, j/256: %ld evaluations, %ld rounded\n", made, wrong);
    if (wrong != 0 || made < 1000000) return 1;
    wrong = rounded(40, 20, 512, &made);
    printf("knots up to 2^20, j/512: %ld evaluations, %ld rounded\n", made, wrong);
    wrong = rounded(40, 27, 256, &made);
    printf("knots up to 2^27, j/256: %ld evaluations, %ld rounded\n", made, wrong);
    wrong = rounded(40, 28, 256, &made);
    printf("knots up to 2^28, j/256: %ld evaluations, %ld rounded\n", made, wrong);
    if (wrong == 0) return 1;
    wrong = rounded(10, 20, 2048, &made);
    printf("knots up to 2^20, j/2048: %ld evaluations, %ld rounded\n", made, wrong);
    if (wrong == 0) return 1;
    double value, ones[4] = {1, 1, 1, 1};
    if (simmerstoat_spline_segment(SIMMERSTOAT_BSPLINE, 0.0, ones, 4, &value) != SIMMERSTOAT_DONE || value != 1.0 - 0x1p-53) return 1;
    printf("a B-spline over four knots of 1, at 0: %.17g\n", value);
    return 0;
}

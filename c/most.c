/* The most evaluations of an inversion: the number itself, for every basis, rule of the ends and method; and that no inversion
 * tells a greater count, with a place or with 11, while some tell that very count. */
#include "simmerstoat.h"

#include <math.h>
#include <stdio.h>
#include <stdlib.h>

enum { BASES = 6, RULES = 2, METHODS = 3, KNOTS = 4096, KEPT = 77, TARGETS = 211 };

static const uint64_t STEP[BASES] = {1, 3, 1, 2, 1, 4};
static double knots[KNOTS];

static void expect(const char *what, uint64_t wanted, uint64_t got) {
    if (wanted == got) return;
    printf("%s: %llu, not %llu\n", what, (unsigned long long)got, (unsigned long long)wanted);
    exit(1);
}

static uint64_t most_of(uint8_t basis, uint64_t n, uint16_t limit, uint8_t ends, uint8_t method) {
    uint64_t most = KEPT;
    expect("reply", 0, simmerstoat_most_evaluations(basis, n, limit, ends, method, &most));
    return most;
}

/* As c/simmerstoat.h says it: by the bits of the number of segments. */
static uint64_t said(uint8_t basis, uint64_t n, uint16_t limit, uint8_t ends) {
    uint64_t segments = n < 4 ? 1 : (n - 4) / STEP[basis] + 1, bits = 0;
    for (uint64_t k = segments; k > 0; k /= 2) bits++;
    return (ends == SIMMERSTOAT_ENDS_CURVE ? 2 : 0) + limit + (segments <= 12 ? 24 : 2 * bits + 4);
}

static void numbers(void) {
    static const uint64_t lengths[] = {0, 3, 4, 15, 16, 17, 4095, 4096, 4097, UINT64_MAX};
    for (uint8_t b = 0; b < BASES; b++)
        for (uint8_t e = 0; e < RULES; e++)
            for (uint8_t m = 0; m < METHODS; m++)
                for (size_t i = 0; i < sizeof lengths / sizeof *lengths; i++) {
                    expect("limit 32", said(b, lengths[i], 32, e), most_of(b, lengths[i], 32, e, m));
                    expect("limit 65535", said(b, lengths[i], 65535, e), most_of(b, lengths[i], 65535, e, m));
                }
    uint64_t kept = KEPT;
    expect("no basis", SIMMERSTOAT_NO_BASIS, simmerstoat_most_evaluations(BASES, 4, 32, 0, 0, &kept));
    expect("no rule", SIMMERSTOAT_NO_BASIS, simmerstoat_most_evaluations(0, 4, 32, RULES, 0, &kept));
    expect("no method", SIMMERSTOAT_NO_BASIS, simmerstoat_most_evaluations(0, 4, 32, 0, METHODS, &kept));
    expect("nothing written", KEPT, kept);
}

/* The least that is left between a count and its bound over many targets, the curve a staircase with uneven steps. */
static uint64_t least_left(uint8_t basis, uint64_t n, uint16_t limit, uint8_t ends, uint8_t method) {
    uint64_t most = most_of(basis, n, limit, ends, method), left = UINT64_MAX;
    for (int i = 0; i < TARGETS; i++) {
        double place[4];
        uint64_t whole[3];
        double y = knots[n - 1] * (i - 5) / 200.0;
        uint32_t reply = simmerstoat_spline_inverse_by(basis, y, knots, n, false, limit, 1e-300, ends, method, place, whole);
        if (reply != SIMMERSTOAT_DONE && reply != SIMMERSTOAT_OFF_CURVE) expect("an inversion", SIMMERSTOAT_DONE, reply);
        if (whole[SIMMERSTOAT_COUNT] > most) expect("a count above its bound", most, whole[SIMMERSTOAT_COUNT]);
        if (most - whole[SIMMERSTOAT_COUNT] < left) left = most - whole[SIMMERSTOAT_COUNT];
    }
    return left;
}

int main(void) {
    uint64_t closest = UINT64_MAX, inversions = 0;
    for (int i = 0; i < KNOTS; i++) knots[i] = i + pow((i * 7 % 16) / 16.0, 9);
    numbers();
    for (uint8_t b = 0; b < BASES; b++)
        for (uint8_t e = 0; e < RULES; e++)
            for (uint8_t m = 0; m < METHODS; m++)
                for (uint64_t k = 12; k <= 60; k += 4) {
                    uint64_t left = least_left(b, (k - 1) * STEP[b] + 4, 8, e, m);
                    if (left < closest) closest = left;
                    inversions += TARGETS;
                }
    expect("what the closest count leaves", 0, closest);
    printf("%u inversions within their bounds\n", (unsigned)inversions);
    return 0;
}

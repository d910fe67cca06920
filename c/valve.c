/* The valve's call: its refusals and their order, its table, its sums. Exits with 1 at the first surprise. */
#include "simmerstoat_valve.h"

#include <stdio.h>
#include <stdlib.h>

static const int64_t KEPT = -987654321;
static long checked;

static void expect(const char *what, uint32_t wanted, uint16_t step, const int64_t *knots, uint64_t n, int64_t sum) {
    int64_t told = KEPT;
    uint32_t reply = simmerstoat_valve(step, knots, n, &told);
    checked++;
    if (reply != wanted || told != (wanted == 0 ? sum : KEPT)) {
        printf("%s: step %u: reply %u, expected %u; the sum %s\n", what, (unsigned)step, (unsigned)reply, (unsigned)wanted,
               told == (wanted == 0 ? sum : KEPT) ? "is right" : "is wrong");
        exit(1);
    }
}

/* The B-spline's weights at j/256, times 6 * 256^3. */
static int64_t weight(int64_t j, int i) {
    switch (i) {
    case 0: return (256 - j) * (256 - j) * (256 - j);
    case 1: return 3 * j * j * j - 6 * 256 * j * j + 4 * 256 * 256 * 256;
    case 2: return -3 * j * j * j + 3 * 256 * j * j + 3 * 256 * 256 * j + 256 * 256 * 256;
    default: return j * j * j;
    }
}

static int64_t mixed(int64_t j, const int64_t *z) {
    return weight(j, 0) * z[0] + weight(j, 1) * z[1] + weight(j, 2) * z[2] + weight(j, 3) * z[3];
}

static void lengths(void) {
    int64_t many[9] = {INT64_MIN};
    for (uint64_t n = 0; n <= 9; n++) {
        if (n != 4) expect("length", n < 4 ? 1 : 2, 65535, n ? many : NULL, n, 0);
    }
}

static void steps(void) {
    const int64_t good[4] = {-1000000, 1000000, 7, -8}, bad[4] = {0, 0, 0, INT64_MIN};
    const uint16_t in[5] = {0, 1, 128, 255, 256}, out[4] = {257, 258, 32768, 65535};
    for (int i = 0; i < 5; i++) expect("good step", 0, in[i], good, 4, mixed(in[i], good));
    for (int i = 0; i < 4; i++) expect("bad step", 16, out[i], good, 4, 0);
    for (int i = 0; i < 4; i++) expect("bad step before bad knot", 16, out[i], bad, 4, 0);
}

static void knots(void) {
    const int64_t in[4] = {1000000, -1000000, 0, 999999};
    const int64_t out[6] = {1000001, -1000001, INT64_MIN, INT64_MAX, (int64_t)1 << 32, -((int64_t)1 << 32)};
    for (int place = 0; place < 4; place++) {
        for (int k = 0; k < 4; k++) {
            int64_t z[4] = {1, 2, 3, 4};
            z[place] = in[k];
            expect("good knot", 0, 77, z, 4, mixed(77, z));
        }
        for (int k = 0; k < 6; k++) {
            int64_t z[4] = {1, 2, 3, 4};
            z[place] = out[k];
            expect("bad knot", 4 + 256 * (uint32_t)place, 77, z, 4, 0);
            for (int later = place; later < 4; later++) z[later] = out[k];
            expect("first bad knot", 4 + 256 * (uint32_t)place, 77, z, 4, 0);
        }
    }
}

/* Each row: constant knots give the knot times the whole, one knot of 1 gives its weight. */
static void table(void) {
    const int64_t constant[5] = {1, -1, 1000000, -1000000, 123456};
    for (uint16_t j = 0; j <= 256; j++) {
        for (int k = 0; k < 5; k++) {
            const int64_t z[4] = {constant[k], constant[k], constant[k], constant[k]};
            expect("constant knots", 0, j, z, 4, constant[k] * SIMMERSTOAT_VALVE_WHOLE);
        }
        for (int i = 0; i < 4; i++) {
            int64_t z[4] = {0, 0, 0, 0};
            z[i] = 1;
            expect("one knot", 0, j, z, 4, weight(j, i));
        }
    }
}

static void random_knots(void) {
    uint64_t s = 88172645463325252u;
    for (long n = 0; n < 1000000; n++) {
        int64_t z[4], least = 1000000, greatest = -1000000;
        for (int i = 0; i < 4; i++) {
            s ^= s << 13, s ^= s >> 7, s ^= s << 17;
            z[i] = (int64_t)(s % 2000001) - 1000000;
            if (z[i] < least) least = z[i];
            if (z[i] > greatest) greatest = z[i];
        }
        uint16_t j = (uint16_t)(s >> 40) % 257;
        int64_t sum = mixed(j, z);
        expect("random knots", 0, j, z, 4, sum);
        if (sum < least * SIMMERSTOAT_VALVE_WHOLE || sum > greatest * SIMMERSTOAT_VALVE_WHOLE) {
            puts("a sum outside least to greatest");
            exit(1);
        }
    }
}

int main(void) {
    lengths();
    steps();
    knots();
    table();
    random_knots();
    printf("valve: %ld calls as expected\n", checked);
    return 0;
}

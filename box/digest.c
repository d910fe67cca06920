/* Many more calls than the list of stored answers has, by a generator that is the same on every machine, and one number of all that
 * they reply and write: 20,000 rounds of twelve calls. What the archive for x86-64 prints is digest.out; bin/link compares, and bin/box
 * compares every target's with it. */
#include "simmerstoat.h"
#include "simmerstoat_valve.h"

#include <stdio.h>

#ifndef ROUNDS
#define ROUNDS 20000
#endif

static uint64_t seed = 2026, digest = UINT64_C(0xCBF29CE484222325);

static uint64_t draw(void) {
    seed ^= seed << 13, seed ^= seed >> 7, seed ^= seed << 17;
    return seed;
}
static void take(uint64_t word) {
    for (int at = 0; at < 8; at++, word >>= 8) digest = (digest ^ (word & 255)) * UINT64_C(0x100000001B3);
}
static uint64_t bits(double x) {
    union { double x; uint64_t b; } u = {.x = x};
    return u.b;
}

/* A double by its bits alone, so that the driver computes nothing: of any kind, or from 2^-20 to 2^12. */
static double number(void) {
    union { uint64_t b; double x; } u;
    const uint64_t r = draw();
    if (r % 64 == 0) u.b = draw();
    else u.b = (draw() & UINT64_C(0x800FFFFFFFFFFFFF)) | (uint64_t)(1003 + draw() % 32) << 52;
    if (r % 64 == 1) u.b &= UINT64_C(0x8000000000000000);
    return u.x;
}
static double part(void) {
    union { uint64_t b; double x; } u = {.b = (draw() >> 12) | (uint64_t)(1023 - 1 - draw() % 8) << 52};
    return draw() % 16 ? u.x : number();
}

enum { KNOTS = 64 };
static double knots[KNOTS], place[4], out[4 * KNOTS], value;
static uint64_t whole[4], written;
static uint32_t handed;
static uint8_t job;
static bool holds;

static void sort(uint64_t n) { /* rising */
    for (uint64_t i = 1; i < n; i++)
        for (uint64_t j = i; j > 0 && knots[j] < knots[j - 1]; j--) {
            const double x = knots[j];
            knots[j] = knots[j - 1], knots[j - 1] = x;
        }
}

static void took(uint32_t reply, int doubles, int wholes) {
    take(reply);
    if (reply == SIMMERSTOAT_OFF_CURVE) take(whole[2]);
    if (reply != 0) return;
    for (int i = 0; i < doubles; i++) take(bits(place[i]));
    for (int i = 0; i < wholes; i++) take(whole[i]);
}
static void took_output(uint32_t reply) {
    take(reply);
    if (reply != 0) return;
    take(written);
    for (uint64_t i = 0; i < written; i++) take(bits(out[i]));
}
static void took_value(uint32_t reply) {
    take(reply);
    if (reply == 0) take(bits(value));
}

static void took_sum(uint16_t step) {
    int64_t z[4], sum = 0;
    for (int i = 0; i < 4; i++) z[i] = (int64_t)(draw() % 2000101) - 1000050;
    take(simmerstoat_valve(step, z, 4, &sum));
    take((uint64_t)sum);
}

int main(void) {
    static const uint8_t STEP[] = {1, 3, 1, 2, 1, 4};
    for (uint32_t round = 0; round < ROUNDS; round++) {
        const uint8_t basis = (uint8_t)(draw() % 6), to = (uint8_t)(draw() % 6);
        const uint8_t ends = (uint8_t)(draw() % 2), method = (uint8_t)(draw() % 3);
        uint64_t n = 4 + draw() % 13 * STEP[basis];
        if (draw() % 32 == 0) n = draw() % KNOTS;
        for (uint64_t i = 0; i < n; i++) knots[i] = number();
        if (draw() % 4) sort(n);
        const double y = draw() % 8 && n ? knots[draw() % n] : number(), x = part(), precision = draw() % 8 ? 1e-10 : part();
        const uint16_t limit = (uint16_t)(draw() % 8 ? 1 + draw() % 64 : draw());
        const bool check = draw() % 2;
        const uint32_t span = (uint32_t)(1 + draw() % 86400);
        take(simmerstoat_is_len_ok(basis, n));
        took_value(simmerstoat_spline(basis, x, knots, n, &value));
        took_value(simmerstoat_spline_segment(basis, x, knots, 4, &value));
        took(simmerstoat_spline_inverse_by(basis, y, knots, n, check, limit % 512, precision, ends, method, place, whole), 4, 3);
        took(simmerstoat_spline_inverse_segment_by(basis, y, knots, 4, limit % 512, precision, method, place, whole), 4, 3);
        took(simmerstoat_table_spline_inverse_steady(basis, span, y, knots, n, check, place, whole), 4, 4);
        took(simmerstoat_stopped(basis, span, y, knots, n, check, &job, place, whole), 4, 4);
        take(job);
        took_output(simmerstoat_convert_spline(basis, to, knots, n, out, sizeof out / 8, &written));
        took_output(simmerstoat_table_convert_spline_strict(basis, span, to, knots, n, x, out, sizeof out / 8, &handed, &written));
        const uint32_t reply = simmerstoat_check_claim(basis, y, draw() % 13, x, precision, knots, n, &holds);
        take(reply * 2 + (reply == 0 && holds));
        const uint32_t both = simmerstoat_depth_at(basis, knots, n, basis, knots, n, y, limit % 512, precision, &value, place, whole);
        took(both, 4, 4);
        if (both == 0) take(bits(value));
        took_sum((uint16_t)(draw() % 260));
    }
    printf("%08X%08X\n", (unsigned)(digest >> 32), (unsigned)digest);
    return 0;
}

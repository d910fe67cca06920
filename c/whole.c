/* The calls in whole numbers: their refusals and the order of these, what each writes, tables whose answer is known, and
 * random tables beside values worked out here at 64ths. Exits with 1 at the first surprise. */
#include "simmerstoat_whole.h"

#include <stdio.h>
#include <stdlib.h>
#include <string.h>

#define KEPT_WHOLE UINT64_C(0xABCDABCDABCDABCD)
static const int64_t KEPT = -987654321;
static const int64_t MOST = INT64_C(1000000000000), MOST_ROW = INT64_C(500000000000);
static long checked;

static void fail(const char *what, uint64_t told, uint64_t wanted) {
    printf("%s: %llu, expected %llu\n", what, (unsigned long long)told, (unsigned long long)wanted);
    exit(1);
}

/* what every direction is asked by: 0 falling, 1 rising, 2 the curve's own ends */
static uint32_t asked(uint8_t basis, int way, const int64_t *knots, uint64_t n, uint64_t turning[2]) {
    turning[0] = turning[1] = KEPT_WHOLE;
    checked++;
    return way == 2 ? simmerstoat_turns_back(basis, knots, n, turning) : simmerstoat_turns_back_by(basis, way == 1, knots, n, turning);
}

static void refused(const char *what, uint32_t wanted, uint8_t basis, const int64_t *knots, uint64_t n) {
    for (int way = 0; way < 3; way++) {
        uint64_t turning[2];
        uint32_t reply = asked(basis, way, knots, n, turning);
        if (reply != wanted) fail(what, reply, wanted);
        if (turning[0] != KEPT_WHOLE || turning[1] != KEPT_WHOLE) fail(what, turning[0], KEPT_WHOLE);
    }
}

static void answered(const char *what, uint8_t basis, int way, const int64_t *knots, uint64_t n, uint64_t wanted, uint64_t segment) {
    uint64_t turning[2];
    uint32_t reply = asked(basis, way, knots, n, turning);
    if (reply != 0) fail(what, reply, 0);
    if (turning[SIMMERSTOAT_TURNING] != wanted) fail(what, turning[SIMMERSTOAT_TURNING], wanted);
    if (turning[SIMMERSTOAT_TURNING_SEGMENT] != segment) fail(what, turning[SIMMERSTOAT_TURNING_SEGMENT], segment);
}

static void refusals(void) {
    static int64_t many[4100];
    const uint64_t step[6] = {1, 3, 1, 2, 1, 4};
    many[0] = INT64_MIN;
    for (int basis = 6; basis < 256; basis++) refused("no basis", 255, (uint8_t)basis, NULL, 0);
    for (uint8_t basis = 0; basis < 6; basis++) {
        refused("no knot", 1, basis, NULL, 0);
        refused("three knots", 1, basis, many, 3);
        for (uint64_t n = 4; n < 20; n++) {
            refused("a length", (n - 4) % step[basis] ? 2 : 4, basis, many, n);
        }
        refused("4,096 knots", 4, basis, many, 4096);
        refused("more", step[basis] == 1 || (4097 - 4) % step[basis] == 0 ? 3 : 2, basis, many, 4097);
    }
    many[0] = 0;
    for (int k = 0; k < 4; k++) {
        const int64_t bad[4] = {MOST + 1, -MOST - 1, INT64_MIN, INT64_MAX};
        const uint32_t place[3] = {0, 7, 4095};
        for (int i = 0; i < 3; i++) {
            many[place[i]] = bad[k];
            many[4095] = bad[k]; /* the first of two is told */
            refused("a large knot", 4 + 256 * place[i], 2, many, 4096);
            many[place[i]] = many[4095] = 0;
        }
    }
}

static void known(void) {
    const int64_t overshoots[8] = {0, 0, 100, 5000, 5050, 5100, 5150, 5200};
    const int64_t twice[6] = {0, 5000, 10000, 10000, 10500, 11000}, still[4] = {7, 7, 7, 7};
    const int64_t turned[4] = {0, 1000, -1, 1000}, touches[4] = {0, 1000, 0, 1000}, jumps[8] = {0, 0, 10, 0, 0, 0, 10, 9};
    const int64_t edge[4] = {-MOST, -MOST, MOST, MOST};
    answered("it dips before the burst", SIMMERSTOAT_CATMULL_ROM, 2, overshoots, 8, SIMMERSTOAT_TURNS_AT, 0);
    answered("a B-spline does not", SIMMERSTOAT_BSPLINE, 2, overshoots, 8, SIMMERSTOAT_NEVER_TURNS, 0);
    answered("nor does Linear", SIMMERSTOAT_LINEAR, 2, overshoots, 8, SIMMERSTOAT_NEVER_TURNS, 0);
    answered("an hour that stands twice", SIMMERSTOAT_CATMULL_ROM, 2, twice, 6, SIMMERSTOAT_TURNS_AT, 1);
    for (uint8_t basis = 0; basis < 5; basis++) {
        if (basis == SIMMERSTOAT_HERMITE) continue;
        answered("no direction", basis, 2, still, 4, SIMMERSTOAT_FLAT, 0);
        answered("equal knots never fall", basis, 1, still, 4, SIMMERSTOAT_NEVER_TURNS, 0);
        answered("nor rise", basis, 0, still, 4, SIMMERSTOAT_NEVER_TURNS, 0);
    }
    answered("it turns", SIMMERSTOAT_BEZIER, 2, turned, 4, SIMMERSTOAT_TURNS_AT, 0);
    answered("it stands still for a moment", SIMMERSTOAT_BEZIER, 2, touches, 4, SIMMERSTOAT_NEVER_TURNS, 0);
    answered("a falling curve, asked whether it falls", SIMMERSTOAT_LINEAR, 1, (const int64_t[]){9, 5, 3, 1}, 4, SIMMERSTOAT_TURNS_AT, 0);
    answered("a falling curve by its own ends", SIMMERSTOAT_LINEAR, 2, (const int64_t[]){9, 5, 3, 1}, 4, SIMMERSTOAT_NEVER_TURNS, 0);
    answered("Power that starts below the end before", SIMMERSTOAT_POWER, 1, jumps, 8, SIMMERSTOAT_TURNS_AT, 1);
    answered("the largest knots", SIMMERSTOAT_CATMULL_ROM, 2, edge, 4, SIMMERSTOAT_NEVER_TURNS, 0);
}

/* ---- a table */
static uint32_t made(const int64_t *rows, uint64_t n, int64_t *out, uint64_t room, uint64_t all, uint64_t *written) {
    for (uint64_t i = 0; i < all; i++) out[i] = KEPT + (int64_t)i;
    *written = KEPT_WHOLE;
    checked++;
    uint32_t reply = simmerstoat_monotone(rows, n, out, room, written);
    for (uint64_t i = reply ? 0 : 2 * n; i < all; i++) {
        if (out[i] != KEPT + (int64_t)i) fail("a place that is not to be written", i, all);
    }
    if (*written != (reply ? KEPT_WHOLE : 2 * n)) fail("the count", *written, 2 * n);
    return reply;
}

static void tables(void) {
    static int64_t rows[2050], out[4200];
    uint64_t written;
    const int64_t night[8] = {0, 0, 100, 5000, 5050, 5100, 5150, 5200};
    const int64_t wanted[16] = {0, 0, 0, 0, 100, 300, 5000, 150, 5050, 50, 5100, 50, 5150, 50, 5200, 50};
    if (made(night, 8, out, 16, 20, &written) != 0) fail("a night", written, 16);
    if (memcmp(out, wanted, sizeof wanted) != 0) fail("the night's table", (uint64_t)out[5], 300);
    answered("it never turns back", SIMMERSTOAT_HERMITE, 2, out, 16, SIMMERSTOAT_NEVER_TURNS, 0);

    for (uint64_t n = 0; n < 2050; n++) {
        uint32_t reply = made(rows, n, out, 4200, 4200, &written);
        if (reply != (n < 2 ? 1u : n > 2048 ? 3u : 0u)) fail("so many rows", n, reply);
        if (n > 40 && n < 2040) n += 96;
    }
    rows[3] = INT64_MIN;
    if (made(NULL, 0, out, 0, 8, &written) != 1) fail("no row", 0, 1);
    if (made(rows, 5, out, 9, 20, &written) != 9) fail("a short buffer before a bad row", 0, 9);
    if (made(rows, 5, out, 10, 20, &written) != 4 + 256 * 3) fail("a bad row", 0, 3);
    rows[1] = -MOST_ROW - 1;
    if (made(rows, 5, out, 10, 20, &written) != 4 + 256 * 1) fail("the first bad row", 0, 1);
    rows[1] = MOST_ROW, rows[3] = -MOST_ROW;
    if (made(rows, 5, out, 10, 20, &written) != 0) fail("the largest rows", 0, 0);
}

/* ---- random nights: what is told is what values at 64ths can show */
static uint64_t state = 88172645463325252u;
static uint64_t below(uint64_t n) {
    state ^= state << 13, state ^= state >> 7, state ^= state << 17;
    return (state >> 11) % n;
}

/* CatmullRom's value at j/64, times 2 * 64^3 */
static int64_t catmull(const int64_t *k, int64_t j) {
    int64_t w0 = -k[0] + 3 * k[1] - 3 * k[2] + k[3], w1 = 2 * k[0] - 5 * k[1] + 4 * k[2] - k[3], w2 = k[2] - k[0], w3 = 2 * k[1];
    return w0 * j * j * j + 64 * w1 * j * j + 64 * 64 * w2 * j + 64 * 64 * 64 * w3;
}

/* Hermite's, times 64^3 */
static int64_t hermite(const int64_t *k, int64_t j) {
    int64_t w0 = 2 * k[0] + k[1] - 2 * k[2] + k[3], w1 = -3 * k[0] - 2 * k[1] + 3 * k[2] - k[3];
    return w0 * j * j * j + 64 * w1 * j * j + 64 * 64 * k[1] * j + 64 * 64 * 64 * k[0];
}

static void nights(void) {
#ifdef FEWER
    enum { NIGHTS = 2000 }; /* for emulators */
#else
    enum { NIGHTS = 20000 };
#endif
    long fell = 0;
    for (int night = 0; night < NIGHTS; night++) {
        int64_t rows[24], out[48];
        uint64_t n = 4 + below(20), turning[2], written;
        rows[0] = (int64_t)below(2000) - 1000;
        for (uint64_t i = 1; i < n; i++) rows[i] = rows[i - 1] + (int64_t)(below(3) ? below(2000) : 0);
        uint64_t shown = n;
        for (uint64_t s = n - 3; s-- > 0;) {
            for (int64_t j = 0; j < 64; j++) {
                if (catmull(rows + s, j + 1) < catmull(rows + s, j)) shown = s;
            }
        }
        if (asked(SIMMERSTOAT_CATMULL_ROM, 1, rows, n, turning) != 0) fail("a night", turning[0], 0);
        if (shown < n && (turning[0] != SIMMERSTOAT_TURNS_AT || turning[1] > shown)) fail("a fall that is not told", turning[1], shown);
        fell += turning[0] == SIMMERSTOAT_TURNS_AT;
        if (made(rows, n, out, 48, 48, &written) != 0) fail("a night's table", written, 2 * n);
        answered("a table that turns", SIMMERSTOAT_HERMITE, 1, out, 2 * n, SIMMERSTOAT_NEVER_TURNS, 0);
        for (uint64_t s = 0; s + 1 < n; s++) {
            if (out[2 * s] != rows[s]) fail("a row", s, n);
            for (int64_t j = 0; j < 64; j++) {
                if (hermite(out + 2 * s, j + 1) < hermite(out + 2 * s, j)) fail("a table that falls", s, n);
            }
        }
    }
    if (fell < NIGHTS / 2 || fell >= NIGHTS) fail("nights that fall", (uint64_t)fell, NIGHTS * 3 / 4);
}

int main(void) {
    refusals();
    known();
    tables();
    nights();
    printf("whole: %ld calls as expected\n", checked);
    return 0;
}

/* Tables with a span: which spans are refused, in which order, that a refusal writes nothing, and the second of a
 * place. Exits with 1 at the first surprise. */
#include "simmerstoat.h"

#include <math.h>
#include <stdio.h>
#include <stdlib.h>
#include <string.h>

static const double KEPT = -77.25;
static const uint64_t KEPT_WHOLE = 987654321;

static double value, place[4], out[8];
static uint64_t whole[4], written;
static uint32_t handed;
static int checked;

static void reset(void) {
    value = KEPT;
    written = KEPT_WHOLE;
    handed = 7;
    for (int i = 0; i < 4; i++) place[i] = KEPT, whole[i] = KEPT_WHOLE;
    for (int i = 0; i < 8; i++) out[i] = KEPT;
}

static int untouched(void) {
    int good = value == KEPT && written == KEPT_WHOLE && handed == 7;
    for (int i = 0; i < 4; i++) good = good && place[i] == KEPT && whole[i] == KEPT_WHOLE;
    for (int i = 0; i < 8; i++) good = good && out[i] == KEPT;
    return good;
}

static void expect(const char *what, unsigned wanted, unsigned reply) {
    checked++;
    if (reply != wanted || (wanted != SIMMERSTOAT_DONE && !untouched())) {
        printf("%s: reply %u, expected %u\n", what, reply, wanted);
        exit(1);
    }
}

static unsigned at(int b, uint32_t span, double x, const double *k, uint64_t n) {
    reset();
    return simmerstoat_table_spline(b, span, x, k, n, &value);
}
static unsigned find(int b, uint32_t span, double y, const double *k, uint64_t n) {
    reset();
    return simmerstoat_table_spline_inverse(b, span, y, k, n, true, place, whole);
}
static unsigned find_by(int b, uint32_t span, double y, const double *k, uint64_t n, uint16_t limit, int ends, int method) {
    reset();
    return simmerstoat_table_spline_inverse_by(b, span, y, k, n, true, limit, 1e-10, ends, method, place, whole);
}
static unsigned turn(int from, uint32_t span, int to, const double *k, uint64_t n, uint64_t room) {
    reset();
    return simmerstoat_table_convert_spline(from, span, to, k, n, out, room, &handed, &written);
}

static unsigned turn_strict(int from, uint32_t span, int to, const double *k, uint64_t n, double allowance, uint64_t room) {
    reset();
    return simmerstoat_table_convert_spline_strict(from, span, to, k, n, allowance, out, room, &handed, &written);
}

/* A bend at the seam of two Bezier segments, whose slope Hermite cannot keep: 14 and 17 in their order, 15 with its
 * segment, and with an allowance of 3 the plain conversion's span, length and buffer. */
static void strict(void) {
    const int BEZIER = SIMMERSTOAT_BEZIER, HERMITE = SIMMERSTOAT_HERMITE, LINEAR = SIMMERSTOAT_LINEAR;
    static const double bend[] = {0, 0, 0, 0, 1, 1, 1}, flawed[] = {0, 0, 0, 0, 1, NAN, 1};
    expect("strict, no basis", SIMMERSTOAT_NO_BASIS, turn_strict(6, 0, HERMITE, bend, 3, NAN, 0));
    expect("strict, no basis to turn to", SIMMERSTOAT_NO_BASIS, turn_strict(BEZIER, 0, 6, bend, 3, NAN, 0));
    expect("strict, few", SIMMERSTOAT_TOO_FEW, turn_strict(BEZIER, 0, LINEAR, bend, 3, NAN, 0));
    expect("strict, pattern", SIMMERSTOAT_BAD_PATTERN, turn_strict(BEZIER, 0, LINEAR, bend, 5, NAN, 0));
    expect("strict, span", SIMMERSTOAT_BAD_SPAN, turn_strict(BEZIER, 0, LINEAR, flawed, 7, NAN, 0));
    expect("strict, long span", SIMMERSTOAT_BAD_SPAN, turn_strict(BEZIER, 86401, LINEAR, flawed, 7, NAN, 0));
    expect("strict, linear", SIMMERSTOAT_LINEAR_OUTPUT, turn_strict(BEZIER, 1, LINEAR, flawed, 7, NAN, 0));
    expect("strict, allowance", SIMMERSTOAT_BAD_ALLOWANCE, turn_strict(BEZIER, 1, HERMITE, flawed, 7, -1, 0));
    expect("strict, short", SIMMERSTOAT_SHORT_BUFFER, turn_strict(BEZIER, 1, HERMITE, flawed, 7, 0, 5));
    expect("strict, knot", SIMMERSTOAT_BAD_KNOT + 256 * 5, turn_strict(BEZIER, 1, HERMITE, flawed, 7, 0, 8));
    expect("strict, seam", SIMMERSTOAT_LOST_SEAM + 256, turn_strict(BEZIER, 86400, HERMITE, bend, 7, 0, 8));
    expect("strict, just below", SIMMERSTOAT_LOST_SEAM + 256, turn_strict(BEZIER, 86400, HERMITE, bend, 7, nextafter(3, 0), 8));
    expect("strict, as much as the slope", 0, turn_strict(BEZIER, 7200, HERMITE, bend, 7, 3, 8));
    double kept[8];
    memcpy(kept, out, sizeof out);
    uint32_t span = handed;
    uint64_t length = written;
    expect("its span and length", 0, span != 7200 || length != 6);
    expect("plain", 0, turn(BEZIER, 7200, HERMITE, bend, 7, 8));
    expect("the same", 0, span != handed || length != written || memcmp(kept, out, sizeof out) != 0);
}

int main(void) {
    const double k[] = {0.0, 0.0, 1.0, 1.0};
    const int LINEAR = SIMMERSTOAT_LINEAR, BEZIER = SIMMERSTOAT_BEZIER;
    const uint32_t bad[] = {0, 86401, 99999, UINT32_MAX};
    for (int i = 0; i < 4; i++) {
        expect("span, at", SIMMERSTOAT_BAD_SPAN, at(LINEAR, bad[i], NAN, k, 4));
        expect("span, find", SIMMERSTOAT_BAD_SPAN, find(LINEAR, bad[i], NAN, k, 4));
        expect("span, find by", SIMMERSTOAT_BAD_SPAN, find_by(LINEAR, bad[i], 0.5, k, 4, 0, 0, 0));
        expect("span, turn", SIMMERSTOAT_BAD_SPAN, turn(LINEAR, bad[i], LINEAR, k, 4, 8));
        expect("few, at", SIMMERSTOAT_TOO_FEW, at(LINEAR, bad[i], NAN, k, 3));
        expect("few, turn", SIMMERSTOAT_TOO_FEW, turn(LINEAR, bad[i], BEZIER, k, 3, 8));
        expect("no basis", SIMMERSTOAT_NO_BASIS, at(6, bad[i], NAN, k, 3));
    }
    expect("no basis to turn to", SIMMERSTOAT_NO_BASIS, turn(LINEAR, 1, 6, k, 4, 8));
    expect("no ends", SIMMERSTOAT_NO_BASIS, find_by(LINEAR, 1, 0.5, k, 4, 32, 2, 0));
    expect("no method", SIMMERSTOAT_NO_BASIS, find_by(LINEAR, 1, 0.5, k, 4, 32, 0, 3));
    expect("NaN, at", SIMMERSTOAT_NOT_A_NUMBER, at(LINEAR, 1, NAN, k, 4));
    expect("no rounds", SIMMERSTOAT_NO_ROUNDS, find_by(LINEAR, 86400, 0.5, k, 4, 0, 0, 0));
    expect("at", 0, at(LINEAR, 86400, 0.5, k, 4));
    expect("the value", 0, value != 0.5);
    expect("at dawn", 0, find(LINEAR, 86400, 1.0, k, 4));
    expect("its second", 0, whole[SIMMERSTOAT_SECOND] != 86400);
    expect("at dusk", 0, find(LINEAR, 86400, 0.0, k, 4));
    expect("its second", 0, whole[SIMMERSTOAT_SECOND] != 0);
    expect("half way", 0, find_by(LINEAR, 86400, 0.5, k, 4, 32, 1, 0));
    expect("its second", 0, whole[SIMMERSTOAT_SECOND] != 43200);
    expect("turn", 0, turn(LINEAR, 7200, BEZIER, k, 4, 8));
    expect("its span and length", 0, handed != 7200 || written != 4 || out[4] != KEPT);
    strict();
    printf("%d replies as they should be\n", checked);
    return 0;
}

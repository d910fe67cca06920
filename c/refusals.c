/* Each refusal of each call with its place, and that a refused call writes nothing. Exits with 1 at the first surprise. */
#include "simmerstoat.h"

#include <math.h>
#include <stdio.h>
#include <stdlib.h>
#include <string.h>

static const double KEPT = -77.25;
static const uint64_t KEPT_WHOLE = 987654321;

static double value, place[4], out[64];
static uint64_t whole[3], written;
static int checked;

static void reset(void) {
    value = KEPT;
    written = KEPT_WHOLE;
    for (int i = 0; i < 4; i++) place[i] = KEPT;
    for (int i = 0; i < 3; i++) whole[i] = KEPT_WHOLE;
    for (int i = 0; i < 64; i++) out[i] = KEPT;
}

static int untouched(int but_count) {
    int good = value == KEPT && written == KEPT_WHOLE;
    for (int i = 0; i < 4; i++) good = good && place[i] == KEPT;
    for (int i = 0; i < 3; i++) good = good && (whole[i] == KEPT_WHOLE || (but_count && i == SIMMERSTOAT_COUNT));
    for (int i = 0; i < 64; i++) good = good && out[i] == KEPT;
    return good;
}

static void expect(const char *what, uint32_t wanted, uint32_t reply) {
    checked++;
    int wrote = wanted != SIMMERSTOAT_DONE && !untouched(wanted == SIMMERSTOAT_OFF_CURVE);
    if (reply != wanted || wrote) {
        printf("%s: reply %u at %u, expected %u at %u%s\n", what, (unsigned)SIMMERSTOAT_NUMBER(reply), (unsigned)SIMMERSTOAT_PLACE(reply),
               (unsigned)SIMMERSTOAT_NUMBER(wanted), (unsigned)SIMMERSTOAT_PLACE(wanted), wrote ? ", and something was written" : "");
        exit(1);
    }
    reset();
}

/* A refusal's number with the place that it tells. */
static uint32_t told(uint32_t number, uint64_t place_told) { return number + 256 * (uint32_t)place_told; }

/* The calls, short: everything that they write is global. */
static uint32_t at(int b, double x, const double *k, uint64_t n) { return simmerstoat_spline(b, x, k, n, &value); }
static uint32_t at_one(int b, double x, const double *k, uint64_t n) { return simmerstoat_spline_segment(b, x, k, n, &value); }
static uint32_t find(int b, double y, const double *k, uint64_t n, bool check, uint16_t limit, double precision) {
    return simmerstoat_spline_inverse_with(b, y, k, n, check, limit, precision, place, whole);
}
static uint32_t find_one(int b, double y, const double *k, uint64_t n, uint16_t limit, double precision) {
    return simmerstoat_spline_inverse_segment_with(b, y, k, n, limit, precision, place, whole);
}
static uint32_t find_default(int b, double y, const double *k, uint64_t n) {
    return simmerstoat_spline_inverse(b, y, k, n, true, place, whole);
}
static uint32_t find_one_default(int b, double y, const double *k, uint64_t n) {
    return simmerstoat_spline_inverse_segment(b, y, k, n, place, whole);
}
static uint32_t find_by(int b, double y, const double *k, uint64_t n, bool check, int ends, int method) {
    return simmerstoat_spline_inverse_by(b, y, k, n, check, 32, 1e-10, ends, method, place, whole);
}
static uint32_t find_one_by(int b, double y, const double *k, uint64_t n, int method) {
    return simmerstoat_spline_inverse_segment_by(b, y, k, n, 32, 1e-10, method, place, whole);
}
static uint32_t turn(int from, int to, const double *k, uint64_t n, uint64_t room) {
    return simmerstoat_convert_spline(from, to, k, n, room ? out : NULL, room, &written);
}
static uint32_t turn_one(int from, int to, const double *k, uint64_t n, uint64_t room) {
    return simmerstoat_convert_segment(from, to, k, n, room ? out : NULL, room);
}

static const int LINEAR = SIMMERSTOAT_LINEAR, BEZIER = SIMMERSTOAT_BEZIER;

static void lengths(void) {
    static double zeros[4100];
    expect("null, at", 1, at(LINEAR, 0.5, NULL, 0));
    expect("null, at_one", 1, at_one(LINEAR, 0.5, NULL, 0));
    expect("null, find", 1, find(LINEAR, 0.5, NULL, 0, true, 32, 1e-10));
    expect("null, find_one", 1, find_one(LINEAR, 0.5, NULL, 0, 32, 1e-10));
    expect("null, find_default", 1, find_default(LINEAR, 0.5, NULL, 0));
    expect("null, find_one_default", 1, find_one_default(LINEAR, 0.5, NULL, 0));
    expect("null, find_by", 1, find_by(LINEAR, 0.5, NULL, 0, true, 1, 2));
    expect("null, find_one_by", 1, find_one_by(LINEAR, 0.5, NULL, 0, 2));
    expect("null, turn", 1, turn(LINEAR, BEZIER, NULL, 0, 0));
    expect("null, turn_one", 1, turn_one(LINEAR, BEZIER, NULL, 0, 0));
    expect("null, no basis", 255, at(6, 0.5, NULL, 0));
    for (uint64_t n = 0; n < 4; n++) {
        expect("few, at", 1, at(BEZIER, 0.5, zeros, n));
        expect("few, turn", 1, turn(BEZIER, BEZIER, zeros, n, 64));
    }
    expect("five, at", 2, at(BEZIER, 0.5, zeros, 5));
    expect("five, at_one", 2, at_one(LINEAR, 0.5, zeros, 5));
    expect("five, find", 2, find(BEZIER, 0.5, zeros, 5, true, 32, 1e-10));
    expect("five, find_one", 2, find_one(LINEAR, 0.5, zeros, 5, 32, 1e-10));
    expect("five, turn", 2, turn(BEZIER, BEZIER, zeros, 5, 64));
    expect("five, turn_one", 2, turn_one(LINEAR, BEZIER, zeros, 5, 64));
    expect("4,096, at", 0, at(LINEAR, 0.5, zeros, 4096));
    expect("4,097, at", 3, at(LINEAR, 0.5, zeros, 4097));
    expect("4,097, find", 3, find(LINEAR, 0.5, zeros, 4097, true, 32, 1e-10));
    expect("4,097, turn", 3, turn(LINEAR, BEZIER, zeros, 4097, 64));
    for (int b = 0; b < 256; b++) {
        expect("is_len_ok", 0, simmerstoat_is_len_ok(b, 4) != (b < 6 ? 1 : 255) || simmerstoat_is_len_ok(b, 3) != (b < 6 ? 0 : 255));
        expect("suits", 0, simmerstoat_suits(b, 4) != (b < 6) || simmerstoat_suits(b, 3));
    }
}

static void arguments(const double *k) {
    expect("no basis, at", 255, at(255, NAN, k, 4));
    expect("no basis, at_one", 255, at_one(6, NAN, k, 4));
    expect("no basis, find", 255, find(6, NAN, k, 4, true, 0, NAN));
    expect("no basis, find_one", 255, find_one(6, NAN, k, 4, 0, NAN));
    expect("no basis from, turn", 255, turn(6, LINEAR, k, 4, 0));
    expect("no basis to, turn", 255, turn(LINEAR, 6, k, 4, 0));
    expect("no basis, turn_one", 255, turn_one(LINEAR, 200, k, 4, 0));
    expect("NaN, at", 5, at(LINEAR, NAN, k, 4));
    expect("infinite, at", 0, at(LINEAR, INFINITY, k, 4));
    expect("NaN, at_one", 5, at_one(LINEAR, NAN, k, 4));
    expect("above, at_one", 5, at_one(LINEAR, nextafter(1.0, 2.0), k, 4));
    expect("below, at_one", 5, at_one(LINEAR, -5e-324, k, 4));
    expect("minus nought, at_one", 0, at_one(LINEAR, -0.0, k, 4));
    expect("NaN, find", 5, find(LINEAR, NAN, k, 4, true, 0, NAN));
    expect("precision NaN", 6, find(LINEAR, 0.5, k, 4, true, 0, NAN));
    expect("precision infinite", 6, find(LINEAR, 0.5, k, 4, true, 0, INFINITY));
    expect("precision nought", 6, find_one(LINEAR, 0.5, k, 4, 0, 0.0));
    expect("precision below", 6, find_one(LINEAR, 0.5, k, 4, 0, -1e-10));
    expect("limit nought", 7, find(LINEAR, 0.5, k, 4, true, 0, 1e-10));
    expect("limit nought, one", 7, find_one(LINEAR, 0.5, k, 4, 0, 1e-10));
    expect("off the segment", 11, find_one(LINEAR, 2.0, k, 4, 32, 1e-10));
    expect("off the segment, by default", 11, find_one_default(LINEAR, -1.0, k, 4));
    expect("Linear output", 8, turn(BEZIER, LINEAR, k, 4, 0));
    expect("Linear output, one", 8, turn_one(BEZIER, LINEAR, k, 4, 0));
    expect("no room", 9, turn(BEZIER, BEZIER, k, 4, 0));
    expect("short by one", 9, turn(BEZIER, BEZIER, k, 4, 3));
    expect("no room, one", 9, turn_one(BEZIER, BEZIER, k, 4, 3));
}

static void knots(void) {
    const double bad[] = {NAN, INFINITY, -INFINITY, 1099511627776.0 + 0.000244140625, -1099511627777.0, 1e300};
    for (int i = 0; i < 6; i++) {
        for (int place_of_it = 0; place_of_it < 4; place_of_it++) {
            double k[] = {0.0, 0.0, 1.0, 1.0};
            k[place_of_it] = bad[i];
            expect("bad knot, at", told(4, place_of_it), at(LINEAR, 0.5, k, 4));
            expect("bad knot, at_one", told(4, place_of_it), at_one(LINEAR, 0.5, k, 4));
            expect("bad knot, find", told(4, place_of_it), find(LINEAR, 0.5, k, 4, true, 32, 1e-10));
            expect("bad knot, find without check", told(4, place_of_it), find(LINEAR, 0.5, k, 4, false, 32, 1e-10));
            expect("bad knot, find_one", told(4, place_of_it), find_one(LINEAR, 0.5, k, 4, 32, 1e-10));
            expect("bad knot, turn", told(4, place_of_it), turn(LINEAR, BEZIER, k, 4, 4));
            expect("bad knot, turn_one", told(4, place_of_it), turn_one(LINEAR, BEZIER, k, 4, 4));
        }
    }
    const double largest[] = {1099511627776.0, -1099511627776.0, 0.0, 0.0};
    expect("2^40, at", 0, at(LINEAR, 0.5, largest, 4));
    const double turning[] = {0.0, 0.0, 3.0, 2.0, 5.0, 5.0};
    expect("turns back", told(10, 2), find(SIMMERSTOAT_CATMULL_ROM, 1.0, turning, 6, true, 32, 1e-10));
    expect("turns back, by default", told(10, 2), find_default(SIMMERSTOAT_CATMULL_ROM, 1.0, turning, 6));
    expect("turns back, no check", 0, find(SIMMERSTOAT_CATMULL_ROM, 1.0, turning, 6, false, 32, 1e-10));
}

/* The longest table, with a fault at its first knot, its second, in the middle, at its last; with two; and with one of each kind. */
static double many[4096];
static const uint64_t LAST = 4095;

static void rising(void) {
    for (uint64_t i = 0; i <= LAST; i++) many[i] = (double)i;
}

static void every(const char *what, uint32_t wanted, uint32_t unchecked) {
    expect(what, unchecked, at(LINEAR, 0.5, many, 4096));
    expect(what, wanted, find(LINEAR, 0.5, many, 4096, true, 32, 1e-10));
    expect(what, wanted, find_default(LINEAR, 0.5, many, 4096));
    expect(what, wanted, find_by(LINEAR, 0.5, many, 4096, true, SIMMERSTOAT_ENDS_CURVE, SIMMERSTOAT_STEADY));
    expect(what, unchecked, find(LINEAR, 0.5, many, 4096, false, 32, 1e-10));
    expect("too little room comes before the knots", 9, turn(LINEAR, BEZIER, many, 4096, 64));
}

static void places(void) {
    const uint64_t faults[] = {0, 1, 2048, LAST - 1, LAST};
    for (int i = 0; i < 5; i++) {
        rising();
        many[faults[i]] = NAN;
        every("one bad knot", told(4, faults[i]), told(4, faults[i]));
        many[LAST] = INFINITY;
        every("two bad knots", told(4, faults[i]), told(4, faults[i]));
    }
    /* a knot that goes back is told by the knot before it; knot 0 and the step from it are no part of the direction */
    for (int i = 2; i < 5; i++) {
        rising();
        many[faults[i]] -= 1.5;
        every("one turn", told(10, faults[i] - 1), 0);
        many[LAST] = -2.0;
        every("two turns", told(10, faults[i] - 1), 0);
    }
    rising();
    many[0] = 9000.0;
    every("knot 0 counts in no order", 0, 0);
    rising();
    many[2] = 0.5;
    every("the first step", told(10, 1), 0);
    for (uint64_t i = 0; i <= LAST; i++) many[i] = -(double)i;
    many[17] = 3.0;
    every("falling, one turn", told(10, 16), 0);
    /* a bad knot after a turning back, and before it: 4 comes first */
    rising();
    many[9] = 0.0;
    many[100] = -INFINITY;
    every("a turn, then a bad knot", told(4, 100), told(4, 100));
    many[3] = NAN;
    every("a bad knot, then a turn", told(4, 3), told(4, 3));
}

/* Rules of the ends and methods by their numbers, and the structs. */
static void options(const double *k) {
    for (int n = 0; n < 256; n++) {
        expect("ends by number", n < 2 ? 0 : 255, find_by(LINEAR, 0.5, k, 4, true, n, 0));
        expect("methods by number", n < 3 ? 0 : 255, find_by(LINEAR, 0.5, k, 4, true, 0, n));
        expect("methods by number, one", n < 3 ? 0 : 255, find_one_by(LINEAR, 0.5, k, 4, n));
    }
    expect("no basis, find_by", 255, find_by(6, NAN, k, 4, true, 0, 0));
    expect("no basis, find_one_by", 255, find_one_by(6, NAN, k, 4, 0));
    expect("no ends before NaN", 255, find_by(LINEAR, NAN, k, 4, true, 2, 0));
    expect("no method before too few", 255, find_by(LINEAR, 0.5, k, 3, true, 0, 3));
    expect("NaN, find_by", 5, find_by(LINEAR, NAN, k, 4, true, 1, 1));
    expect("off the segment, find_one_by", 11, find_one_by(LINEAR, 2.0, k, 4, 2));
    struct simmerstoat_options o = simmerstoat_defaults();
    struct simmerstoat_place p = {KEPT, KEPT, KEPT, KEPT, KEPT_WHOLE, KEPT_WHOLE, KEPT_WHOLE};
    o.limit = 0;
    expect("limit nought, find struct", 7, simmerstoat_find(LINEAR, 0.5, k, 4, o, &p));
    expect("kept", 0, p.parameter != KEPT || p.count != KEPT_WHOLE || p.segment != KEPT_WHOLE);
    expect("off, struct", 11, simmerstoat_find_in_segment(LINEAR, 2.0, k, 4, simmerstoat_defaults(), &p));
    expect("its count alone", 0, p.parameter != KEPT || p.count != 2 || p.segment != KEPT_WHOLE);
    expect("found, struct", 0, simmerstoat_find(LINEAR, 0.5, k, 4, simmerstoat_defaults(), &p));
    expect("all of it", 0, p.parameter != 0.5 || p.ground != SIMMERSTOAT_VALUE || p.segment != 0 || p.count != 3);
    expect("room", 0, simmerstoat_room(SIMMERSTOAT_CATMULL_ROM, BEZIER, 6) != 10 || simmerstoat_room(BEZIER, BEZIER, 5) != 0);
    expect("most room", 0, simmerstoat_room(LINEAR, SIMMERSTOAT_POWER, 4096) != 16372 || simmerstoat_room(6, 0, 4) != 0);
}

/* The worked readings of refusal 11: its count; and of the curve's own ends. */
static void counts(void) {
    double k[16] = {0.0};
    for (int i = 1; i < 16; i++) k[i] = 6.0 * (i - 1);
    simmerstoat_spline_inverse(SIMMERSTOAT_BSPLINE, 0.5, k, 16, true, place, whole);
    expect("count 10", 0, whole[SIMMERSTOAT_COUNT] != 10);
    simmerstoat_spline_inverse(SIMMERSTOAT_BSPLINE, 0.5, k, 15, true, place, whole);
    expect("count 24", 0, whole[SIMMERSTOAT_COUNT] != 24);
    simmerstoat_spline_inverse_by(SIMMERSTOAT_BSPLINE, 0.5, k, 16, true, 32, 1e-10, SIMMERSTOAT_ENDS_CURVE, SIMMERSTOAT_AS_CRATE, place,
                                  whole);
    bool is_start = place[SIMMERSTOAT_PARAMETER] == 0.0 && whole[SIMMERSTOAT_GROUND] == SIMMERSTOAT_END;
    expect("the curve's own ends", 0, !is_start || whole[SIMMERSTOAT_COUNT] != 2);
}

int main(void) {
    const double k[] = {0.0, 0.0, 1.0, 1.0};
    reset();
    expect("the version", SIMMERSTOAT_VERSION, simmerstoat_version());
    lengths();
    arguments(k);
    knots();
    places();
    options(k);
    counts();
    printf("%d replies as they should be\n", checked);
    return 0;
}

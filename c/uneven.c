/* The depth at a time: the two calls in turn, each refusal of each table in its order, and that a refusal writes
 * nothing but the count of 11. Exits with 1 at the first surprise. */
#include "simmerstoat.h"

#include <math.h>
#include <stdio.h>
#include <stdlib.h>

static const double KEPT = -77.25;
static const uint64_t KEPT_WHOLE = 987654321;
static const uint32_t DEPTHS = SIMMERSTOAT_OF_DEPTHS;

static double depth, place[4];
static uint64_t whole[4];
static int checked;

static uint32_t at(int tb, const double *times, uint64_t n, int db, const double *depths, uint64_t m, double y, int limit,
                   double precision) {
    depth = KEPT;
    for (int i = 0; i < 4; i++) place[i] = KEPT, whole[i] = KEPT_WHOLE;
    return simmerstoat_depth_at(tb, times, n, db, depths, m, y, limit, precision, &depth, place, whole);
}

static void expect(const char *what, uint32_t wanted, uint32_t reply) {
    checked++;
    int touched = depth != KEPT;
    for (int i = 0; i < 4; i++) {
        touched = touched || place[i] != KEPT;
        touched = touched || (whole[i] != KEPT_WHOLE && !(reply == SIMMERSTOAT_OFF_CURVE && i == SIMMERSTOAT_COUNT));
    }
    if (reply != wanted || (reply != 0 && touched)) {
        printf("%s: reply %u, expected %u%s\n", what, (unsigned)reply, (unsigned)wanted, touched ? ", and something was written" : "");
        exit(1);
    }
}

static void in_turn(int tb, const double *times, uint64_t n, int db, const double *depths, uint64_t m, double y) {
    double there[4], value = KEPT;
    uint64_t record[3];
    expect("in turn", 0, at(tb, times, n, db, depths, m, y, 32, 1e-10));
    uint32_t found = simmerstoat_spline_inverse(tb, y, times, n, true, there, record);
    uint32_t told = simmerstoat_spline(db, there[SIMMERSTOAT_PARAMETER], depths, m, &value);
    int same = found == 0 && told == 0 && value == depth && whole[SIMMERSTOAT_BOTH] == whole[SIMMERSTOAT_COUNT] + 1;
    for (int i = 0; i < 4; i++) same = same && there[i] == place[i];
    for (int i = 0; i < 3; i++) same = same && record[i] == whole[i];
    checked++;
    if (!same) {
        printf("not the two calls in turn, at %g\n", y);
        exit(1);
    }
}

int main(void) {
    static const int C = SIMMERSTOAT_CATMULL_ROM, B = SIMMERSTOAT_BEZIER;
    static const double times[] = {0.0, 0.0, 0.1, 0.3, 1.0, 1.0}, depths[] = {0.0, 0.0, 1.3, 4.2, 3.2, 3.2};
    static const double bezier[] = {0, 0.1, 0.2, 1.3, 2, 3, 4.2, 4, 3.5, 3.2};
    static const double bad[] = {0, 0, NAN, 0.3, 1, 1}, turning[] = {0, 0, 3, 2, 5, 5};
    static double many[4097];
    for (int i = 0; i <= 20; i++) {
        in_turn(C, times, 6, C, depths, 6, i / 20.0);
        in_turn(C, times, 6, B, bezier, 10, i / 20.0);
    }
    expect("depth at 0.3", 0, at(C, times, 6, C, depths, 6, 0.3, 32, 1e-10));
    printf("depth at 0.3: %.6f after %u evaluations\n", depth, (unsigned)whole[SIMMERSTOAT_BOTH]);

    /* the times: 255 1 2 3 5 6 7 4 10, whatever the depths are */
    expect("no basis", 255, at(6, NULL, 0, C, NULL, 0, NAN, 0, 0));
    expect("no basis", 255, at(C, NULL, 0, 6, NULL, 0, NAN, 0, 0));
    expect("few", 1, at(C, times, 3, C, bad, 3, NAN, 0, 0));
    expect("pattern", 2, at(B, times, 6, C, bad, 3, NAN, 0, 0));
    expect("many", 3, at(C, many, 4097, C, bad, 3, NAN, 0, 0));
    expect("NaN", 5, at(C, bad, 6, C, bad, 3, NAN, 0, 0));
    expect("precision", 6, at(C, bad, 6, C, bad, 3, 0.5, 0, 0));
    expect("rounds", 7, at(C, bad, 6, C, bad, 3, 0.5, 0, 1e-10));
    expect("knot", 4 + 256 * 2, at(C, bad, 6, C, bad, 3, 0.5, 32, 1e-10));
    expect("turns", 10 + 256 * 2, at(C, turning, 6, C, bad, 3, 0.5, 32, 1e-10));
    /* then the depths: 1 2 3 4 18, though the target is not on the curve */
    expect("few depths", DEPTHS + 1, at(B, bezier + 3, 4, C, depths, 3, 9, 32, 1e-10));
    expect("pattern of depths", DEPTHS + 2, at(C, times, 6, B, depths, 6, 0.5, 32, 1e-10));
    expect("many depths", DEPTHS + 3, at(C, times, 6, C, many, 4097, 0.5, 32, 1e-10));
    expect("knot of depths", DEPTHS + 4 + 256 * 2, at(C, times, 5, C, bad, 6, 0.5, 32, 1e-10));
    expect("segments", DEPTHS + 18, at(C, times, 6, C, depths, 5, 0.5, 32, 1e-10));
    /* and 11 last, of the times */
    static const double start[] = {0, 0, 6, 12, 18, 24}, flat[] = {1, 1, 1, 1, 1, 1};
    expect("off", 11, at(SIMMERSTOAT_BSPLINE, start, 6, C, flat, 6, 0.5, 32, 1e-10));
    if (whole[SIMMERSTOAT_COUNT] != 6) {
        printf("11 after %u evaluations, expected 6\n", (unsigned)whole[SIMMERSTOAT_COUNT]);
        return 1;
    }
    expect("off, and segments", DEPTHS + 18, at(SIMMERSTOAT_BSPLINE, start, 6, C, flat, 5, 0.5, 32, 1e-10));
    printf("%d depths as expected\n", checked);
    return 0;
}

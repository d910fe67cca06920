/* Claims of places: what holds, what differs, each refusal; and our own answers, claimed. Prints the number of misses: 0. */
#include <math.h>
#include <stdio.h>

#include "simmerstoat.h"

static int missed;

static void expect(const char *what, uint32_t reply, uint32_t wanted) {
    if (reply != wanted) {
        missed++;
        printf("%s: %u, not %u\n", what, (unsigned)reply, (unsigned)wanted);
    }
}

/* the claim that holds, or differs; on a refusal nothing is written */
static void claim(const char *what, uint8_t basis, double y, uint64_t segment, double local, double precision,
                  const double *knots, uint64_t n, uint32_t reply, bool holds) {
    for (int old = 0; old < 2; old++) {
        bool told = old;
        expect(what, simmerstoat_check_claim(basis, y, segment, local, precision, knots, n, &told), reply);
        expect(what, told, reply ? old : holds);
    }
}

/* an answer by value or edge holds as a claim; how many did, of how many */
static uint64_t own(uint8_t basis, const double *knots, uint64_t n, uint8_t ends, uint8_t method, uint64_t *made) {
    uint64_t held = 0;
    for (int i = 0; i <= 200; i++) {
        double y = knots[0] + (knots[n - 1] - knots[0]) * i / 200.0, place[4];
        uint64_t whole[3];
        if (simmerstoat_spline_inverse_by(basis, y, knots, n, false, 32, 1e-10, ends, method, place, whole)) continue;
        if (whole[SIMMERSTOAT_GROUND] != SIMMERSTOAT_VALUE && whole[SIMMERSTOAT_GROUND] != SIMMERSTOAT_EDGE) continue;
        bool told = false;
        ++*made;
        if (!simmerstoat_check_claim(basis, y, whole[SIMMERSTOAT_SEGMENT], place[SIMMERSTOAT_LOCAL], 1e-10, knots, n, &told))
            held += told;
    }
    return held;
}

int main(void) {
    const double steep[] = {0, 8, 12, 16}, away[] = {0, 0, 6, 12}, bad[] = {0, 1, NAN, 3, INFINITY};
    const double night[] = {-1.2, 0, 1.25, 2.5, 3.75, 4.5, 5, 5.5, 7, 7.5};
    double many[4097] = {0};

    claim("an answer by width", SIMMERSTOAT_BEZIER, 4, 0, 0.125, 0.5, steep, 4, 0, false);
    claim("nearer", SIMMERSTOAT_BEZIER, 4, 0, 0.1875, 0.5, steep, 4, 0, true);
    claim("an answer by end", SIMMERSTOAT_BSPLINE, 0, 0, 0, 1e-10, away, 4, 0, false);
    claim("where the curve begins", SIMMERSTOAT_BSPLINE, 1, 0, 0, 1e-10, away, 4, 0, true);
    claim("-0 lies inside", SIMMERSTOAT_BSPLINE, 1, 0, -0.0, 1e-10, away, 4, 0, true);
    claim("just as much as twice the precision", SIMMERSTOAT_BSPLINE, 0, 0, 0, 0.5, away, 4, 0, false);
    claim("less than twice the precision", SIMMERSTOAT_BSPLINE, 0, 0, 0, 0.5000001, away, 4, 0, true);
    claim("below 0", SIMMERSTOAT_BSPLINE, 1, 0, -1e-300, 8, away, 4, 0, false);
    claim("above 1", SIMMERSTOAT_BSPLINE, 1, 0, 1.0000000000000002, 8, away, 4, 0, false);
    claim("an infinite place", SIMMERSTOAT_BSPLINE, 1, 0, INFINITY, 8, away, 4, 0, false);
    claim("an infinite target", SIMMERSTOAT_BSPLINE, INFINITY, 0, 0, 8, away, 4, 0, false);

    claim("no basis", 6, NAN, 9, NAN, 0, bad, 3, SIMMERSTOAT_NO_BASIS, false);
    claim("too few", SIMMERSTOAT_LINEAR, NAN, 9, NAN, 0, bad, 3, SIMMERSTOAT_TOO_FEW, false);
    claim("no such length", SIMMERSTOAT_BEZIER, NAN, 9, NAN, 0, bad, 5, SIMMERSTOAT_BAD_PATTERN, false);
    claim("too many", SIMMERSTOAT_LINEAR, NAN, 9, NAN, 0, many, 4097, SIMMERSTOAT_TOO_MANY, false);
    claim("the target is NaN", SIMMERSTOAT_LINEAR, NAN, 9, 0, 0, bad, 5, SIMMERSTOAT_NOT_A_NUMBER, false);
    claim("the place is NaN", SIMMERSTOAT_LINEAR, 0, 9, NAN, 0, bad, 5, SIMMERSTOAT_NOT_A_NUMBER, false);
    claim("no precision", SIMMERSTOAT_LINEAR, 0, 9, 0, 0, bad, 5, SIMMERSTOAT_BAD_PRECISION, false);
    claim("infinite precision", SIMMERSTOAT_LINEAR, 0, 9, 0, INFINITY, bad, 5, SIMMERSTOAT_BAD_PRECISION, false);
    claim("no segment", SIMMERSTOAT_LINEAR, 0, 2, 0, 1, bad, 5, SIMMERSTOAT_NO_SEGMENT, false);
    claim("no segment at all", SIMMERSTOAT_LINEAR, 0, UINT64_MAX, 0, 1, bad, 5, SIMMERSTOAT_NO_SEGMENT, false);
    claim("a bad knot", SIMMERSTOAT_LINEAR, 0, 1, 0, 1, bad, 5, SIMMERSTOAT_BAD_KNOT + 256 * 2, false);
    claim("a bad knot beyond the segment", SIMMERSTOAT_LINEAR, 0, 0, 0, 1, bad, 5, SIMMERSTOAT_BAD_KNOT + 256 * 2, false);

    for (uint8_t ends = 0; ends < 2; ends++)
        for (uint8_t method = 0; method < 3; method++) {
            uint64_t made = 0;
            for (uint8_t basis = 0; basis < 6; basis++) {
                uint64_t n = 10 - (basis == SIMMERSTOAT_POWER ? 2 : 0);
                uint64_t before = made, held = own(basis, night, n, ends, method, &made);
                expect("own answers that hold", (uint32_t)held, (uint32_t)(made - before));
            }
            if (made < 100) expect("own answers", (uint32_t)made, 100);
        }
    printf("%d\n", missed);
    return missed != 0;
}

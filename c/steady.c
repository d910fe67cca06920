/* The steady method with its defaults: the same record as the call with options gives, never spent, within its bounds; what is
 * refused writes nothing. On curves where the crate's rule is spent, too. Exits with 1 at the first surprise. */
#include "simmerstoat.h"

#include <math.h>
#include <stdio.h>
#include <stdlib.h>
#include <string.h>

enum { MOST = 200 };

static const double KEPT = -77.25;
static const uint64_t KEPT_WHOLE = 987654321;

struct record {
    uint32_t reply;
    double place[4];
    uint64_t whole[4];
};

static int checked, spent;

static struct record fresh(void) {
    struct record r;
    memset(&r, 0, sizeof r);
    for (int i = 0; i < 4; i++) r.place[i] = KEPT, r.whole[i] = KEPT_WHOLE;
    return r;
}

static void expect(const char *what, int good) {
    checked++;
    if (!good) {
        printf("%s\n", what);
        exit(1);
    }
}

static int same(const struct record *a, const struct record *b, uint64_t whole) {
    return a->reply == b->reply && memcmp(a->place, b->place, sizeof a->place) == 0 &&
           memcmp(a->whole, b->whole, whole * sizeof *a->whole) == 0;
}

static uint64_t most_evaluations(uint64_t segments) {
    uint64_t bits = 0;
    for (uint64_t k = segments; k > 0; k /= 2) bits++;
    return segments <= 12 ? 63 : 43 + 2 * bits;
}

static void segment(int b, double y, const double *cv) {
    struct record r = fresh(), by = fresh(), crate = fresh();
    r.reply = simmerstoat_spline_inverse_segment_steady(b, y, cv, 4, r.place, r.whole);
    by.reply = simmerstoat_spline_inverse_segment_by(b, y, cv, 4, 64, 1e-10, SIMMERSTOAT_STEADY, by.place, by.whole);
    expect("a segment: as with options", same(&r, &by, 3));
    if (r.reply != SIMMERSTOAT_DONE) return;
    expect("a segment: spent", r.whole[SIMMERSTOAT_GROUND] != SIMMERSTOAT_SPENT);
    expect("a segment: too many evaluations", r.whole[SIMMERSTOAT_COUNT] <= 41);
    crate.reply = simmerstoat_spline_inverse_segment(b, y, cv, 4, crate.place, crate.whole);
    spent += crate.reply == SIMMERSTOAT_DONE && crate.whole[SIMMERSTOAT_GROUND] == SIMMERSTOAT_SPENT;
}

static void curve(int b, double y, const double *knots, uint64_t n, uint64_t segments, bool check) {
    struct record r = fresh(), by = fresh(), timed = fresh();
    r.reply = simmerstoat_spline_inverse_steady(b, y, knots, n, check, r.place, r.whole);
    by.reply = simmerstoat_spline_inverse_by(b, y, knots, n, check, 64, 1e-10, SIMMERSTOAT_ENDS_KNOTS, SIMMERSTOAT_STEADY, by.place,
                                             by.whole);
    expect("a curve: as with options", same(&r, &by, 3));
    timed.reply = simmerstoat_table_spline_inverse_steady(b, 86400, y, knots, n, check, timed.place, timed.whole);
    expect("a table: as without a span", same(&r, &timed, 3));
    if (r.reply != SIMMERSTOAT_DONE) return;
    expect("a table: its second", timed.whole[SIMMERSTOAT_SECOND] == (uint64_t)floor(r.place[SIMMERSTOAT_PARAMETER] * 86400));
    expect("a curve: spent", r.whole[SIMMERSTOAT_GROUND] != SIMMERSTOAT_SPENT);
    expect("a curve: too many evaluations", r.whole[SIMMERSTOAT_COUNT] <= most_evaluations(segments));
}

static void refusals(void) {
    const double k[] = {0.0, 0.0, 1.0, 1.0}, bad[] = {0.0, NAN, 1.0, 1.0}, back[] = {0.0, 0.0, 2.0, 1.0, 3.0, 3.0};
    const struct record kept = fresh();
    struct record r = fresh();
    expect("no basis", simmerstoat_spline_inverse_steady(6, 0.5, k, 4, true, r.place, r.whole) == SIMMERSTOAT_NO_BASIS);
    expect("no basis, segment", simmerstoat_spline_inverse_segment_steady(6, 0.5, k, 4, r.place, r.whole) == SIMMERSTOAT_NO_BASIS);
    expect("no basis, table", simmerstoat_table_spline_inverse_steady(6, 1, 0.5, k, 4, true, r.place, r.whole) == SIMMERSTOAT_NO_BASIS);
    expect("too few", simmerstoat_spline_inverse_steady(4, 0.5, k, 3, true, r.place, r.whole) == SIMMERSTOAT_TOO_FEW);
    expect("no span", simmerstoat_table_spline_inverse_steady(4, 0, NAN, k, 4, true, r.place, r.whole) == SIMMERSTOAT_BAD_SPAN);
    expect("NaN", simmerstoat_spline_inverse_steady(4, NAN, k, 4, true, r.place, r.whole) == SIMMERSTOAT_NOT_A_NUMBER);
    expect("a knot", simmerstoat_spline_inverse_segment_steady(4, 0.5, bad, 4, r.place, r.whole) == SIMMERSTOAT_BAD_KNOT + 256);
    expect("turning", simmerstoat_spline_inverse_steady(4, 0.5, back, 6, true, r.place, r.whole) == SIMMERSTOAT_TURNS_BACK + 2 * 256);
    expect("not turning", simmerstoat_spline_inverse_steady(4, 0.5, back, 6, false, r.place, r.whole) == SIMMERSTOAT_DONE);
    r = fresh();
    expect("off the segment", simmerstoat_spline_inverse_segment_steady(4, 9.0, k, 4, r.place, r.whole) == SIMMERSTOAT_OFF_CURVE);
    expect("its count", r.whole[SIMMERSTOAT_COUNT] == 2);
    r.whole[SIMMERSTOAT_COUNT] = KEPT_WHOLE;
    expect("nothing written", same(&r, &kept, 4));
}

int main(void) {
    double knots[4 + MOST];
    uint64_t seed = 1;
    refusals();
    for (int round = 0; round < 4000; round++) {
        double at = 0.0;
        for (int i = 0; i < 4 + MOST; i++) {
            seed = seed * 6364136223846793005u + 1442695040888963407u;
            double step = (double)(seed >> 40) / (1 << 24);
            /* rests, climbs, and steps so steep that the crate's rule is spent on them */
            at += round % 3 == 0 ? step : round % 3 == 1 ? (step < 0.5 ? 0.0 : step) : pow(step, 12) * 1e6;
            knots[i] = at;
        }
        uint64_t n = 4 + (uint64_t)round % MOST;
        double y = knots[1] + (knots[n - 2] - knots[1]) * ((double)(seed >> 32 & 0xFFFF) / 65536);
        curve(SIMMERSTOAT_CATMULL_ROM, y, knots, n, n - 3, round % 2 == 0);
        for (int b = 0; b < 6; b++) segment(b, knots[1] + (knots[2] - knots[1]) * 0.37, knots);
    }
    expect("the crate's rule is spent somewhere", spent > 0);
    printf("steady: %d checks as they should be; the crate's rule was spent on %d segments of these\n", checked, spent);
    return 0;
}

/* Strict conversion: a seam that is lost, with its segment, each refusal in the table's order, and that a refusal writes
 * nothing. Where it answers it is simmerstoat_convert_spline. Exits with 1 at the first surprise. */
#include "simmerstoat.h"

#include <math.h>
#include <stdio.h>
#include <stdlib.h>
#include <string.h>

enum { ROOM = 64 };
static const double KEPT = -77.25;
static const uint64_t KEPT_WHOLE = 987654321;

static double out[ROOM], plain[ROOM];
static uint64_t written;
static int checked;

static uint32_t strict(int from, int to, const double *knots, uint64_t n, double allowance, uint64_t room) {
    for (int i = 0; i < ROOM; i++) out[i] = plain[i] = KEPT;
    written = KEPT_WHOLE;
    return simmerstoat_convert_spline_strict(from, to, knots, n, allowance, out, room, &written);
}

static void expect(const char *what, uint32_t wanted, uint32_t reply) {
    checked++;
    int touched = written != KEPT_WHOLE;
    for (int i = 0; i < ROOM; i++) touched = touched || out[i] != KEPT;
    if (reply != wanted || (reply != 0 && touched)) {
        printf("%s: reply %u, expected %u%s\n", what, (unsigned)reply, (unsigned)wanted, touched ? ", and something was written" : "");
        exit(1);
    }
}

/* Bits of the whole buffer, and the length. */
static void same_as_plain(const char *what, int from, int to, const double *knots, uint64_t n, uint64_t room) {
    uint64_t length = KEPT_WHOLE;
    uint32_t reply = simmerstoat_convert_spline(from, to, knots, n, plain, room, &length);
    checked++;
    if (reply != 0 || length != written || memcmp(out, plain, sizeof out) != 0) {
        printf("%s: not the plain conversion\n", what);
        exit(1);
    }
}

static uint32_t lost(uint32_t segment) { return SIMMERSTOAT_LOST_SEAM + 256 * segment; }

int main(void) {
    static const int B = SIMMERSTOAT_BEZIER, H = SIMMERSTOAT_HERMITE, L = SIMMERSTOAT_LINEAR, P = SIMMERSTOAT_POWER;
    static const double bend[] = {0, 0, 0, 0, 1, 1, 1};
    static const double late[] = {0, 0, 0, 0, 0, 0, 0, 1, 1, 1};
    static const double bad[] = {0, 0, 0, 0, 1, NAN, 1};

    uint32_t reply = strict(B, H, bend, 7, 0, ROOM);
    expect("a bend", lost(1), reply);
    expect("its number", SIMMERSTOAT_LOST_SEAM, SIMMERSTOAT_NUMBER(reply));
    expect("its segment", 1, SIMMERSTOAT_PLACE(reply));
    expect("minus zero", lost(1), strict(B, H, bend, 7, -0.0, ROOM));
    expect("just below", lost(1), strict(B, H, bend, 7, nextafter(3, 0), ROOM));
    expect("as much as the slope", 0, strict(B, H, bend, 7, 3, ROOM));
    same_as_plain("as much as the slope", B, H, bend, 7, ROOM);
    expect("a later bend", lost(2), strict(B, H, late, 10, 0, ROOM));
    expect("to Power", 0, strict(B, P, bend, 7, 0, ROOM));
    same_as_plain("to Power", B, P, bend, 7, ROOM);
    expect("one segment", 0, strict(B, H, bend, 4, 0, ROOM));
    same_as_plain("one segment", B, H, bend, 4, ROOM);

    /* 255 1 2 3 8 17 9 4 15 */
    static double many[4099];
    expect("no basis", 255, strict(6, H, NULL, 0, NAN, 0));
    expect("no basis", 255, strict(B, 6, NULL, 0, NAN, 0));
    expect("few", 1, strict(B, L, bend, 3, NAN, 0));
    expect("pattern", 2, strict(B, L, bend, 5, NAN, 0));
    expect("many", 3, strict(B, L, many, 4099, NAN, 0));
    expect("linear", 8, strict(B, L, bad, 7, NAN, 0));
    expect("NaN", 17, strict(B, H, bad, 7, NAN, 0));
    expect("infinity", 17, strict(B, H, bad, 7, INFINITY, 0));
    expect("negative", 17, strict(B, H, bad, 7, -1e-300, 0));
    expect("short", 9, strict(B, H, bad, 7, 0, 5));
    expect("knot", 4 + 256 * 5, strict(B, H, bad, 7, 0, 6));
    expect("seam", lost(1), strict(B, H, bend, 7, 0, 6));
    printf("%d strict conversions as expected\n", checked);
    return 0;
}

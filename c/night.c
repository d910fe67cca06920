/* A night's depths, by the hour, with a burst: the curve through them that turns back, and the table whose curve cannot, from
 * whole thousandths to the second at which a depth was reached. */
#include "simmerstoat_whole.h"

#include <stdio.h>

enum { ROWS = 8 };

/* The second of seven hours at which the curve over a Hermite table reaches a depth: by its own ends, and without the order check. */
static bool is_reached(const double *table, uint64_t n, double depth) {
    double place[4];
    uint64_t whole[4];
    uint32_t reply = simmerstoat_table_spline_inverse_by(SIMMERSTOAT_HERMITE, 7 * 3600, depth, table, n, false, 64, 1e-10,
                                                         SIMMERSTOAT_ENDS_CURVE, SIMMERSTOAT_STEADY, place, whole);
    if (reply != SIMMERSTOAT_DONE) {
        printf("%.3f: refused %u, %s\n", depth, (unsigned)SIMMERSTOAT_NUMBER(reply), simmerstoat_text(reply));
        return false;
    }
    printf("%.3f at second %u\n", depth, (unsigned)whole[SIMMERSTOAT_SECOND]);
    return true;
}

int main(void) {
    const int64_t rows[ROWS] = {0, 0, 100, 5000, 5050, 5100, 5150, 5200};
    int64_t table[2 * ROWS];
    uint64_t turning[2], written;
    double doubles[2 * ROWS];

    if (simmerstoat_turns_back(SIMMERSTOAT_CATMULL_ROM, rows, ROWS, turning) != SIMMERSTOAT_DONE) return 1;
    if (turning[SIMMERSTOAT_TURNING] != SIMMERSTOAT_TURNS_AT) return 1;
    printf("CatmullRom turns back in segment %u\n", (unsigned)turning[SIMMERSTOAT_TURNING_SEGMENT]);

    if (simmerstoat_monotone(rows, ROWS, table, 2 * ROWS, &written) != SIMMERSTOAT_DONE) return 1;
    if (simmerstoat_turns_back(SIMMERSTOAT_HERMITE, table, written, turning) != SIMMERSTOAT_DONE) return 1;
    if (turning[SIMMERSTOAT_TURNING] != SIMMERSTOAT_NEVER_TURNS) return 1;
    printf("Monotone, %u numbers, never does\n", (unsigned)written);

    for (int i = 0; i < 2 * ROWS; i++) doubles[i] = (double)table[i] / 1000.0;
    for (int i = 0; i < 4; i++) {
        const double depth[4] = {0.1, 2.5, 5.1, 5.2};
        if (!is_reached(doubles, written, depth[i])) return 1;
    }
    return 0;
}

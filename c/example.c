/* A table of depths over uneven hours: which parameter is 0.3, and what depth is there; then the same curve as Bezier; then
 * an hour that goes back, found by its number. Each number is cast as it is printed: a small C library knows no %zu, and an
 * uint32_t may be a long. */
#include "simmerstoat.h"

#include <stdio.h>

static const char *const GROUNDS[] = {"end", "edge", "value", "width", "spent"};

/* Whether a call did its work; otherwise why not. */
static bool is_done(const char *what, uint32_t reply) {
    if (reply == SIMMERSTOAT_DONE) return true;
    printf("%s: refused %u, %s", what, (unsigned)SIMMERSTOAT_NUMBER(reply), simmerstoat_text(reply));
    if (SIMMERSTOAT_NUMBER(reply) == SIMMERSTOAT_BAD_KNOT || SIMMERSTOAT_NUMBER(reply) == SIMMERSTOAT_TURNS_BACK)
        printf(": knot %u", (unsigned)SIMMERSTOAT_PLACE(reply));
    printf("\n");
    return false;
}

int main(void) {
    const double hours[] = {0.0, 0.0, 0.1, 0.3, 1.0, 1.0};
    const double depths[] = {0.0, 0.0, 1.3, 4.2, 3.2, 3.2};
    const double mistyped[] = {0.0, 0.0, 0.4, 0.3, 1.0, 1.0};
    double depth, bezier[10];
    uint64_t written;
    struct simmerstoat_place p;

    if (!is_done("0.3", simmerstoat_find(SIMMERSTOAT_CATMULL_ROM, 0.3, hours, 6, simmerstoat_defaults_steady(), &p))) return 1;
    printf("parameter %.6f, ground %s, segment %u, %u evaluations\n", p.parameter, GROUNDS[p.ground], (unsigned)p.segment,
           (unsigned)p.count);

    if (!is_done("depth", simmerstoat_spline(SIMMERSTOAT_CATMULL_ROM, p.parameter, depths, 6, &depth))) return 1;
    printf("depth %.6f\n", depth);

    if (is_done("nine places", simmerstoat_convert_spline(SIMMERSTOAT_CATMULL_ROM, SIMMERSTOAT_BEZIER, depths, 6, bezier, 9, &written)))
        return 1;
    uint64_t room = simmerstoat_room(SIMMERSTOAT_CATMULL_ROM, SIMMERSTOAT_BEZIER, 6);
    if (!is_done("ten places", simmerstoat_convert_spline(SIMMERSTOAT_CATMULL_ROM, SIMMERSTOAT_BEZIER, depths, 6, bezier, room, &written)))
        return 1;
    printf("%u places: %u written, from %.6f to %.6f\n", (unsigned)room, (unsigned)written, bezier[0], bezier[9]);

    if (is_done("mistyped", simmerstoat_find(SIMMERSTOAT_CATMULL_ROM, 0.3, mistyped, 6, simmerstoat_defaults_steady(), &p))) return 1;
    return 0;
}

/* An interrupt that inverts in the midst of other calls. All are made without it first; with it they have to reply and write the
 * same, and so has the interrupt. Ends with 0 where nothing differs and there were enough interrupts. */
#include "machine.h"
#include "simmerstoat.h"

#include <stdio.h>
#include <string.h>

enum { KNOTS = 28, TARGETS = 8, ENOUGH = 200, MOST = 20000000 };

struct answer {
    double place[4];
    uint64_t whole[3];
    uint32_t reply;
};
struct work {
    struct answer inversion;
    double value, converted[4 * KNOTS];
    uint64_t written;
    uint32_t replies[3];
};

static double knots[KNOTS];
static struct answer wanted[TARGETS], now;
static struct work first[TARGETS], again;
static volatile uint32_t interrupts, differing;

static void invert(uint32_t at, struct answer *a) {
    memset(a, 0, sizeof *a);
    a->reply = simmerstoat_spline_inverse_steady(SIMMERSTOAT_CATMULL_ROM, 2.37 + 3.1 * at, knots, KNOTS, true, a->place, a->whole);
}

static void at_interrupt(void) {
    const uint32_t at = interrupts % TARGETS;
    invert(at, &now);
    if (memcmp(&now, &wanted[at], sizeof now) != 0) differing++;
    interrupts++;
}

static void work(uint32_t at, struct work *w) {
    memset(w, 0, sizeof *w);
    w->inversion.reply = simmerstoat_spline_inverse_by(SIMMERSTOAT_BSPLINE, 3.3 + 2.9 * at, knots, KNOTS, false, 300, 1e-12, at % 2, at % 3,
                                                       w->inversion.place, w->inversion.whole);
    w->replies[0] = simmerstoat_spline(SIMMERSTOAT_BEZIER, 0.11 * at, knots, KNOTS, &w->value);
    w->replies[1] = simmerstoat_convert_spline_strict(SIMMERSTOAT_BEZIER, SIMMERSTOAT_HERMITE, knots, KNOTS, 1e9, w->converted, 4 * KNOTS,
                                                      &w->written);
    w->replies[2] = simmerstoat_convert_segment(SIMMERSTOAT_CATMULL_ROM, SIMMERSTOAT_BSPLINE, knots + at, 4, w->converted, 4);
}

int main(void) {
    for (int i = 0; i < KNOTS; i++) knots[i] = 1.01 * i;
    for (uint32_t i = 0; i < TARGETS; i++) invert(i, &wanted[i]), work(i, &first[i]);
    uint32_t calls = 0, wrong = 0;
    interrupt_by(at_interrupt);
    while (interrupts < ENOUGH && calls < MOST) {
        const uint32_t i = calls++ % TARGETS;
        work(i, &again);
        if (memcmp(&again, &first[i], sizeof again) != 0) wrong++;
    }
    printf("%u interrupts: %u differ; %u calls around them: %u differ\n", (unsigned)interrupts, (unsigned)differing, (unsigned)(4 * calls),
           (unsigned)wrong);
    return interrupts < ENOUGH || differing != 0 || wrong != 0 || wanted[0].reply != 0 || first[0].inversion.reply != 0;
}

/* What a box does when a job has stopped: the night that held an hour twice, replayed, and each other reply. docs/BOX.md is
 * about this program. */
#include "simmerstoat.h"

#include <math.h>
#include <stdio.h>

/* Depths every half hour, two of them the ends once more: as the clock sorted them, and by seconds from the first reading. */
static const double BY_CLOCK[] = {1.0, 1.0, 1.1, 1.2, 1.4, 1.3, 1.5, 1.6, 1.7, 1.7};
static const double BY_SECONDS[] = {1.0, 1.0, 1.1, 1.2, 1.3, 1.4, 1.5, 1.6, 1.7, 1.7};
static const double PIVOT_OFF[] = {0.0, 0.0, 0.0, 0.0, 0.0, 0.0};
/* a depth, its slope, and so on: with the order check the slopes would be taken for depths */
static const double WITH_SLOPES[] = {0.0, 1.0, 2.0, 3.0};
enum { SPAN = 12600 };

/* Whatever is not said of the job is a refusal, and no refusal starts anything. */
static void act(const char *table, double y, uint32_t reply, const struct simmerstoat_job *j) {
    printf("%-12s %5.2f  ", table, y);
    if (reply != SIMMERSTOAT_DONE) {
        printf("stop and call somebody: %s", simmerstoat_text(reply));
        if (SIMMERSTOAT_NUMBER(reply) == SIMMERSTOAT_TURNS_BACK) printf(", knot %u", (unsigned)SIMMERSTOAT_PLACE(reply));
        printf("\n");
        return;
    }
    switch (j->job) {
    case SIMMERSTOAT_JOB_BEFORE: printf("start: before the start\n"); return;
    case SIMMERSTOAT_JOB_NOT_BEGUN: printf("start: at the start\n"); return;
    case SIMMERSTOAT_JOB_UNDER_WAY: printf("go on from second %u\n", (unsigned)j->second); return;
    case SIMMERSTOAT_JOB_DONE: printf("stop: at the end\n"); return;
    case SIMMERSTOAT_JOB_BEYOND: printf("stop and call somebody: beyond the end\n"); return;
    default: printf("stop and call somebody: no depth tells, start and end are equal\n"); return;
    }
}

static void stopped(const char *table, uint8_t basis, const double *knots, uint64_t n, bool check, double y) {
    struct simmerstoat_job j;
    uint32_t reply = simmerstoat_job_at(basis, SPAN, y, knots, n, check, &j);
    act(table, y, reply, &j);
}

int main(void) {
    static const double depths[] = {0.90, 1.00, 1.45, 1.70, 1.80};
    stopped("by clock", SIMMERSTOAT_LINEAR, BY_CLOCK, 10, true, 1.45);
    for (int i = 0; i < 5; i++) stopped("by seconds", SIMMERSTOAT_LINEAR, BY_SECONDS, 10, true, depths[i]);
    stopped("by seconds", SIMMERSTOAT_LINEAR, BY_SECONDS, 10, true, NAN);
    stopped("pivot off", SIMMERSTOAT_LINEAR, PIVOT_OFF, 6, true, 5.0);
    stopped("pivot off", SIMMERSTOAT_LINEAR, PIVOT_OFF, 6, true, 0.0);
    stopped("with slopes", SIMMERSTOAT_HERMITE, WITH_SLOPES, 4, false, 1.5);
    return 0;
}

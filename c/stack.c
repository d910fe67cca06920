/* How deep each call goes: it runs on a painted stack of its own, and the lowest word that lost its paint is told.
 * What the switch of stacks takes is measured with a call that takes nothing and taken off; the return address is the
 * call's own. Exits with 1 where a call goes deeper than it should; c/simmerstoat.h says how deep it goes at most. With
 * FEWER the tables are of 4, 28 and 4,096 knots alone, and the places three: for emulators. Compiled with box/machine.c. */
#include "machine.h"
#include "simmerstoat.h"
#include "simmerstoat_valve.h"
#include "simmerstoat_whole.h"

#include <stdio.h>

enum { WORDS = 1 << 12, KNOTS = 4096 };
static const uint32_t PAINT = 0xA5C3A5C3;

/* The most that a call may take, in bytes. A table's conversion has three arguments on the stack besides; the depth at a
 * time is an inversion that holds a second table, with four. Elsewhere the helpers for doubles, which the linker adds,
 * are within. */
#if defined(__x86_64__)
enum { EVALUATION = 96, INVERSION = 512, CONVERSION = 400, STRICT = 512, TABLE = 416, DEPTH = 576, JOB = 576, VALVE = 256,
       TURNS = 256, MONOTONE = 96, RETURN_ADDRESS = 8 };
#else
enum { EVALUATION = 400, INVERSION = 800, CONVERSION = 1024, STRICT = 1024, TABLE = 1024, DEPTH = 900, JOB = 960, VALVE = 256,
       TURNS = 400, MONOTONE = 256, RETURN_ADDRESS = 0 };
#endif

static uint32_t stack[WORDS] __attribute__((aligned(16)));
static double knots[KNOTS], out[4 * KNOTS], value, place[4];
static uint64_t whole[4], written;
static uint32_t handed;
static bool holds;
static uint8_t job;
static int basis, other;
static uint64_t length;
static double at;
static const int64_t valve_knots[4] = {-1000000, 1000000, 7, -8};
static int64_t whole_knots[KNOTS], whole_out[KNOTS];
static uint64_t turning[2];
static int64_t sum;
static volatile uint32_t reply;

static void version(void) { reply = simmerstoat_version(); }
static void is_len_ok(void) { reply = simmerstoat_is_len_ok(basis, length); }
static void spline(void) { reply = simmerstoat_spline(basis, at, knots, length, &value); }
static void spline_segment(void) { reply = simmerstoat_spline_segment(basis, at, knots + 100, 4, &value); }
static void spline_inverse(void) {
    reply = simmerstoat_spline_inverse(basis, at * 40, knots, length, true, place, whole);
}
static void spline_inverse_with(void) {
    reply = simmerstoat_spline_inverse_with(basis, at * 40, knots, length, false, 300, 1e-300, place, whole);
}
static void spline_inverse_segment(void) {
    reply = simmerstoat_spline_inverse_segment(basis, 0.991 + at * 0.02, knots + 99, 4, place, whole);
}
static void spline_inverse_segment_with(void) {
    reply = simmerstoat_spline_inverse_segment_with(basis, 0.991 + at * 0.02, knots + 99, 4, 300, 1e-300, place, whole);
}
static void spline_inverse_by(void) {
    reply = simmerstoat_spline_inverse_by(basis, at * 40, knots, length, false, 300, 1e-300, other % 2, other / 2, place, whole);
}
static void spline_inverse_segment_by(void) {
    reply = simmerstoat_spline_inverse_segment_by(basis, 0.991 + at * 0.02, knots + 99, 4, 300, 1e-300, other % 3, place, whole);
}
static void spline_inverse_steady(void) {
    reply = simmerstoat_spline_inverse_steady(basis, at * 40, knots, length, true, place, whole);
}
static void spline_inverse_segment_steady(void) {
    reply = simmerstoat_spline_inverse_segment_steady(basis, 0.991 + at * 0.02, knots + 99, 4, place, whole);
}
static void most_evaluations(void) {
    reply = simmerstoat_most_evaluations(basis, length, 32, other % 2, other / 2, &written);
}
static void convert_segment(void) { reply = simmerstoat_convert_segment(basis, other, knots, 4, out, 4); }
static void convert_spline(void) {
    reply = simmerstoat_convert_spline(basis, other, knots, length, out, 4 * KNOTS, &written);
}

static void convert_spline_strict(void) {
    reply = simmerstoat_convert_spline_strict(basis, other, knots, length, 1e9, out, 4 * KNOTS, &written);
}

static void table_spline(void) { reply = simmerstoat_table_spline(basis, 86400, at, knots, length, &value); }
static void table_spline_inverse(void) {
    reply = simmerstoat_table_spline_inverse(basis, 86400, at * 40, knots, length, true, place, whole);
}
static void table_spline_inverse_by(void) {
    reply = simmerstoat_table_spline_inverse_by(basis, 86400, at * 40, knots, length, false, 300, 1e-300, other % 2, other / 2,
                                                place, whole);
}
static void table_spline_inverse_steady(void) {
    reply = simmerstoat_table_spline_inverse_steady(basis, 86400, at * 40, knots, length, true, place, whole);
}
static void stopped(void) {
    reply = simmerstoat_stopped(basis, 86400, at * 40, knots, length, true, &job, place, whole);
}
static void table_convert_spline(void) {
    reply = simmerstoat_table_convert_spline(basis, 86400, other, knots, length, out, 4 * KNOTS, &handed, &written);
}
static void table_convert_spline_strict(void) {
    reply = simmerstoat_table_convert_spline_strict(basis, 86400, other, knots, length, 1e9, out, 4 * KNOTS, &handed,
                                                    &written);
}
static void check_claim(void) {
    reply = simmerstoat_check_claim(basis, at * 40, 0, at, 1e-10, knots, length, &holds);
}
static void depth_at(void) {
    reply = simmerstoat_depth_at(basis, knots, length, basis, knots, length, at * 40, 300, 1e-300, &value, place, whole);
}

static void valve(void) { reply = simmerstoat_valve((uint16_t)(at * 256), valve_knots, 4, &sum); }
static void turns_back(void) { reply = simmerstoat_turns_back(basis, whole_knots, length, turning); }
static void turns_back_by(void) { reply = simmerstoat_turns_back_by(basis, other % 2, whole_knots, length, turning); }
static void monotone(void) { reply = simmerstoat_monotone(whole_knots, length / 2, whole_out, KNOTS, &written); }

static uint32_t depth(void (*call)(void)) {
    for (int i = 0; i < WORDS; i++) stack[i] = PAINT;
    on_stack(call, stack + WORDS);
    uint32_t i = 0;
    while (i < WORDS && stack[i] == PAINT) i++;
    return (WORDS - i) * 4;
}

static uint32_t deepest(void (*call)(void)) {
#ifdef FEWER
    static const uint64_t lengths[] = {4, 28, 4096};
    enum { STRIDE = 10 };
#else
    static const uint64_t lengths[] = {4, 16, 28, 100, 1024, 4096};
    enum { STRIDE = 1 };
#endif
    uint32_t most = 0;
    for (basis = 0; basis < 7; basis++)
        for (other = 0; other < 6; other++)
            for (unsigned l = 0; l < sizeof lengths / sizeof *lengths; l++)
                for (int i = 0; i <= 20; i += STRIDE) {
                    length = lengths[l];
                    at = (i + 0.37) / 20.0;
                    const uint32_t d = depth(call);
                    if (d > most) most = d;
                }
    return most;
}

int main(void) {
    static const struct {
        const char *name;
        void (*call)(void);
        uint32_t most;
    } calls[] = {{"is_len_ok", is_len_ok, EVALUATION},
                 {"spline", spline, EVALUATION},
                 {"spline_segment", spline_segment, EVALUATION},
                 {"spline_inverse", spline_inverse, INVERSION},
                 {"spline_inverse_with", spline_inverse_with, INVERSION},
                 {"spline_inverse_by", spline_inverse_by, INVERSION},
                 {"spline_inverse_segment", spline_inverse_segment, INVERSION},
                 {"spline_inverse_segment_with", spline_inverse_segment_with, INVERSION},
                 {"spline_inverse_segment_by", spline_inverse_segment_by, INVERSION},
                 {"spline_inverse_steady", spline_inverse_steady, INVERSION},
                 {"spline_inverse_segment_steady", spline_inverse_segment_steady, INVERSION},
                 {"most_evaluations", most_evaluations, EVALUATION},
                 {"convert_segment", convert_segment, CONVERSION},
                 {"convert_spline", convert_spline, CONVERSION},
                 {"convert_spline_strict", convert_spline_strict, STRICT},
                 {"table_spline", table_spline, EVALUATION},
                 {"table_spline_inverse", table_spline_inverse, INVERSION},
                 {"table_spline_inverse_by", table_spline_inverse_by, INVERSION},
                 {"table_spline_inverse_steady", table_spline_inverse_steady, INVERSION},
                 {"stopped", stopped, JOB},
                 {"table_convert_spline", table_convert_spline, TABLE},
                 {"table_convert_spline_strict", table_convert_spline_strict, STRICT},
                 {"check_claim", check_claim, EVALUATION},
                 {"depth_at", depth_at, DEPTH},
                 {"valve", valve, VALVE},
                 {"turns_back", turns_back, TURNS},
                 {"turns_back_by", turns_back_by, TURNS},
                 {"monotone", monotone, MONOTONE}};
    for (int i = 0; i < KNOTS; i++) knots[i] = 0.01 * i, whole_knots[i] = 10 * i + i % 7;
    const uint32_t empty = depth(version) - RETURN_ADDRESS;
    int deep = 0;
    printf("| call | bytes of stack | at most |\n|---|---:|---:|\n");
    for (unsigned c = 0; c < sizeof calls / sizeof *calls; c++) {
        const uint32_t most = deepest(calls[c].call) - empty;
        printf("| simmerstoat_%s | %u | %u |\n", calls[c].name, (unsigned)most, (unsigned)calls[c].most);
        if (most > calls[c].most) deep++;
    }
    if (deep) printf("%d calls go deeper than they may\n", deep);
    return deep != 0;
}

/* Uniform cubic splines over doubles, proved. Link with libsimmerstoat.a: for x86-64 Linux `bin/archives simmerstoat` writes it,
 * for the processors of small boxes `bin/box TARGET` (docs/BOX.md).
 *
 * Every call answers every input: no argument makes one panic, loop or read outside what is lent.
 *
 * What a caller owes
 *   - A pointer with a length is good for that many doubles; it may be null where the length is 0. Each other pointer
 *     is good for what it points to. The knots may be anything, NaN too.
 *   - Each pointer is aligned as its type is. A Cortex-M stops in a HardFault at a table of doubles that begins at an odd
 *     address; copy a table that stands in a packet before you lend it.
 *   - Every length, whole number and count is 64 bits wide on every processor, where a size_t is 32 bits too. Where printf
 *     knows no 64-bit format, as newlib's often does not, print them cast to `unsigned`.
 *   - What is written overlaps nothing else that the call is lent: not the knots, and no other output. So no conversion in
 *     place: IT REPLIES 0 AND WRITES OTHER NUMBERS. Two pointers that are only read may be the same.
 *   - The caller's floating-point state: round to nearest, no flush to zero, no denormals taken as zero. It is a premise
 *     of every value, bound and place below; with another rounding mode a parameter above 1 has come out. It is MXCSR on
 *     x86-64, FPCR on aarch64, fcsr on RISC-V with doubles, and on a Cortex-M7 FPSCR and FPDSCR, with which every new task
 *     and interrupt begins. gcc's crtfastmath.o, which -ffast-math at the link adds, sets it before main. The other
 *     targets of bin/box work with doubles in whole numbers and have no such state.
 *
 * What comes back
 *   - The reply is 0 when the call did its work. Otherwise its lowest eight bits are the number of a refusal and the bits
 *     above them the place that the refusal tells: take it apart with SIMMERSTOAT_NUMBER and SIMMERSTOAT_PLACE.
 *   - The first refusal that applies is given, in the order of the enum below. On a refusal nothing is written, but for
 *     the count of SIMMERSTOAT_OFF_CURVE.
 *
 * What the archive is
 *   - One object. Beside code it has constants alone: no state and no heap. For x86-64 no symbol is undefined, so that it
 *     calls nothing of anybody's; elsewhere it may call what docs/BOX.md lists: helpers of the compiler's own library, which
 *     have no state either, and memcpy, memmove and memset. So every call is re-entrant, and may run in any thread, signal
 *     handler or interrupt.
 *   - Stack in bytes, at most (c/stack.c measures it, up to 4,096 knots, helpers included):
 *                                x86-64   targets of bin/box
 *         evaluation, claim          96   400
 *         inversion                 512   800
 *         conversion                400   1,024   (of a table with a span 416, 1,024)
 *         strict conversion         512   1,024
 *         depth at a time           576   900
 *         stopped job               576   960
 *   - An inversion makes at most limit + 24 evaluations on up to 12 segments and at most limit + 2 b + 4 above, where b
 *     is the number of binary digits of the segment count: 12 at most. In SIMMERSTOAT_ENDS_CURVE there are 2 more.
 */
#ifndef SIMMERSTOAT_H
#define SIMMERSTOAT_H

#include <float.h>
#include <stdbool.h>
#include <stdint.h>

#ifdef __cplusplus
extern "C" {
#endif

#ifdef __cplusplus
static_assert(sizeof(double) == 8 && DBL_MANT_DIG == 53, "a double has to be an IEEE 754 double");
#else
_Static_assert(sizeof(double) == 8 && DBL_MANT_DIG == 53, "a double has to be an IEEE 754 double");
#endif

/* One version for this header, the archive and the Rust package. 0.4: lengths, whole numbers and counts are 64 bits wide on
 * every processor; 0.3: the Rust package's alone; 0.2: replies are 32 bits wide and tell a place; 0.1 had 8. */
#define SIMMERSTOAT_VERSION_MAJOR 0
#define SIMMERSTOAT_VERSION_MINOR 4
#define SIMMERSTOAT_VERSION_PATCH 0
#define SIMMERSTOAT_VERSION ((uint32_t)(SIMMERSTOAT_VERSION_MAJOR * 65536 + SIMMERSTOAT_VERSION_MINOR * 256 + SIMMERSTOAT_VERSION_PATCH))

/* The knots of a curve at most. */
#define SIMMERSTOAT_MOST_KNOTS 4096

/* The bases, and the knots from the start of one segment to the start of the next. */
enum {
    SIMMERSTOAT_BSPLINE = 0,     /* 1 */
    SIMMERSTOAT_BEZIER = 1,      /* 3 */
    SIMMERSTOAT_CATMULL_ROM = 2, /* 1 */
    SIMMERSTOAT_HERMITE = 3,     /* 2 */
    SIMMERSTOAT_LINEAR = 4,      /* 1 */
    SIMMERSTOAT_POWER = 5        /* 4 */
};

/* A reply's number, and its place: of BAD_KNOT and TURNS_BACK a knot, of LOST_SEAM a segment, from 0; else 0. */
#define SIMMERSTOAT_NUMBER(reply) ((uint32_t)(reply)&255u)
#define SIMMERSTOAT_PLACE(reply) ((uint32_t)(reply) >> 8)

/* The numbers. */
enum {
    SIMMERSTOAT_DONE = 0,
    SIMMERSTOAT_NO_BASIS = 255,         /* a number that is no basis, no rule of the ends or no method; before all others */
    SIMMERSTOAT_TOO_FEW = 1,            /* fewer than 4 knots */
    SIMMERSTOAT_BAD_PATTERN = 2,        /* (knots - 4) is no multiple of the basis's step; one segment: more than 4 knots */
    SIMMERSTOAT_TOO_MANY = 3,           /* more than 4,096 knots */
    SIMMERSTOAT_BAD_SPAN = 14,          /* the span is missing, or outside 1 to 86,400 seconds */
    SIMMERSTOAT_NOT_A_NUMBER = 5,       /* x or y is NaN; one segment's x lies outside 0 to 1 */
    SIMMERSTOAT_BAD_PRECISION = 6,      /* the precision is not finite or not above 0 */
    SIMMERSTOAT_NO_ROUNDS = 7,          /* the limit is 0 */
    SIMMERSTOAT_LINEAR_OUTPUT = 8,      /* the output basis is Linear */
    SIMMERSTOAT_BAD_ALLOWANCE = 17,     /* the allowance is not finite, or negative */
    SIMMERSTOAT_SHORT_BUFFER = 9,       /* the output buffer is shorter than needed */
    SIMMERSTOAT_BAD_STEP = 16,          /* the step is above 256 */
    SIMMERSTOAT_NO_SEGMENT = 19,        /* the segment's number is not below the count of segments */
    SIMMERSTOAT_BAD_KNOT = 4,           /* a knot is not finite or exceeds 2^40 in magnitude; the place: the first such knot */
    SIMMERSTOAT_TURNS_BACK = 10,        /* the order check was wanted, and the knots turn back; the place: the first knot
                                           whose step to the next goes against the direction */
    SIMMERSTOAT_UNEQUAL_SEGMENTS = 18,  /* the two tables have different counts of segments */
    SIMMERSTOAT_OFF_CURVE = 11,         /* y is not on the curve */
    SIMMERSTOAT_BAD_LINE = 12,          /* a line of a listing; no call of this header gives it, nor the next two */
    SIMMERSTOAT_BAD_SHEET = 13,         /* a line of a sheet */
    SIMMERSTOAT_NO_COMPARISON = 20,     /* nothing to compare with */
    SIMMERSTOAT_LOST_SEAM = 15          /* a seam would be lost; the place: the segment behind it */
};

/* What an inversion writes: four doubles .. */
enum {
    SIMMERSTOAT_PARAMETER = 0, /* of the curve, 0 to 1; for one segment the local place */
    SIMMERSTOAT_LOCAL = 1,     /* the place in the segment, 0 to 1 */
    SIMMERSTOAT_LOWER = 2,     /* the bracket's ends after its last move */
    SIMMERSTOAT_UPPER = 3
};

/* .. and three whole numbers. */
enum {
    SIMMERSTOAT_GROUND = 0,  /* one of the next enum */
    SIMMERSTOAT_SEGMENT = 1, /* from 0 */
    SIMMERSTOAT_COUNT = 2    /* the evaluations made; written with SIMMERSTOAT_OFF_CURVE too */
};

/* Why an inversion stopped. */
enum {
    SIMMERSTOAT_END = 0,   /* y lies at or beyond an end of the curve */
    SIMMERSTOAT_EDGE = 1,  /* y is within twice the precision of a segment's start or end */
    SIMMERSTOAT_VALUE = 2, /* the value at the place is within the precision of y */
    SIMMERSTOAT_WIDTH = 3, /* the bracket became narrower than the precision */
    SIMMERSTOAT_SPENT = 4  /* the rounds were spent */
};

/* By which values a target lies at or beyond an end of the curve. */
enum {
    SIMMERSTOAT_ENDS_KNOTS = 0, /* two knots, as the crate has it: the second and the last but one where the basis's step
                                   is 1, else the first and the last; good where the curve goes through its knots */
    SIMMERSTOAT_ENDS_CURVE = 1  /* the curve's own first and last value, which are evaluated */
};

/* How an inversion chooses its next place. */
enum {
    SIMMERSTOAT_AS_CRATE = 0, /* as the crate does */
    SIMMERSTOAT_TAUGHT = 1,   /* regula falsi with the weighting as it is taught */
    SIMMERSTOAT_STEADY = 2    /* kept to a pace by which the bracket narrows */
};

/* The archive's version: SIMMERSTOAT_VERSION, where this header belongs to it. */
uint32_t simmerstoat_version(void);

/* ATTENTION: 1 if n knots suit the basis, 0 if not, and 255, WHICH IS TRUE IN AN `if`, if there is no such basis. Write
 * simmerstoat_suits(basis, n) instead. It knows no upper bound: above 4,096 knots the calls refuse. */
uint8_t simmerstoat_is_len_ok(uint8_t basis, uint64_t n);

/* The value of the curve at x, which is clamped to 0 to 1. Refusals: 255, 1, 2, 3, 5, 4. */
uint32_t simmerstoat_spline(uint8_t basis, double x, const double *knots, uint64_t n, double *value);

/* The value of one segment of four knots at x, from 0 to 1. Refusals: 255, 1, 2, 5, 4. */
uint32_t simmerstoat_spline_segment(uint8_t basis, double x, const double *cv, uint64_t n, double *value);

/* Where the curve is at y: limit 32, precision 1e-10. With check, knots that turn back are refused.
 * Refusals: 255, 1, 2, 3, 5, 4, 10, 11. */
uint32_t simmerstoat_spline_inverse(uint8_t basis, double y, const double *knots, uint64_t n, bool check, double place[4],
                                    uint64_t whole[3]);

/* The same, with at most limit rounds, to the given precision. Refusals: 255, 1, 2, 3, 5, 6, 7, 4, 10, 11. */
uint32_t simmerstoat_spline_inverse_with(uint8_t basis, double y, const double *knots, uint64_t n, bool check,
                                         uint16_t limit, double precision, double place[4], uint64_t whole[3]);

/* The same, with a rule of the ends and a method. Refusals: 255, 1, 2, 3, 5, 6, 7, 4, 10, 11. */
uint32_t simmerstoat_spline_inverse_by(uint8_t basis, double y, const double *knots, uint64_t n, bool check, uint16_t limit,
                                       double precision, uint8_t ends, uint8_t method, double place[4], uint64_t whole[3]);

/* The most evaluations that simmerstoat_spline_inverse_by makes of n knots with that limit, rule of the ends and method, whatever
 * the knots, the target and the precision are; its count is never greater, with a place or with 11. So time can be set aside
 * before the call. It looks at no knots, and n may be any number. Refusals: 255, which writes nothing. */
uint32_t simmerstoat_most_evaluations(uint8_t basis, uint64_t n, uint16_t limit, uint8_t ends, uint8_t method, uint64_t *most);

/* By the steady method: limit 64, precision 1e-10, the ends by the knots. It never gives SIMMERSTOAT_SPENT, and makes at most
 * 63 evaluations on up to 12 segments and 43 + 2 b above, whatever the curve. Refusals: 255, 1, 2, 3, 5, 4, 10, 11. */
uint32_t simmerstoat_spline_inverse_steady(uint8_t basis, double y, const double *knots, uint64_t n, bool check,
                                           double place[4], uint64_t whole[3]);

/* Where one segment of four knots is at y: limit 32, precision 1e-10. Refusals: 255, 1, 2, 5, 4, 11. */
uint32_t simmerstoat_spline_inverse_segment(uint8_t basis, double y, const double *cv, uint64_t n, double place[4],
                                            uint64_t whole[3]);

/* The same, with at most limit rounds, to the given precision. Refusals: 255, 1, 2, 5, 6, 7, 4, 11. */
uint32_t simmerstoat_spline_inverse_segment_with(uint8_t basis, double y, const double *cv, uint64_t n, uint16_t limit,
                                                 double precision, double place[4], uint64_t whole[3]);

/* The same, with a method. Refusals: 255, 1, 2, 5, 6, 7, 4, 11. */
uint32_t simmerstoat_spline_inverse_segment_by(uint8_t basis, double y, const double *cv, uint64_t n, uint16_t limit,
                                               double precision, uint8_t method, double place[4], uint64_t whole[3]);

/* By the steady method: limit 64, precision 1e-10. It never gives SIMMERSTOAT_SPENT, and makes at most 41 evaluations.
 * Refusals: 255, 1, 2, 5, 4, 11. */
uint32_t simmerstoat_spline_inverse_segment_steady(uint8_t basis, double y, const double *cv, uint64_t n, double place[4],
                                                   uint64_t whole[3]);

/* The four knots of one segment in another basis, to the first four places of out, of which there are room; further
 * places keep what they hold. Refusals: 255, 1, 2, 8, 9, 4. */
uint32_t simmerstoat_convert_segment(uint8_t from, uint8_t to, const double *cv, uint64_t n, double *out, uint64_t room);

/* The knots of a curve in another basis: simmerstoat_room(from, to, n) places of out, and their number to written; further
 * places keep what they hold. Refusals: 255, 1, 2, 3, 8, 9, 4. */
uint32_t simmerstoat_convert_spline(uint8_t from, uint8_t to, const double *knots, uint64_t n, double *out, uint64_t room,
                                    uint64_t *written);

/* The same, refused where a seam would be lost: where a later segment would drop a converted knot that differs by more
 * than the allowance from the one that stands at its place of the output. The reply's place is the lowest such segment.
 * Where it does not refuse it is simmerstoat_convert_spline. Refusals: 255, 1, 2, 3, 8, 17, 9, 4, 15. */
uint32_t simmerstoat_convert_spline_strict(uint8_t from, uint8_t to, const double *knots, uint64_t n, double allowance,
                                           double *out, uint64_t room, uint64_t *written);

/* Set in a reply of simmerstoat_depth_at where the table of depths is meant. Mask it before taking the reply apart. */
#define SIMMERSTOAT_OF_DEPTHS 0x80000000u

/* The fourth whole number that simmerstoat_depth_at writes: the evaluations of both tables. */
enum { SIMMERSTOAT_BOTH = 3 };

/* The depth at the time y: the times are inverted with the order check, and the depths evaluated at the parameter found.
 * Writes the depth, the place in the times as an inversion does, and the count of both tables. Refusals, of the times:
 * 255, 1, 2, 3, 5, 6, 7, 4, 10; then of the depths: 1, 2, 3, 4, 18 (the tables have different counts of segments); then
 * 11, of the times, which writes the inversion's count. */
uint32_t simmerstoat_depth_at(uint8_t times_basis, const double *times, uint64_t n, uint8_t depths_basis,
                              const double *depths, uint64_t m, double y, uint16_t limit, double precision, double *depth,
                              double place[4], uint64_t whole[4]);

/* Whether a claim holds, to holds: that the segment, from 0, at the local place x is within twice the precision of y, in
 * doubles. A place outside 0 to 1 makes it false, and so does an infinite one. What an inversion answers by
 * SIMMERSTOAT_VALUE or SIMMERSTOAT_EDGE holds for its own segment, local place and precision; by another ground it may
 * not. Refusals: 255, 1, 2, 3, 5 (y or x is NaN), 6, 19, 4. */
uint32_t simmerstoat_check_claim(uint8_t basis, double y, uint64_t segment, double x, double precision,
                                 const double *knots, uint64_t n, bool *holds);

/* ---- tables with a span: whole seconds from dusk, 1 to 86,400, and 0 for none. Each call refuses a missing or bad span
 * with SIMMERSTOAT_BAD_SPAN, after 3 and before all else; with a good one it is the call without a span. */

/* The fourth whole number that an inversion of such a table writes. */
enum { SIMMERSTOAT_SECOND = 3 }; /* the largest whole second not above parameter * span, from 0 to the span */

/* The value of the curve at x. Refusals: 255, 1, 2, 3, 14, 5, 4. */
uint32_t simmerstoat_table_spline(uint8_t basis, uint32_t span, double x, const double *knots, uint64_t n, double *value);

/* Where the curve is at y: limit 32, precision 1e-10. Refusals: 255, 1, 2, 3, 14, 5, 4, 10, 11. */
uint32_t simmerstoat_table_spline_inverse(uint8_t basis, uint32_t span, double y, const double *knots, uint64_t n,
                                          bool check, double place[4], uint64_t whole[4]);

/* The same with every option. Refusals: 255, 1, 2, 3, 14, 5, 6, 7, 4, 10, 11. */
uint32_t simmerstoat_table_spline_inverse_by(uint8_t basis, uint32_t span, double y, const double *knots, uint64_t n,
                                             bool check, uint16_t limit, double precision, uint8_t ends, uint8_t method,
                                             double place[4], uint64_t whole[4]);

/* As simmerstoat_spline_inverse_steady. Refusals: 255, 1, 2, 3, 14, 5, 4, 10, 11. */
uint32_t simmerstoat_table_spline_inverse_steady(uint8_t basis, uint32_t span, double y, const double *knots, uint64_t n,
                                                 bool check, double place[4], uint64_t whole[4]);

/* What the depth at which a job stopped says of the job: what simmerstoat_stopped writes to job. None of these is 0, so that
 * a byte that was set to 0 says nothing before a call. */
enum {
    SIMMERSTOAT_JOB_FLAT = 1,      /* the curve's two ends are equal: no depth says how far the job had come */
    SIMMERSTOAT_JOB_BEFORE = 2,    /* y lies before the curve's start */
    SIMMERSTOAT_JOB_NOT_BEGUN = 3, /* y is the curve's start */
    SIMMERSTOAT_JOB_UNDER_WAY = 4, /* y lies strictly between the ends; the place and its second are written */
    SIMMERSTOAT_JOB_DONE = 5,      /* y is the curve's end */
    SIMMERSTOAT_JOB_BEYOND = 6     /* y lies beyond the curve's end */
};

/* How far a job had come that stopped at the depth y. Start and end are the curve's own, as evaluated, and "is" is equality
 * of doubles. Between them it is simmerstoat_table_spline_inverse_by in SIMMERSTOAT_ENDS_CURVE and SIMMERSTOAT_STEADY, limit
 * 64, precision 1e-10: never SIMMERSTOAT_SPENT, and at most 65 evaluations on up to 12 segments and 45 + 2 b above; elsewhere
 * there are 4, of the two ends. With check, knots that turn back are refused; leave it off for Hermite, whose knots are
 * depths and slopes by turns. On a refusal job keeps what it held. Refusals: 255, 1, 2, 3, 14, 5, 4, 10, 11. docs/BOX.md
 * says what a box does. */
uint32_t simmerstoat_stopped(uint8_t basis, uint32_t span, double y, const double *knots, uint64_t n, bool check,
                             uint8_t *job, double place[4], uint64_t whole[4]);

/* The knots in another basis, as simmerstoat_convert_spline. The new table has the same span, which is written to handed.
 * Refusals: 255, 1, 2, 3, 14, 8, 9, 4. */
uint32_t simmerstoat_table_convert_spline(uint8_t from, uint32_t span, uint8_t to, const double *knots, uint64_t n,
                                          double *out, uint64_t room, uint32_t *handed, uint64_t *written);

/* The same, refused where a seam would be lost, as simmerstoat_convert_spline_strict.
 * Refusals: 255, 1, 2, 3, 14, 8, 17, 9, 4, 15. */
uint32_t simmerstoat_table_convert_spline_strict(uint8_t from, uint32_t span, uint8_t to, const double *knots, uint64_t n,
                                                 double allowance, double *out, uint64_t room, uint32_t *handed,
                                                 uint64_t *written);

/* ---- what follows is written in C over the calls above, and proved of nothing */

/* Whether n knots suit the basis; no number that is no basis suits any. */
static inline bool simmerstoat_suits(uint8_t basis, uint64_t n) { return simmerstoat_is_len_ok(basis, n) == 1; }

/* The places that a conversion of n knots fills, 16,372 at most; 0 where no curve has n knots, or a number is no basis. */
static inline uint64_t simmerstoat_room(uint8_t from, uint8_t to, uint64_t n) {
    static const uint8_t step[] = {1, 3, 1, 2, 1, 4};
    if (from > 5 || to > 5 || n > SIMMERSTOAT_MOST_KNOTS || !simmerstoat_suits(from, n)) return 0;
    return 4 + (n - 4) / step[from] * step[to];
}

/* What a reply says, without its place. */
static inline const char *simmerstoat_text(uint32_t reply) {
    switch (SIMMERSTOAT_NUMBER(reply)) {
    case SIMMERSTOAT_DONE: return "done";
    case SIMMERSTOAT_NO_BASIS: return "no such basis, rule of the ends or method";
    case SIMMERSTOAT_TOO_FEW: return "too few knots";
    case SIMMERSTOAT_BAD_PATTERN: return "this many knots do not suit the basis";
    case SIMMERSTOAT_TOO_MANY: return "too many knots";
    case SIMMERSTOAT_BAD_SPAN: return "the span is missing or not in 1 to 86400";
    case SIMMERSTOAT_NOT_A_NUMBER: return "the parameter or target is NaN or outside its range";
    case SIMMERSTOAT_BAD_PRECISION: return "the precision is not finite or not above 0";
    case SIMMERSTOAT_NO_ROUNDS: return "the limit of rounds is 0";
    case SIMMERSTOAT_LINEAR_OUTPUT: return "Linear is no output basis";
    case SIMMERSTOAT_BAD_ALLOWANCE: return "the allowance is not finite or negative";
    case SIMMERSTOAT_SHORT_BUFFER: return "the output buffer is too short";
    case SIMMERSTOAT_BAD_STEP: return "the step is above 256";
    case SIMMERSTOAT_NO_SEGMENT: return "there is no such segment";
    case SIMMERSTOAT_BAD_KNOT: return "a knot is not finite or too large";
    case SIMMERSTOAT_TURNS_BACK: return "a knot goes against the direction";
    case SIMMERSTOAT_UNEQUAL_SEGMENTS: return "the tables have different counts of segments";
    case SIMMERSTOAT_OFF_CURVE: return "the target is not on the curve";
    case SIMMERSTOAT_BAD_LINE: return "a bad line";
    case SIMMERSTOAT_BAD_SHEET: return "a bad sheet";
    case SIMMERSTOAT_NO_COMPARISON: return "nothing to compare with";
    case SIMMERSTOAT_LOST_SEAM: return "a seam would be lost";
    default: return "no reply of this library";
    }
}

/* What an inversion tells. On a refusal only count is written, with SIMMERSTOAT_OFF_CURVE. */
struct simmerstoat_place {
    double parameter, local, lower, upper;
    uint64_t ground, segment, count;
};

/* What it may be told. */
struct simmerstoat_options {
    bool check;
    uint16_t limit;
    double precision;
    uint8_t ends, method;
};

/* The order check, 32 rounds, 1e-10, ends and method as the crate has them. */
static inline struct simmerstoat_options simmerstoat_defaults(void) {
    struct simmerstoat_options o = {true, 32, 1e-10, SIMMERSTOAT_ENDS_KNOTS, SIMMERSTOAT_AS_CRATE};
    return o;
}

/* The order check, 64 rounds, 1e-10, ends as the crate has them, the steady method: for a box, which has to answer for each
 * ground. It never gives SIMMERSTOAT_SPENT; the crate's method does, on curves like a night's. */
static inline struct simmerstoat_options simmerstoat_defaults_steady(void) {
    struct simmerstoat_options o = {true, 64, 1e-10, SIMMERSTOAT_ENDS_KNOTS, SIMMERSTOAT_STEADY};
    return o;
}

static inline uint32_t simmerstoat_placed(uint32_t reply, const double place[4], const uint64_t whole[3],
                                          struct simmerstoat_place *p) {
    if (reply == SIMMERSTOAT_DONE) {
        p->parameter = place[SIMMERSTOAT_PARAMETER];
        p->local = place[SIMMERSTOAT_LOCAL];
        p->lower = place[SIMMERSTOAT_LOWER];
        p->upper = place[SIMMERSTOAT_UPPER];
        p->ground = whole[SIMMERSTOAT_GROUND];
        p->segment = whole[SIMMERSTOAT_SEGMENT];
    }
    if (reply == SIMMERSTOAT_DONE || reply == SIMMERSTOAT_OFF_CURVE) p->count = whole[SIMMERSTOAT_COUNT];
    return reply;
}

/* simmerstoat_spline_inverse_by and simmerstoat_spline_inverse_segment_by over the two structs. */
static inline uint32_t simmerstoat_find(uint8_t basis, double y, const double *knots, uint64_t n,
                                        struct simmerstoat_options o, struct simmerstoat_place *p) {
    double place[4];
    uint64_t whole[3];
    uint32_t reply = simmerstoat_spline_inverse_by(basis, y, knots, n, o.check, o.limit, o.precision, o.ends, o.method,
                                                   place, whole);
    return simmerstoat_placed(reply, place, whole, p);
}

static inline uint32_t simmerstoat_find_in_segment(uint8_t basis, double y, const double *cv, uint64_t n,
                                                   struct simmerstoat_options o, struct simmerstoat_place *p) {
    double place[4];
    uint64_t whole[3];
    uint32_t reply = simmerstoat_spline_inverse_segment_by(basis, y, cv, n, o.limit, o.precision, o.method, place, whole);
    return simmerstoat_placed(reply, place, whole, p);
}

/* What a stopped job's depth says. job is 0 on a refusal, else one of SIMMERSTOAT_JOB_*; second and place are good where it is
 * SIMMERSTOAT_JOB_UNDER_WAY, and of place count with SIMMERSTOAT_OFF_CURVE. */
struct simmerstoat_job {
    uint8_t job;
    uint32_t second;
    struct simmerstoat_place place;
};

/* simmerstoat_stopped over that struct. */
static inline uint32_t simmerstoat_job_at(uint8_t basis, uint32_t span, double y, const double *knots, uint64_t n, bool check,
                                          struct simmerstoat_job *j) {
    double place[4] = {0};
    uint64_t whole[4] = {0};
    j->job = 0;
    uint32_t reply = simmerstoat_stopped(basis, span, y, knots, n, check, &j->job, place, whole);
    j->second = (uint32_t)whole[SIMMERSTOAT_SECOND];
    return simmerstoat_placed(reply, place, whole, &j->place);
}

#ifdef __cplusplus
}
#endif

#endif

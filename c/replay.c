/* The stored answers of crates/test_replay through the archive and this header: every reply, every bit of every double, every whole number.
 * README.md of that crate says what a line holds. The lines m, n and q go through the header's structs; a line with the default limit and
 * precision is asked by the call without them too. Exits with 1 where one differs. Compiled with what box/stored.h says. */
#include "simmerstoat.h"
#include "stored.h"

#include <string.h>

/* The numbers are those of README.md, whatever they are called here. */
#define IS(name, number) _Static_assert(SIMMERSTOAT_##name == number, #name)
IS(BSPLINE, 0); IS(BEZIER, 1); IS(CATMULL_ROM, 2); IS(HERMITE, 3); IS(LINEAR, 4); IS(POWER, 5);
IS(ENDS_KNOTS, 0); IS(ENDS_CURVE, 1); IS(AS_CRATE, 0); IS(TAUGHT, 1); IS(STEADY, 2);
IS(END, 0); IS(EDGE, 1); IS(VALUE, 2); IS(WIDTH, 3); IS(SPENT, 4);
IS(DONE, 0); IS(TOO_FEW, 1); IS(BAD_PATTERN, 2); IS(TOO_MANY, 3); IS(BAD_KNOT, 4); IS(NOT_A_NUMBER, 5); IS(BAD_PRECISION, 6);
IS(NO_ROUNDS, 7); IS(LINEAR_OUTPUT, 8); IS(SHORT_BUFFER, 9); IS(TURNS_BACK, 10); IS(OFF_CURVE, 11); IS(BAD_LINE, 12); IS(BAD_SHEET, 13);
IS(BAD_SPAN, 14); IS(LOST_SEAM, 15); IS(BAD_STEP, 16); IS(BAD_ALLOWANCE, 17); IS(UNEQUAL_SEGMENTS, 18); IS(NO_SEGMENT, 19);
IS(NO_COMPARISON, 20); IS(NO_BASIS, 255);
IS(JOB_FLAT, 1); IS(JOB_BEFORE, 2); IS(JOB_NOT_BEGUN, 3); IS(JOB_UNDER_WAY, 4); IS(JOB_DONE, 5); IS(JOB_BEYOND, 6);

enum { TABLE = 4200 };

uint32_t reply;
static uint64_t knots, whole[4], written;
static double table[TABLE], value, place[4], out[WORDS];
static uint32_t handed;
static bool holds;
static struct simmerstoat_place found;
static struct simmerstoat_job job;

static uint64_t bits(double x) {
    uint64_t b;
    memcpy(&b, &x, 8);
    return b;
}

static double of(uint64_t b) {
    double x;
    memcpy(&x, &b, 8);
    return x;
}

/* ---- the calls, a letter each */
#define BASIS (uint8_t)w[0]
#define Y of(w[1])
#define CHECK (w[2] == 1)
#define LIMIT (uint16_t)w[3]
#define PRECISION of(w[4])
#define ENDS (uint8_t)w[13]
#define METHOD (uint8_t)w[14]
#define SPAN (uint32_t)w[15]
#define OPTIONS (struct simmerstoat_options){CHECK, LIMIT, PRECISION, ENDS, METHOD}

void nothing(void) { reply = simmerstoat_version(); }
static void v(void) { reply = simmerstoat_spline(BASIS, Y, table, knots, &value); }
static void s(void) { reply = simmerstoat_spline_segment(BASIS, Y, table, knots, &value); }
static void t(void) { reply = simmerstoat_table_spline(BASIS, (uint32_t)w[4], Y, table, knots, &value); }
static void a(void) { reply = simmerstoat_check_claim(BASIS, Y, w[2], of(w[3]), of(w[4]), table, knots, &holds); }
static void i(void) { reply = simmerstoat_spline_inverse_with(BASIS, Y, table, knots, CHECK, LIMIT, PRECISION, place, whole); }
static void i_default(void) { reply = simmerstoat_spline_inverse(BASIS, Y, table, knots, CHECK, place, whole); }
static void j(void) { reply = simmerstoat_spline_inverse_segment_with(BASIS, Y, table, knots, LIMIT, PRECISION, place, whole); }
static void j_default(void) { reply = simmerstoat_spline_inverse_segment(BASIS, Y, table, knots, place, whole); }
static void m(void) { reply = simmerstoat_find(BASIS, Y, table, knots, OPTIONS, &found); }
static void n(void) { reply = simmerstoat_find_in_segment(BASIS, Y, table, knots, OPTIONS, &found); }
static void o(void) { reply = simmerstoat_spline_inverse_steady(BASIS, Y, table, knots, CHECK, place, whole); }
static void p(void) { reply = simmerstoat_spline_inverse_segment_steady(BASIS, Y, table, knots, place, whole); }
static void tw(void) { reply = simmerstoat_table_spline_inverse(BASIS, SPAN, Y, table, knots, CHECK, place, whole); }
static void x(void) {
    reply = simmerstoat_table_spline_inverse_by(BASIS, SPAN, Y, table, knots, CHECK, LIMIT, PRECISION, ENDS, METHOD, place, whole);
}
static void y(void) { reply = simmerstoat_table_spline_inverse_steady(BASIS, SPAN, Y, table, knots, CHECK, place, whole); }
static void q(void) { reply = simmerstoat_job_at(BASIS, SPAN, Y, table, knots, CHECK, &job); }
static void h(void) {
    reply = simmerstoat_depth_at(BASIS, table, w[14], ENDS, table + w[14], knots - w[14], Y, LIMIT, PRECISION, &value, place, whole);
}
static void c(void) { reply = simmerstoat_convert_spline(BASIS, (uint8_t)w[1], table, knots, out, WORDS, &written); }
static void d(void) { written = 4, reply = simmerstoat_convert_segment(BASIS, (uint8_t)w[1], table, knots, out, WORDS); }
static void e(void) { reply = simmerstoat_convert_spline_strict(BASIS, (uint8_t)w[1], table, knots, of(w[2]), out, WORDS, &written); }
static void f(void) {
    reply = simmerstoat_table_convert_spline(BASIS, (uint32_t)w[3], (uint8_t)w[1], table, knots, out, WORDS, &handed, &written);
}
static void g(void) {
    reply = simmerstoat_table_convert_spline_strict(BASIS, (uint32_t)w[3], (uint8_t)w[1], table, knots, of(w[2]), out, WORDS, &handed,
                                                    &written);
}

const struct call calls[] = {
    {'v', "spline", v},
    {'s', "spline_segment", s},
    {'t', "table_spline", t},
    {'a', "check_claim", a},
    {'i', "spline_inverse_with", i},
    {'j', "spline_inverse_segment_with", j},
    {'m', "spline_inverse_by", m},
    {'n', "spline_inverse_segment_by", n},
    {'o', "spline_inverse_steady", o},
    {'p', "spline_inverse_segment_steady", p},
    {'w', "table_spline_inverse", tw},
    {'x', "table_spline_inverse_by", x},
    {'y', "table_spline_inverse_steady", y},
    {'q', "stopped", q},
    {'h', "depth_at", h},
    {'c', "convert_spline", c},
    {'d', "convert_segment", d},
    {'e', "convert_spline_strict", e},
    {'f', "table_convert_spline", f},
    {'g', "table_convert_spline_strict", g},
};
const unsigned letters = sizeof calls / sizeof *calls;

void held(char letter) {
    if (letter == 'k') for (knots = 0; knots < words; knots++) table[knots] = of(w[knots]);
    if (letter == 'z') knots = w[0];
}

void forget(void) {
    reply = 12345, value = 0, holds = false, written = 0, handed = 0;
    memset(place, 0, sizeof place), memset(whole, 0, sizeof whole), memset(out, 0, sizeof out);
    memset(&found, 0, sizeof found), memset(&job, 0, sizeof job);
}

/* ---- what they left, beside what is stored */
static bool same_output(const uint64_t *stored) {
    if (reply != stored[0]) return false;
    if (reply != 0) return true;
    if (written != stored[1] || written > WORDS) return false;
    for (uint64_t at = 0; at < written; at++)
        if (bits(out[at]) != stored[2 + at]) return false;
    return true;
}

static bool same_place(bool fourth) {
    if (reply != w[5]) return false;
    if (reply == SIMMERSTOAT_OFF_CURVE) return whole[SIMMERSTOAT_COUNT] == w[12];
    if (reply != 0) return true;
    return bits(place[SIMMERSTOAT_PARAMETER]) == w[6] && bits(place[SIMMERSTOAT_LOCAL]) == w[7] && bits(place[SIMMERSTOAT_LOWER]) == w[8] &&
           bits(place[SIMMERSTOAT_UPPER]) == w[9] && whole[SIMMERSTOAT_GROUND] == w[10] && whole[SIMMERSTOAT_SEGMENT] == w[11] &&
           whole[SIMMERSTOAT_COUNT] == w[12] && (!fourth || whole[SIMMERSTOAT_SECOND] == w[16]);
}

/* the header's record, by README.md's numbers */
static void told(struct simmerstoat_place r) {
    place[0] = r.parameter, place[1] = r.local, place[2] = r.lower, place[3] = r.upper;
    whole[0] = r.ground, whole[1] = r.segment, whole[2] = r.count;
}

/* with the default limit and precision the call without them answers the same */
static bool same_by_default(void (*call)(void)) {
    if (w[3] != 32 || PRECISION != 1e-10) return true;
    forget(), call();
    return same_place(false);
}

bool is_equal(char letter) {
    switch (letter) {
    case 'v': case 's': case 't': return reply == w[2] && (reply != 0 || bits(value) == w[3]);
    case 'a': return reply == w[5] && holds == (w[6] == 1);
    case 'c': case 'd': return same_output(w + 2);
    case 'e': return same_output(w + 4);
    case 'f': case 'g': return same_output(w + 4) && (reply != 0 || handed == (uint32_t)w[3]);
    case 'h': return same_place(true) && (reply != 0 || bits(value) == w[15]);
    case 'm': case 'n': told(found); return same_place(false);
    case 'q': told(job.place), whole[SIMMERSTOAT_SECOND] = job.second; return same_place(true) && job.job == w[13];
    case 'w': case 'x': case 'y': return same_place(true);
    case 'i': return same_place(false) && same_by_default(i_default);
    case 'j': return same_place(false) && same_by_default(j_default);
    default: return same_place(false);
    }
}

/* the header's defaults: the order check, 32 rounds, 1e-10, as the crate does */
static bool are_defaults(void) {
    const struct simmerstoat_options d = simmerstoat_defaults();
    return d.check && d.limit == 32 && d.precision == 1e-10 && d.ends == SIMMERSTOAT_ENDS_KNOTS && d.method == SIMMERSTOAT_AS_CRATE;
}

int main(void) { return !is_replayed() || !are_defaults(); }

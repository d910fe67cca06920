/* The stored answers of crates/test_whole through the archive and its header: every reply, every number, and that nothing else is written.
 * README.md of that crate says what a line holds. Exits with 1 where one differs. Compiled with what box/stored.h says; with MEASURED it
 * tells of the valve too, which has no stored answers. */
#include "simmerstoat_valve.h"
#include "simmerstoat_whole.h"
#include "stored.h"

enum { TABLE = 4200, KEPT = 7 };

uint32_t reply;
static int64_t table[TABLE], out[WORDS];
static uint64_t numbers, turning[2], written;

static int64_t of(uint64_t word) { return word % 2 ? -(int64_t)(word / 2) - 1 : (int64_t)(word / 2); }

void nothing(void) { reply = 0; }
static void t(void) {
    reply = w[1] < 2 ? simmerstoat_turns_back_by((uint8_t)w[0], w[1] == 0, table, numbers, turning)
                     : simmerstoat_turns_back((uint8_t)w[0], table, numbers, turning);
}
static void m(void) { reply = simmerstoat_monotone(table, numbers, out, WORDS, &written); }
static void valve(void) {
    static const int64_t knots[4] = {-1000000, 1000000, 7, -8};
    int64_t sum;
    reply = simmerstoat_valve((uint16_t)w[0], knots, 4, &sum);
}

const struct call calls[] = {{'t', "turns_back", t}, {'m', "monotone", m}};
const unsigned letters = sizeof calls / sizeof *calls;

void held(char letter) {
    if (letter == 'k') for (numbers = 0; numbers < words; numbers++) table[numbers] = of(w[numbers]);
    if (letter == 'z') numbers = w[0];
}

void forget(void) {
    reply = 12345, written = 0, turning[0] = turning[1] = KEPT;
    for (int at = 0; at < WORDS; at++) out[at] = KEPT;
}

bool is_equal(char letter) {
    if (letter == 't') return reply == w[2] && turning[SIMMERSTOAT_TURNING] == w[3] && turning[SIMMERSTOAT_TURNING_SEGMENT] == w[4];
    if (reply != w[0] || written != w[1]) return false;
    for (uint64_t at = 0; at < WORDS; at++)
        if (out[at] != (at < written ? of(w[2 + at]) : KEPT)) return false;
    return true;
}

int main(void) {
    told_alone("valve", valve, 256);
    return !is_replayed();
}

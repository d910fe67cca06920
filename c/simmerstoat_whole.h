/* Curves over whole numbers: whether one turns back, decided exactly, and a table whose curve cannot. Proved, and without
 * floating-point arithmetic. Link with libsimmerstoat_whole.a: for x86-64 Linux `bin/archives simmerstoat_whole` writes it,
 * for the processors of small boxes `bin/box TARGET` (docs/BOX.md).
 *
 * Depths are whole numbers, of thousandths for a sheet's. Every call answers every input: none panics, loops or reads
 * outside what is lent.
 *
 * What a caller owes
 *   - A pointer with a length is good for that many numbers; it may be null where the length is 0. Each other pointer is
 *     good for what it points to. The numbers may be anything. Each pointer is aligned as its type is.
 *   - What is written overlaps nothing else that the call is lent.
 *
 * What comes back
 *   - The reply is 0 when the call did its work. Otherwise its lowest eight bits are the number of a refusal and the bits
 *     above them the place of a bad knot or row: SIMMERSTOAT_NUMBER, SIMMERSTOAT_PLACE. The first that applies is given,
 *     in the order that stands at each call. On a refusal nothing is written.
 *
 * What the archive is
 *   - One object. Beside code it has constants alone: no state and no heap. For x86-64 no symbol is undefined; elsewhere it
 *     may call what docs/BOX.md lists, and nothing that computes with doubles. So every call is re-entrant, and may run in
 *     any thread, signal handler or interrupt. On the targets of bin/box no floating-point register is named.
 *   - Stack in bytes, at most (c/stack.c measures it, up to 4,096 knots, helpers included):
 *                                x86-64   targets of bin/box
 *         turning back              256   400
 *         table                      96   256
 */
#ifndef SIMMERSTOAT_WHOLE_H
#define SIMMERSTOAT_WHOLE_H

/* For the numbers of bases and refusals alone: a program that makes none of its calls need not link libsimmerstoat.a. */
#include "simmerstoat.h"

#ifdef __cplusplus
extern "C" {
#endif

/* What is written: which answer, and the segment, from 0. */
enum {
    SIMMERSTOAT_TURNING = 0,        /* one of the next enum */
    SIMMERSTOAT_TURNING_SEGMENT = 1 /* of SIMMERSTOAT_TURNS_AT; else 0 */
};

enum {
    SIMMERSTOAT_NEVER_TURNS = 0, /* no place lies on the wrong side of an earlier one */
    SIMMERSTOAT_TURNS_AT = 1,    /* this segment goes against the direction, or starts on the wrong side of the end of
                                    the one before; in the segments before it nothing does */
    SIMMERSTOAT_FLAT = 2         /* the curve ends at the depth at which it starts: there is no direction */
};

/* Whether the curve goes against the direction from its own start to its own end.
 * Refusals: 255 no basis, 1 fewer than 4 knots, 2 a wrong number of knots, 3 more than 4,096, 4 a knot above 10^12 in
 * magnitude, with its place. */
uint32_t simmerstoat_turns_back(uint8_t basis, const int64_t *knots, uint64_t n, uint64_t turning[2]);

/* Whether it falls anywhere, where `up` is true; else whether it rises. Never SIMMERSTOAT_FLAT. Refusals: the same. */
uint32_t simmerstoat_turns_back_by(uint8_t basis, bool up, const int64_t *knots, uint64_t n, uint64_t turning[2]);

/* Writes a table of depth, slope, depth, slope, .. for n rows of depths: 2 n numbers, the knots of a Hermite curve through
 * every row. Where the rows keep a direction the curve never turns back, and it stays between each two rows anyhow.
 * `written` is then 2 n; `out` behind them keeps what it held.
 * Refusals: 1 fewer than 2 rows, 3 more than 2,048, 9 a room below 2 n, 4 a row above 5 * 10^11 in magnitude, with its place.
 *
 * For the calls over doubles each number of the table is divided once: (double)out[i] / 1000.0 is the double nearest to
 * that decimal, which a sheet would have given. Invert such a table by the curve's own ends (SIMMERSTOAT_ENDS_CURVE) and
 * with `check` false: the order check reads the slopes as depths. */
uint32_t simmerstoat_monotone(const int64_t *rows, uint64_t n, int64_t *out, uint64_t room, uint64_t *written);

#ifdef __cplusplus
}
#endif

#endif

/* Valves that count in whole steps: four whole knots mixed at one of 257 places, in whole numbers alone, proved.
 * Link with libvalve.a: for x86-64 Linux `bin/archives valve` writes it, for the processors of small boxes `bin/box TARGET`
 * (docs/BOX.md). Its code names no floating-point register, and a call takes at most 256 bytes of stack; bin/link and bin/box
 * look. It has no state: the call may run in any thread, signal handler or interrupt.
 *
 * The call answers every input. The reply is 0 and the sum is written, or it is a refusal: its number in the lowest
 * eight bits, and for a bad knot the knot's place above them. The first that applies is given, in the order below, and
 * nothing is written then.
 *
 *     1   fewer than 4 knots
 *     2   more than 4 knots
 *     16  a step above 256
 *     4   a knot above 1,000,000 in magnitude; its place, from 0, is reply >> 8
 */
#ifndef SIMMERSTOAT_VALVE_H
#define SIMMERSTOAT_VALVE_H

#include <stdint.h>

#ifdef __cplusplus
extern "C" {
#endif

/* What the four weights of every step come to: 6 * 256^3. The sum divided by it is the B-spline at step/256. */
#define SIMMERSTOAT_VALVE_WHOLE INT64_C(100663296)

/* The weighted sum, undivided. `knots` must be good for n numbers (null is fine where n is 0), and `sum` for one; both are
 * aligned as an int64_t is, and do not overlap. */
uint32_t simmerstoat_valve(uint16_t step, const int64_t *knots, uint64_t n, int64_t *sum);

#ifdef __cplusplus
}
#endif

#endif

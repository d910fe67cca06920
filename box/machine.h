/* What the programs of this folder and c/stack.c ask of a machine beside C. */
#ifndef MACHINE_H
#define MACHINE_H

#include <stdint.h>

/* Runs a call on a stack of its own, whose end is `top`, a multiple of 16. */
void on_stack(void (*call)(void), void *top);

/* Instructions so far, for differences: 0 where nobody counts them. */
uint32_t instructions(void);

/* From now on a call by an interrupt, again and again; on Linux by a signal. */
void interrupt_by(void (*call)(void));

#endif

/* A list of stored answers, replayed: a line is a letter and numbers in hexadecimal. Compiled with stored.c and list.S, which holds the
 * list in memory; LIST is its file, and WANTED is how many answers it has. With MEASURED, for bin/box, each call is made on a painted
 * stack (machine.h), and for each letter the deepest stack and the instructions are told. */
#ifndef STORED_H
#define STORED_H

#include <stdbool.h>
#include <stdint.h>

enum { WORDS = 64 };
extern uint64_t w[WORDS], words; /* the line's numbers, and how many there are */

struct call {
    char letter;
    const char *name;
    void (*make)(void);
};

/* What a program has of its own. */
extern uint32_t reply;
extern const struct call calls[];
extern const unsigned letters;
void nothing(void);         /* a call that takes no stack */
void held(char letter);     /* a line that is no call's, such as a table's */
void forget(void);          /* before a call: what it is to write is not there */
bool is_equal(char letter); /* after it: it replied and wrote what is stored */

/* Replays the list, tells how many were equal, and answers whether all were. */
bool is_replayed(void);

/* Tells what a call takes that has no stored answers, for w[0] from 0 to `last`; without MEASURED nothing. */
void told_alone(const char *name, void (*make)(void), uint64_t last);

#endif

/* stored.h. */
#include "stored.h"

#include <stdio.h>

enum { MOST_LETTERS = 32 };
extern const char list_start[], list_end[];

uint64_t w[WORDS], words;
static uint32_t deep, counted; /* of the last call, beyond those of one that takes nothing */

#ifdef MEASURED
#include "machine.h"

enum { STACK = 2048 };
static const uint32_t PAINT = 0xA5C3A5C3;
static uint32_t stack[STACK] __attribute__((aligned(16)));
static uint32_t no_deep, no_count;

static void measured(void (*call)(void)) {
    for (int at = 0; at < STACK; at++) stack[at] = PAINT;
    const uint32_t before = instructions();
    on_stack(call, stack + STACK);
    counted = instructions() - before - no_count;
    int at = 0;
    while (at < STACK && stack[at] == PAINT) at++;
    deep = (uint32_t)(STACK - at) * 4 - no_deep;
}

static void begin(void) {
    no_deep = no_count = 0;
    measured(nothing);
    no_deep = deep, no_count = counted;
}
#else
static void measured(void (*call)(void)) { call(); }
static void begin(void) {}
#endif

static struct sum {
    uint64_t instructions;
    uint32_t lines, done, equal, deep, most;
} sums[MOST_LETTERS];

static void add(struct sum *s, bool equal) {
    s->lines++, s->equal += equal;
    if (deep > s->deep) s->deep = deep;
    if (reply != 0) return;
    s->done++, s->instructions += counted;
    if (counted > s->most) s->most = counted;
}

static void tell(const char *name, const struct sum *s) {
#ifdef MEASURED
    static bool headed;
    if (!headed) printf("%-30s %6s %6s %6s %18s %8s\n", "call", "lines", "equal", "stack", "instructions: mean", "most");
    headed = true;
    printf("%-30s %6u %6u %6u %18u %8u\n", name, (unsigned)s->lines, (unsigned)s->equal, (unsigned)s->deep,
           (unsigned)(s->done ? s->instructions / s->done : 0), (unsigned)s->most);
#else
    (void)name, (void)s;
#endif
}

/* The line's numbers; where the next line begins. */
static const char *read_line(const char *at) {
    for (words = 0; at < list_end && *at != '\n';) {
        uint64_t word = 0;
        for (at++; at < list_end && *at != ' ' && *at != '\n'; at++) word = word * 16 + (uint64_t)(*at <= '9' ? *at - '0' : *at - 'A' + 10);
        if (words < WORDS) w[words++] = word;
    }
    return at + 1;
}

bool is_replayed(void) {
    uint32_t compared = 0, equal = 0;
    begin();
    for (const char *at = list_start; at < list_end;) {
        const char letter = *at;
        at = read_line(at + 1);
        unsigned l = 0;
        while (l < letters && calls[l].letter != letter) l++;
        if (l == letters) {
            held(letter);
            continue;
        }
        forget();
        measured(calls[l].make);
        const uint32_t replied = reply;
        const bool good = is_equal(letter);
        compared++, equal += good;
        if (!good && compared - equal <= 10)
            printf("answer %u differs: %s replied %u\n", (unsigned)compared, calls[l].name, (unsigned)replied);
        reply = replied;
        add(&sums[l], good);
    }
    for (unsigned l = 0; l < letters; l++) tell(calls[l].name, &sums[l]);
    printf("%u answers compared, %u equal\n", (unsigned)compared, (unsigned)equal);
    return compared == WANTED && equal == WANTED;
}

void told_alone(const char *name, void (*make)(void), uint64_t last) {
    struct sum alone = {0, 0, 0, 0, 0, 0};
    begin();
    for (w[0] = 0; w[0] <= last; w[0]++) measured(make), add(&alone, true);
    tell(name, &alone);
}

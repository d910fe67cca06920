/* machine.h for Cortex-M, RISC-V and, on Linux, for aarch64 and x86-64. */
#include "machine.h"

static void (*interrupted)(void);

#if defined(__arm__)

__asm__(".text\n .syntax unified\n .thumb\n .globl on_stack\n .type on_stack, %function\n .thumb_func\n"
        "on_stack: push {r4, lr}\n mov r4, sp\n mov sp, r1\n blx r0\n mov sp, r4\n pop {r4, pc}\n");

static volatile uint32_t *const TIMER = (volatile uint32_t *)0xE000E010; /* SysTick: control, reload, now; it counts down */

/* qemu's -icount shift=6 has an instruction take 64 ns, and a tick takes TICK ns. */
uint32_t instructions(void) {
    static uint32_t last;
    static uint64_t ticks;
    if ((TIMER[0] & 1) == 0) TIMER[1] = 0xFFFFFF, TIMER[2] = 0, TIMER[0] = 5;
    const uint32_t now = 0xFFFFFF - TIMER[2];
    ticks += (now - last) & 0xFFFFFF;
    last = now;
    return (uint32_t)(ticks * TICK / 64);
}

void arm_systick_isr(void) { interrupted(); } /* picolibc's name of the handler */

void interrupt_by(void (*call)(void)) {
    interrupted = call;
    TIMER[1] = 99991, TIMER[2] = 0, TIMER[0] = 7;
}

#elif defined(__riscv)

__asm__(".text\n .globl on_stack\n"
        "on_stack: addi a1, a1, -16\n sw ra, 0(a1)\n sw sp, 4(a1)\n mv sp, a1\n jalr a0\n lw ra, 0(sp)\n lw sp, 4(sp)\n ret\n");

/* with -icount shift=0 */
uint32_t instructions(void) {
    uint32_t n;
    __asm__ volatile("csrr %0, minstret" : "=r"(n));
    return n;
}

/* the timer of the machine `virt`: now, and when to interrupt */
static volatile uint64_t *const NOW = (volatile uint64_t *)0x200BFF8, *const WHEN = (volatile uint64_t *)0x2004000;
enum { PERIOD = 499 };

static void __attribute__((interrupt("machine"), aligned(4))) on_timer(void) {
    interrupted();
    *WHEN = *NOW + PERIOD;
}

void interrupt_by(void (*call)(void)) {
    interrupted = call;
    *WHEN = *NOW + PERIOD;
    __asm__ volatile("csrw mtvec, %0\n csrs mie, %1\n csrsi mstatus, 8" : : "r"(on_timer), "r"(128));
}

#elif defined(__linux__)

#include <signal.h>
#include <sys/time.h>

#if defined(__aarch64__)
__asm__(".text\n .globl on_stack\n .type on_stack, %function\n"
        "on_stack: stp x29, x30, [sp, #-16]!\n mov x29, sp\n mov sp, x1\n blr x0\n mov sp, x29\n ldp x29, x30, [sp], #16\n ret\n");
#elif defined(__x86_64__)
__asm__(".text\n .globl on_stack\n .type on_stack, @function\n"
        "on_stack: push %rbx\n mov %rsp, %rbx\n mov %rsi, %rsp\n call *%rdi\n mov %rbx, %rsp\n pop %rbx\n ret\n");
#endif

uint32_t instructions(void) { return 0; }

static void on_signal(int number) {
    (void)number;
    interrupted();
}

void interrupt_by(void (*call)(void)) {
    const struct itimerval often = {{0, 1000}, {0, 1000}};
    interrupted = call;
    signal(SIGALRM, on_signal);
    setitimer(ITIMER_REAL, &often, 0);
}

#endif

/*
 * steps.h: counts the instructions that a thread carries out. While a processor of x86-64 has its trap flag set, the system sends
 * the thread a signal after each of them. A step takes some microseconds. A program that defines OWN_STEPS, and _GNU_SOURCE, counts only
 * instructions of its own, and none of the C library, which has other code for each kind of processor.
 */
#ifndef STEPS_H
#define STEPS_H

#include <signal.h>
#include <stdatomic.h>
#include <stdint.h>
#include <stdlib.h>

static _Atomic uint64_t *steps;

#ifdef OWN_STEPS
#include <stdbool.h>
#include <ucontext.h>

/* where the code of the program begins, and where it ends */
extern const char __executable_start[], etext[];

static bool is_counted(const void *context) {
    const uintptr_t next = (uintptr_t)((const ucontext_t *)context)->uc_mcontext.gregs[REG_RIP];
    return next >= (uintptr_t)__executable_start && next < (uintptr_t)etext;
}
#else
#define is_counted(context) ((void)(context), 1)
#endif

static void count_step(int number, siginfo_t *said, void *context) {
    (void)number, (void)said;
    if (is_counted(context)) atomic_fetch_add(steps, 1);
}

/* Counts each instruction from here on in this number, which is 0 at first. */
static inline void begin_steps(_Atomic uint64_t *count) {
    struct sigaction action = {.sa_sigaction = count_step, .sa_flags = SA_SIGINFO};
    steps = count;
    atomic_store(count, 0);
    if (sigaction(SIGTRAP, &action, NULL) != 0) abort();
    /* the compiler may keep something in the 128 bytes below the stack's end */
    __asm__ volatile("lea -128(%%rsp), %%rsp; pushfq; orq $0x100, (%%rsp); popfq; lea 128(%%rsp), %%rsp" ::: "cc", "memory");
}

static inline void end_steps(void) {
    __asm__ volatile("lea -128(%%rsp), %%rsp; pushfq; andq $~0x100, (%%rsp); popfq; lea 128(%%rsp), %%rsp" ::: "cc", "memory");
}

#endif

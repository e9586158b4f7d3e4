/*
 * Tries a pool that runs each part by two threads at once, which does its work once, also if one run comes between any two
 * instructions of the other; and a pool that is stopped while a call is at work, which waits for the call. It prints what is not
 * as it should be, and its status is then 1. `tests/c/run pools` builds and runs it, also under the thread sanitizer.
 */
#define _GNU_SOURCE
#define PROGRAM "pool_races"

enum { LONG = 64, PARTS = 4, ROUNDS = 600 };

#include "held.h"

#include <sched.h>
#include <ucontext.h>
#if defined(__x86_64__)
#include <x86intrin.h>
#endif

/* The part that is run twice. */
static CvlPart part_of_both;
static void *work_of_both;
static size_t place_of_both;

/* An addition on the pool, of which each part is done once. */
static bool adds_once(const CvlPool *pool) {
    int32_t out[LONG];
    parts_at_work = 0;
    bool right = cvl_add_wuz_on(pool, a, wanted, out, LONG).number == CVL_DONE;
    for (size_t k = 0; k < LONG; k++) right = right && out[k] == a[k] + wanted[k];
    return right && parts_at_work == PARTS;
}

/* ---- each part by two threads at once ---- */

static atomic_uint turn, ended;
static atomic_bool is_over;

/* Some steps without work, so that now one thread and now the other is first. */
static void pause_for(unsigned steps) {
    for (volatile unsigned k = 0; k < steps; k++) continue;
}

static void *second(void *nothing) {
    for (unsigned k = 1;; k++) {
        while (turn != k && !is_over) sched_yield();
        if (is_over) return nothing;
        pause_for(k % 13 * 4);
        part_of_both(work_of_both, place_of_both);
        ended = k;
    }
}

static void run_by_two(void *state, CvlPart part, void *work, size_t parts) {
    (void)state;
    for (size_t k = 0; k < parts; k++) {
        part_of_both = part, work_of_both = work, place_of_both = k;
        const unsigned now = ++turn;
        pause_for(now % 31 * 4);
        part(work, k);
        while (ended != now) sched_yield();
    }
}

static void parts_by_two(void) {
    const CvlPool pool = {PARTS, run_by_two, NULL};
    pthread_t other;
    begin(&other, second, NULL);
    for (int k = 0; k < ROUNDS; k++) {
        check("a part that two threads run at once does its work twice, or not", adds_once(&pool));
        check("a scan by parts that two threads run at once is another", scans_by(&pool));
    }
    is_over = true;
    pthread_join(other, NULL);
}

/* ---- a run of a part between any two instructions of another run ---- */

#if defined(__x86_64__) && !defined(__SANITIZE_THREAD__)
enum { TRAPS = 0x100, MOST_STEPS = 200 };

static volatile sig_atomic_t steps_left;

/* After so many instructions the part is run, and the other run goes on unobserved. */
static void come_between(int number, siginfo_t *about, void *context) {
    (void)number, (void)about;
    if (--steps_left > 0) return;
    part_of_both(work_of_both, place_of_both);
    ((ucontext_t *)context)->uc_mcontext.gregs[REG_EFL] &= ~TRAPS;
}

static void run_in_steps(void *steps, CvlPart part, void *work, size_t parts) {
    part_of_both = part, work_of_both = work, place_of_both = 0;
    steps_left = *(const int *)steps;
    __writeeflags(__readeflags() | TRAPS);
    part(work, 0);
    __writeeflags(__readeflags() & ~(unsigned long long)TRAPS);
    for (size_t k = 1; k < parts; k++) part(work, k);
}

static void runs_between_instructions(void) {
    struct sigaction action;
    memset(&action, 0, sizeof action);
    action.sa_flags = SA_SIGINFO;
    action.sa_sigaction = come_between;
    sigaction(SIGTRAP, &action, NULL);
    for (int steps = 1; steps <= MOST_STEPS; steps++) {
        const CvlPool pool = {PARTS, run_in_steps, &steps};
        check("a part does its work twice, or not, if another run comes between", adds_once(&pool));
    }
    signal(SIGTRAP, SIG_DFL);
}
#else
static void runs_between_instructions(void) {}
#endif

/* ---- a pool that is stopped under a call ---- */

/*
 * The lock that the call at work holds, which no other call waits for, and whether another thread waits for it. The linker puts
 * these functions in place of those of POSIX (--wrap).
 */
static _Atomic(pthread_mutex_t *) lock_of_call;
static atomic_bool is_waited_for;

int __real_pthread_mutex_trylock(pthread_mutex_t *lock);
int __wrap_pthread_mutex_trylock(pthread_mutex_t *lock);
int __real_pthread_mutex_lock(pthread_mutex_t *lock);
int __wrap_pthread_mutex_lock(pthread_mutex_t *lock);

int __wrap_pthread_mutex_trylock(pthread_mutex_t *lock) {
    const int told = __real_pthread_mutex_trylock(lock);
    if (told == 0) lock_of_call = lock;
    return told;
}

int __wrap_pthread_mutex_lock(pthread_mutex_t *lock) {
    const int told = __real_pthread_mutex_trylock(lock);
    if (told != EBUSY) return told;
    if (lock == lock_of_call) is_waited_for = true;
    return __real_pthread_mutex_lock(lock);
}

static CvlThreads *own;
static pthread_t caller;
static atomic_bool is_stopped, may_end;
static atomic_int at_work, done;

/* Each part waits for all, and the one of the thread that calls until it may end. */
static void hold_caller(void *nothing, size_t k) {
    (void)nothing, (void)k;
    at_work++;
    BECOMES(at_work == PARTS);
    if (pthread_equal(pthread_self(), caller)) BECOMES(may_end);
    done++;
}

static void *call(void *nothing) {
    const CvlPool pool = cvl_pool_posix(own);
    caller = pthread_self();
    pool.run(pool.state, hold_caller, nothing, PARTS);
    return nothing;
}

static void *stop(void *threads) {
    cvl_threads_stop(threads);
    is_stopped = true;
    return NULL;
}

static void stopped_under_a_call(void) {
    pthread_t starter, stopper;
    check("a pool can't be started", cvl_threads_start(PARTS, &own) == 0);
    at_work = done = 0;
    is_stopped = may_end = is_waited_for = false;
    begin(&starter, call, NULL);
    BECOMES(done == PARTS - 1);
    begin(&stopper, stop, own);
    BECOMES(is_waited_for || is_stopped);
    check("a pool is stopped under a call", is_waited_for && !is_stopped && done == PARTS - 1);
    may_end = true;
    pthread_join(starter, NULL);
    pthread_join(stopper, NULL);
    check("a part of a call on a pool that is stopped is not run", done == PARTS);
}

int main(void) {
    fill_vectors();
    TRY(parts_by_two);
    TRY(runs_between_instructions);
    for (int k = 0; k < 5; k++) TRY(stopped_under_a_call);
    return result_of_tests("pools that run parts at once, or are stopped, are as they should be");
}

/*
 * Tries the pools of cvl_parallel.h: how many parts they have; a part that is left out of each step of each kind of call; that the threads of a
 * pool take no signal; a call within a part, and two calls at once, on one pool; a child of a fork, which calls and stops, also where a thread held the pool's lock at the fork; a thread that
 * is cancelled in its call; and threads that start, use and stop pools of their own at once. Each result is held against the plain call.
 * It prints what is not as it should be, and its status is then 1. `tests/c/run pools` builds and runs it, also under the thread
 * sanitizer.
 */
#define _DEFAULT_SOURCE
#include "cvl_parallel.h"
#include "waits.h"

#include <pthread.h>
#include <signal.h>
#include <stdatomic.h>
#include <stdio.h>
#include <stdlib.h>
#include <string.h>
#include <sys/wait.h>
#include <unistd.h>

enum { MOST = 600, SEGMENTS = 30, CALLERS = 4, ROUNDS = 60, PARTS = 4, UNTOUCHED = 0x5a, SECONDS = 120 };

static int32_t a[MOST], wanted[MOST];
static CvlThreads *threads;
static int failed;

/* The thread sanitizer waits for a second at the end of each process that has threads, unless it is told not to. */
const char *__tsan_default_options(void);
const char *__tsan_default_options(void) { return "atexit_sleep_ms=0"; }

static void check(const char *what, bool is_so) {
    if (!is_so) {
        printf("pools: %s\n", what);
        failed = 1;
    }
}

/* A scan in parts gives what the plain one gives. */
static bool scans_by(const CvlPool *pool) {
    int32_t out[MOST];
    return cvl_add_suz_on(pool, a, out, MOST).number == CVL_DONE && memcmp(out, wanted, sizeof out) == 0;
}

/* ---- how many parts ---- */

static size_t most_parts;

static void count_parts(void *state, CvlPart part, void *work, size_t parts) {
    (void)state;
    if (parts > most_parts) most_parts = parts;
    for (size_t k = 0; k < parts; k++) part(work, k);
}

static void parts_of_pools(void) {
    CvlPool pool = {0, count_parts, NULL};
    check("a pool of no parts calls otherwise", scans_by(&pool) && most_parts == 0);
    pool.parts = 1;
    check("a pool of one part calls otherwise", scans_by(&pool) && most_parts == 0);
    pool.parts = SIZE_MAX;
    check("a pool of very many parts has others than 64", scans_by(&pool) && most_parts == CVL_MOST_PARTS);
    pool = cvl_pool_posix(NULL);
    check("a pool of no threads calls otherwise", pool.parts == 1 && scans_by(&pool));
    check("no place for threads is no error", cvl_threads_start(2, NULL) != 0);
    cvl_threads_stop(NULL);
}

/* ---- a part that is left out of one step ---- */

static struct {
    int32_t out[MOST];
    char text[12 * MOST];
    size_t count;
} rooms;

static int32_t ones[MOST], in_order[MOST], chosen[MOST], lengths[SEGMENTS], firsts[SEGMENTS];
static bool truths[MOST];
static unsigned char any_bytes[MOST];
static char spoken[2 * MOST];
static const CvlLengths cut = {lengths, SEGMENTS}, ones_of_segments = {ones, SEGMENTS};
#define BOOL_ROOM ((bool *)rooms.out)

/* What a step of a call does: it reads alone, or it writes, also into memory of its own. */
typedef enum Step { NO_MORE, READS, WRITES } Step;

enum { MOST_STEPS = 8 };

/* Several steps in one argument of a row. */
#define LIST(...) \
    { __VA_ARGS__ }

/* A call of each kind, with its steps. */
/* clang-format off */
#define KINDS(X)                                                                                                               \
    X(add_wuz, LIST(READS, WRITES), a, a, rooms.out, MOST)                                                                     \
    X(div_wuz, LIST(READS, READS, WRITES), a, ones, rooms.out, MOST)                                                           \
    X(rep_vuz, LIST(READS, WRITES), a, 7, 5, rooms.out, MOST)                                                                  \
    X(add_ruz, LIST(READS, READS), a, MOST, rooms.out)                                                                         \
    X(add_suz, LIST(READS, READS, WRITES), a, rooms.out, MOST)                                                                 \
    X(ior_sub, LIST(READS, READS, READS, WRITES), truths, BOOL_ROOM, MOST)                                                     \
    X(xor_sub, LIST(READS, READS, READS, WRITES, WRITES), (const bool *)any_bytes, BOOL_ROOM, MOST)                            \
    X(tot_ruz, LIST(READS, READS), a, MOST, rooms.out)                                                                         \
    X(tot_suz, LIST(READS, READS, READS, WRITES), a, rooms.out, MOST)                                                          \
    X(cnt_lub, LIST(READS, READS), truths, MOST, rooms.out)                                                                    \
    X(pck_luz, LIST(READS, READS, READS, WRITES), a, truths, MOST, rooms.out, MOST, &rooms.count)                              \
    X(dis_vuz, LIST(READS, WRITES), 5, MOST, rooms.out)                                                                        \
    X(ind_luz, LIST(READS, WRITES), 5, 3, MOST, rooms.out)                                                                     \
    X(bck_puz, LIST(READS, READS, WRITES), a, MOST, in_order, rooms.out, MOST)                                                 \
    X(smp_puz, LIST(READS, WRITES), a, in_order, rooms.out, MOST)                                                              \
    X(def_puz, LIST(READS, WRITES), a, in_order, MOST, ones, rooms.out, MOST)                                                  \
    X(mke_fov, LIST(READS, READS), cut, &rooms.count)                                                                          \
    X(add_sez, LIST(READS, READS, READS, WRITES), a, cut, rooms.out, MOST)                                                     \
    X(add_rez, LIST(READS, READS, READS, WRITES), a, MOST, cut, rooms.out)                                                            \
    X(tot_sez, LIST(READS, READS, READS, READS, WRITES), a, cut, rooms.out, MOST)                                       \
    X(tot_rez, LIST(READS, READS, READS, READS, WRITES), a, MOST, cut, rooms.out)                                                     \
    X(cnt_leb, LIST(READS, READS, READS, WRITES), truths, MOST, cut, rooms.out)                                                       \
    X(dis_vez, LIST(READS, READS, WRITES), lengths, cut, rooms.out, MOST)                                                      \
    X(ind_lez, LIST(READS, READS, WRITES), lengths, firsts, cut, rooms.out, MOST)                                              \
    X(ext_vez, LIST(READS, READS, WRITES), a, MOST, firsts, cut, rooms.out)                                                    \
    X(bck_pez, LIST(READS, READS, READS, WRITES), a, MOST, firsts, cut, ones_of_segments, rooms.out, SEGMENTS)                 \
    X(sel_puz, LIST(READS, READS, READS, WRITES), a, chosen, truths, MOST, rooms.out, MOST / 3)                                \
    X(first_senders, LIST(READS, WRITES), in_order, MOST, rooms.out, MOST)                                                     \
    X(transpose_int, LIST(READS, WRITES), a, MOST, 20, MOST / 20, rooms.out, MOST)                                             \
    X(merge_by_flags_int, LIST(READS, READS, READS, WRITES), truths, MOST, a, MOST / 3, ones, MOST - MOST / 3, rooms.out, MOST) \
    X(run_lengths_int, LIST(READS, WRITES, WRITES), lengths, SEGMENTS, rooms.out, SEGMENTS, &rooms.count)                      \
    X(run_starts_int, LIST(READS, WRITES, WRITES), a, MOST, rooms.out, MOST, &rooms.count)                                     \
    X(seg_run_counts_int, LIST(READS, READS, READS, WRITES), a, MOST, cut, rooms.out, SEGMENTS)                                \
    X(counts, LIST(READS, WRITES, WRITES), ones, MOST, rooms.out, 2)                                                           \
    X(combine_checked_int, LIST(READS, WRITES, WRITES, WRITES), a, MOST, ones, MOST, rooms.out, 2)                             \
    X(combine_permute_int, LIST(READS, READS, WRITES), CVL_MAX, a, MOST, in_order, MOST, rooms.out, MOST)                      \
    X(sort, LIST(READS, READS, WRITES, WRITES), in_order, MOST, rooms.out, MOST)                                               \
    X(order, LIST(READS, READS, WRITES, WRITES, WRITES, WRITES), in_order, MOST, rooms.out, MOST)                              \
    X(rank, LIST(READS, READS, WRITES, WRITES, WRITES, WRITES, WRITES), in_order, MOST, rooms.out, MOST)                       \
    X(read_ints, LIST(READS, WRITES, WRITES), spoken, sizeof spoken, rooms.out, MOST, &rooms.count)                            \
    X(write_ints, LIST(READS, WRITES, WRITES), a, MOST, rooms.text, sizeof rooms.text, &rooms.count)                           \
    X(seg_write_ints, LIST(READS, READS, WRITES, WRITES), a, MOST, cut, rooms.text, sizeof rooms.text, &rooms.count)
/* clang-format on */

#define KIND(name, steps, ...)                                              \
    static CvlStatus plain_##name(void) { return cvl_##name(__VA_ARGS__); } \
    static CvlStatus parts_##name(const CvlPool *pool) { return cvl_##name##_on(pool, __VA_ARGS__); }
KINDS(KIND)
#undef KIND

typedef struct Kind {
    const char *name;
    Step steps[MOST_STEPS + 1];
    CvlStatus (*plain)(void), (*parts)(const CvlPool *pool);
} Kind;

#define KIND(name, steps, ...) {#name, steps, plain_##name, parts_##name},
static const Kind kinds[] = {KINDS(KIND)};
#undef KIND

static size_t steps_run, step_with_gap, part_left_out;

static void run_with_gap(void *state, CvlPart part, void *work, size_t parts) {
    (void)state;
    for (size_t k = 0; k < parts; k++) {
        if (steps_run != step_with_gap || k != part_left_out) part(work, k);
    }
    steps_run++;
}

static CvlStatus call_with_gap(const Kind *kind, size_t step, size_t part) {
    const CvlPool pool = {PARTS, run_with_gap, NULL};
    steps_run = 0, step_with_gap = step, part_left_out = part;
    memset(&rooms, UNTOUCHED, sizeof rooms);
    return kind->parts(&pool);
}

static bool is_untouched(void) {
    const unsigned char *bytes = (const unsigned char *)&rooms;
    size_t k = 0;
    while (k < sizeof rooms && bytes[k] == UNTOUCHED) k++;
    return k == sizeof rooms;
}

/* Where the step only reads the status is 100 and nothing is written; one that writes is run by the thread that calls, and the call is done. */
static void leave_out(const Kind *kind) {
    static unsigned char right[sizeof rooms];
    memset(&rooms, UNTOUCHED, sizeof rooms);
    check(kind->name, kind->plain().number == CVL_DONE);
    memcpy(right, &rooms, sizeof rooms);
    size_t steps = 0;
    while (kind->steps[steps] != NO_MORE) steps++;
    check(
        kind->name,
        call_with_gap(kind, steps, 0).number == CVL_DONE && steps_run == steps && memcmp(&rooms, right, sizeof rooms) == 0);
    for (size_t k = 0; k < steps * PARTS; k++) {
        const CvlStatus status = call_with_gap(kind, k / PARTS, k % PARTS);
        const bool told = status.number == CVL_NO_RESOURCES && status.place == -1 && is_untouched();
        const bool done = status.number == CVL_DONE && memcmp(&rooms, right, sizeof rooms) == 0;
        check(kind->name, kind->steps[k / PARTS] == READS ? told : done);
    }
}

static void gaps(void) {
    for (int32_t k = 0; k < MOST; k++) {
        ones[k] = 1, in_order[k] = MOST - 1 - k, chosen[k] = k / 3, truths[k] = k % 3 == 0,
        any_bytes[k] = (unsigned char)(k % 3 * 100);
        memcpy(spoken + 2 * k, "7 ", 2);
    }
    for (int32_t s = 0; s < SEGMENTS; s++) lengths[s] = MOST / SEGMENTS;
    for (size_t k = 0; k < sizeof kinds / sizeof *kinds; k++) leave_out(&kinds[k]);
}

/* ---- signals ---- */

static pthread_t main_thread;
static volatile sig_atomic_t taken, taken_elsewhere;

static void take_signal(int number) {
    (void)number;
    taken++;
    if (!pthread_equal(pthread_self(), main_thread)) taken_elsewhere = 1;
}

static atomic_int at_work;

/* Each part waits for all, so that each thread has one. */
static void meet(void *nothing, size_t k) {
    (void)nothing, (void)k;
    at_work++;
    BECOMES(at_work == PARTS);
}

/*
 * Signals to the process while the main thread blocks them wait for it, since the threads of the pool take none: each of them runs
 * a part then, before which the system would have it take a signal.
 */
static void signals(void) {
    struct sigaction action;
    sigset_t one, before;
    memset(&action, 0, sizeof action);
    action.sa_handler = take_signal;
    sigaction(SIGUSR1, &action, NULL);
    sigemptyset(&one);
    sigaddset(&one, SIGUSR1);
    main_thread = pthread_self();
    const CvlPool pool = cvl_pool_posix(threads);
    for (int k = 0; k < 20; k++) {
        pthread_sigmask(SIG_BLOCK, &one, &before);
        kill(getpid(), SIGUSR1);
        at_work = 0;
        pool.run(pool.state, meet, NULL, PARTS);
        check("a signal was taken before its time", at_work == PARTS && taken == k);
        pthread_sigmask(SIG_SETMASK, &before, NULL);
    }
    check("a thread of the pool took a signal", taken == 20 && !taken_elsewhere);
}

/* ---- calls within parts, and at once ---- */

/* Each part makes a call of its own on the pool of the library, which is at work. */
static void run_nested(void *state, CvlPart part, void *work, size_t parts) {
    const CvlPool inner = cvl_pool_posix((CvlThreads *)state);
    for (size_t k = 0; k < parts; k++) {
        check("a call within a call is another", scans_by(&inner));
        part(work, k);
    }
}

typedef struct Nested {
    CvlPart part;
    void *work;
    CvlPool inner;
    bool right;
} Nested;

static void nested_part(void *nested, size_t k) {
    Nested *n = nested;
    if (k == 0) n->right = scans_by(&n->inner);
    n->part(n->work, k);
}

static void run_by_threads(void *state, CvlPart part, void *work, size_t parts) {
    const CvlPool pool = cvl_pool_posix((CvlThreads *)state);
    Nested nested = {part, work, pool, false};
    pool.run(pool.state, nested_part, &nested, parts);
    check("a call within a part is another", nested.right);
}

static void nested(void) {
    const CvlPool around = {PARTS, run_nested, threads}, within = {PARTS, run_by_threads, threads};
    check("calls within a call change it", scans_by(&around));
    check("calls within parts change the call", scans_by(&within));
}

static void *call_often(void *found) {
    const CvlPool pool = cvl_pool_posix(threads);
    for (int k = 0; k < ROUNDS; k++) *(bool *)found = *(bool *)found && scans_by(&pool);
    return NULL;
}

static void *start_and_stop(void *found) {
    for (int k = 0; k < ROUNDS / 4; k++) {
        CvlThreads *own = NULL;
        const int started = cvl_threads_start((size_t)(1 + k % 5), &own);
        const CvlPool pool = cvl_pool_posix(own);
        *(bool *)found = *(bool *)found && started == 0 && scans_by(&pool);
        cvl_threads_stop(own);
    }
    return NULL;
}

static void at_once(const char *what, void *(*work)(void *)) {
    pthread_t callers[CALLERS];
    bool right[CALLERS];
    for (int k = 0; k < CALLERS; k++) {
        right[k] = true;
        if (pthread_create(&callers[k], NULL, work, &right[k]) != 0) abort();
    }
    for (int k = 0; k < CALLERS; k++) {
        pthread_join(callers[k], NULL);
        check(what, right[k]);
    }
}

/* ---- a child, which has no threads of the pool, and may begin while another thread calls ---- */

static atomic_bool forks;

static void *call_meanwhile(void *found) {
    const CvlPool pool = cvl_pool_posix(threads);
    while (atomic_load(&forks)) *(bool *)found = *(bool *)found && scans_by(&pool);
    return NULL;
}

static void in_a_child(void) {
    int status = 0;
    const CvlPool pool = cvl_pool_posix(threads);
    fflush(stdout);
    const pid_t child = fork();
    if (child == 0) {
        alarm(SECONDS);
        const bool right = scans_by(&pool);
        cvl_threads_stop(threads);
        _exit(right ? 0 : 1);
    }
    check(
        "a child did not call and stop",
        child > 0 && waitpid(child, &status, 0) == child && WIFEXITED(status) && WEXITSTATUS(status) == 0);
}

/* Whether threads of the pool find that their time is up whenever they wait. */
static atomic_bool ends_soon;

/* A child of a process whose threads have ended by themselves. */
static inline void child_after_threads(void) {
    const CvlPool pool = cvl_pool_posix(threads);
    check("threads that ended call otherwise", scans_by(&pool));
    const int left = living() - (PARTS - 1);
    atomic_store(&ends_soon, true);
    check("threads that are about to end call otherwise", scans_by(&pool));
    BECOMES(living() <= left);
    check("threads whose time is up do not end", living() <= left);
    in_a_child();
    atomic_store(&ends_soon, false);
}

static void calls_in_children(void) {
    pthread_t caller;
    bool right = true;
    for (int k = 0; k < 5; k++) in_a_child();
#ifdef __SANITIZE_THREAD__
    /* the address sanitizer may have a lock of its own at the fork, for a thread that ends */
    for (int k = 0; k < 3; k++) child_after_threads();
#endif
    atomic_store(&forks, true);
    if (pthread_create(&caller, NULL, call_meanwhile, &right) != 0) abort();
    for (int k = 0; k < 40; k++) in_a_child();
    atomic_store(&forks, false);
    pthread_join(caller, NULL);
    check("a fork changed a call", right);
}

/* ---- a fork while a thread of the pool has its lock ---- */

static atomic_bool hold_waits, waits_are_held;

/*
 * The linker puts this in place of pthread_cond_timedwait (--wrap): a thread that would wait keeps the lock while waits are held, and
 * waits for a minute longer than the library says, or not at all.
 */
int __real_pthread_cond_timedwait(pthread_cond_t *condition, pthread_mutex_t *lock, const struct timespec *until);
int __wrap_pthread_cond_timedwait(pthread_cond_t *condition, pthread_mutex_t *lock, const struct timespec *until);
int __wrap_pthread_cond_timedwait(pthread_cond_t *condition, pthread_mutex_t *lock, const struct timespec *until) {
    while (atomic_load(&hold_waits)) {
        atomic_store(&waits_are_held, true);
        usleep(SLEEP);
    }
    const struct timespec end = {atomic_load(&ends_soon) ? 0 : until->tv_sec + 60, 0};
    return __real_pthread_cond_timedwait(condition, lock, &end);
}

/* A child calls, and doesn't wait for the lock, which nobody there gives back. There are no other threads of a pool. */
static void fork_with_lock_held(void) {
    atomic_store(&hold_waits, true);
    if (cvl_threads_start(PARTS, &threads) != 0) abort();
    BECOMES(atomic_load(&waits_are_held));
    check("no thread of a pool waits", atomic_load(&waits_are_held));
    in_a_child();
    atomic_store(&hold_waits, false);
    cvl_threads_stop(threads);
}

/* ---- a thread that is cancelled in its call ends the call first ---- */

static atomic_bool may_end;
static atomic_long calls_made;

static void *call_and_end(void *found) {
    const CvlPool pool = cvl_pool_posix(threads);
    bool right = true;
    for (; !atomic_load(&may_end); calls_made++) right = right && scans_by(&pool);
    *(bool *)found = right;
    return NULL;
}

static void cancelled(void) {
    pthread_t caller;
    for (int k = 0; k < ROUNDS; k++) {
        bool right = false;
        atomic_store(&may_end, false);
        calls_made = 0;
        if (pthread_create(&caller, NULL, call_and_end, &right) != 0) abort();
        BECOMES(calls_made > 0);
        pthread_cancel(caller);
        /* one call was at work, and another one begins after that */
        const long before = calls_made;
        BECOMES(calls_made > before + 1);
        check("a thread that is cancelled makes no more calls", calls_made > before + 1);
        atomic_store(&may_end, true);
        pthread_join(caller, NULL);
        check("a call is cancelled in its middle", right);
    }
}

int main(void) {
    alarm(SECONDS);
    for (int32_t k = 0; k < MOST; k++) a[k] = k * 2654435 % 1000 - 500;
    if (cvl_add_suz(a, wanted, MOST).number != CVL_DONE || cvl_threads_start(PARTS, &threads) != 0) abort();
    parts_of_pools();
    gaps();
    signals();
    nested();
    at_once("calls at once on one pool are others", call_often);
    at_once("threads that start and stop pools at once", start_and_stop);
    calls_in_children();
    cancelled();
    const CvlPool pool = cvl_pool_posix(threads);
    check("after all that the pool calls otherwise", scans_by(&pool));
    cvl_threads_stop(threads);
    fork_with_lock_held();
    if (!failed) printf("the pools are as they should be\n");
    return failed ? EXIT_FAILURE : EXIT_SUCCESS;
}

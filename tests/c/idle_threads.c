/*
 * Tries that threads without work end by themselves, and start again if a call needs them: how many there are after each start,
 * stop and number, as the system counts them; threads that can't be started again; a call that begins while the time of its
 * threads runs out; and a program whose main thread has left, which ends. It prints what is not as it should be, and its status
 * is then 1. `tests/c/run idle_threads` builds and runs it.
 */
#define _DEFAULT_SOURCE
#define PROGRAM "idle_threads"

enum { LONG = 600, THREADS = 4, ROUNDS = 400 };

#include "held.h"

int __real_pthread_cond_timedwait(pthread_cond_t *condition, pthread_mutex_t *lock, const struct timespec *until);
int __wrap_pthread_cond_timedwait(pthread_cond_t *condition, pthread_mutex_t *lock, const struct timespec *until);

/*
 * How many microseconds a thread waits for work, instead of what the library says if they are 0 or more; how many of the next
 * waits are short; and of how many of the next ones it is said that their time is up when they end.
 */
static atomic_long patience = -1;
static atomic_int short_waits, late_waits;

enum { MINUTE = 60000000, SHORT = 1000 };

/* For how many milliseconds a thread has said at most that it waits for work. */
static atomic_long longest_wait;

static void note_wait(const struct timespec *until) {
    struct timespec now;
    clock_gettime(CLOCK_MONOTONIC, &now);
    const long waits = (long)(until->tv_sec - now.tv_sec) * 1000 + (until->tv_nsec - now.tv_nsec) / 1000000;
    long longest = longest_wait;
    while (waits > longest && !atomic_compare_exchange_weak(&longest_wait, &longest, waits)) continue;
}

/* Whether one of so many is left, which is taken. */
static bool takes_one(atomic_int *left_of) {
    int left = *left_of;
    while (left > 0 && !atomic_compare_exchange_weak(left_of, &left, left - 1)) continue;
    return left > 0;
}

int __wrap_pthread_cond_timedwait(pthread_cond_t *condition, pthread_mutex_t *lock, const struct timespec *until) {
    struct timespec end = *until;
    const bool is_late = takes_one(&late_waits);
    note_wait(until);
    const long waits = takes_one(&short_waits) ? SHORT : patience;
    if (waits >= 0) {
        clock_gettime(CLOCK_MONOTONIC, &end);
        end.tv_sec += waits / 1000000;
        end.tv_nsec += waits % 1000000 * 1000;
        if (end.tv_nsec >= 1000000000) end.tv_sec++, end.tv_nsec -= 1000000000;
    }
    const int told = __real_pthread_cond_timedwait(condition, lock, &end);
    return is_late ? ETIMEDOUT : told;
}

/* How many threads the process has beside those of the library: the thread sanitizer has one as soon as there is another. */
enum { OTHERS = CHILDREN_START ? 1 : 2 };

/* Whether there come to be so many. They are counted twice, since the system may leave some out while one ends. */
static bool there_are(int threads) {
    bool are = false;
    BECOMES((are = living() == OTHERS + threads && living() == OTHERS + threads));
    return are;
}

/*
 * ---- a program that its main thread leaves: first, since later there are threads. The thread sanitizer's own thread stays ----
 */

/* The calls are made by threads of the process, or of a pool. */
static int main_leaves(const char *by) {
    static CvlThreads *own;
    patience = -1;
    if (*by == 'p' && cvl_threads_start(THREADS, &own) != 0) return 2;
    const CvlPool pool = cvl_pool_posix(own);
    setenv("CVL_NUM_THREADS", "4", 1);
    if (*by == 'p' ? !scans_by(&pool) : !scans_by_threads()) return 3;
    pthread_exit(NULL);
}

static void main_leaves_a_program(void) {
    check("threads of the process keep it alive", in_a_child(main_leaves, "the process") == 0);
    check("threads of a pool keep the process alive", in_a_child(main_leaves, "pool") == 0);
}

/* ---- how many there are ---- */

static void counts_of_process(void) {
    static const size_t numbers[] = {4, 3, 64, 2, 5, 1, 2, 1};
    patience = MINUTE;
    for (size_t k = 0; k < sizeof numbers / sizeof *numbers; k++) {
        check("a number is not set", cvl_set_threads(numbers[k]) == 0);
        const int beside = (int)numbers[k] - 1;
        check("there are more or fewer threads than were set", there_are(beside) && scans() && there_are(beside));
        check("65 threads are set", cvl_set_threads(65) == EINVAL && there_are(beside));
        starts_left = 1;
        check("a thread that can't be started is no error", cvl_set_threads(7) == EAGAIN);
        starts_left = -1;
        check("a thread stays that was started for a number that could not be set", there_are(beside));
    }
}

/* A second, as the header says, or less where the system is slow. */
static void how_long_they_wait(void) {
    patience = MINUTE;
    longest_wait = 0;
    check("a number is not set", cvl_set_threads(THREADS) == 0);
    for (int k = 0; k < ROUNDS && longest_wait <= 500; k++) check("a call gives another result", scans_by_threads());
    BECOMES(longest_wait > 500);
    check("threads wait for half a second at most, or for more than one", longest_wait > 500 && longest_wait <= 1000);
    check("a number is not set", cvl_set_threads(1) == 0);
}

static void counts_of_pools(void) {
    CvlThreads *one = NULL, *two = NULL, *none = NULL;
    patience = MINUTE;
    check("a pool has more or fewer threads", cvl_threads_start(64, &one) == 0 && there_are(63));
    check("a second pool has more or fewer threads", cvl_threads_start(3, &two) == 0 && there_are(65));
    check("a pool of no thread is no error", cvl_threads_start(0, &none) == EINVAL && none == NULL);
    check("a pool of 65 threads is no error", cvl_threads_start(65, &none) == EINVAL && none == NULL);
    check("a pool of very many threads is no error", cvl_threads_start(SIZE_MAX, &none) == EINVAL && none == NULL);
    check("a pool that is refused has threads", there_are(65));
    cvl_threads_stop(one);
    check("threads of a pool stay when it is stopped", there_are(2));
    cvl_threads_stop(two);
    check("threads of a second pool stay when it is stopped", there_are(0));
}

/* ---- they end, and start again ---- */

static void all_end(void) {
    patience = SHORT;
    check("threads can't be started", cvl_set_threads(1) == 0 && cvl_set_threads(THREADS) == 0);
    check("threads without work stay", there_are(0));
    check("threads that ended change the number", cvl_threads() == THREADS);
    patience = MINUTE;
}

static void end_and_start(void) {
    pthread_t caller;
    bool right = false;
    for (int k = 0; k < 3; k++) {
        all_end();
        begin_held(&caller, &right);
        check("a call starts more or fewer threads than ended", there_are(1 + THREADS - 1));
        end_held(caller, &right);
        check("threads end before their time", there_are(THREADS - 1));
    }
    all_end();
    check("a number is not set after all threads have ended", cvl_set_threads(2) == 0 && there_are(1));
    check("a thread stays for the number 1", cvl_set_threads(1) == 0 && there_are(0));
}

/* Threads that can't be started again leave their parts to those that can. */
static void refused_again(void) {
    pthread_t caller;
    bool right = false;
    for (int left = 0; left < THREADS; left++) {
        all_end();
        starts_left = left;
        begin_held_by(left + 1, &caller, &right);
        end_held(caller, &right);
        check("a thread that can't be started changes the number, or a result", cvl_threads() == THREADS && scans_by_threads());
        starts_left = -1;
        begin_held(&caller, &right);
        end_held(caller, &right);
    }
}

/* Some end, and the others are stopped. */
static void some_end(void) {
    patience = MINUTE;
    check("no thread is an error", cvl_set_threads(1) == 0);
    for (int ends = 1; ends < 8; ends++) {
        CvlThreads *own = NULL;
        short_waits = ends;
        check("threads can't be started", cvl_threads_start(8, &own) == 0);
        check("more or fewer threads end than wait in vain", there_are(7 - ends));
        cvl_threads_stop(own);
        check("threads that did not end stay when they are stopped", there_are(0));
    }
}

static void ends_in_a_pool(void) {
    CvlThreads *own = NULL;
    all_end();
    patience = SHORT;
    check("threads can't be started", cvl_threads_start(THREADS, &own) == 0 && there_are(0));
    const CvlPool pool = cvl_pool_posix(own);
    patience = MINUTE;
    check("a call on threads that ended gives another result, or starts others", scans_by(&pool) && there_are(THREADS - 1));
    patience = SHORT;
    check("threads of a pool stay after a call", scans_by(&pool) && there_are(0));
    cvl_threads_stop(own);
}

/* ---- the moment at which they end ---- */

/* Time that is up when a call has begun takes no thread from the call. */
static void time_is_up_in_a_call(void) {
    pthread_t caller;
    bool right = false;
    patience = MINUTE;
    for (int k = 0; k < 5; k++) {
        check("no thread is an error", cvl_set_threads(1) == 0);
        late_waits = THREADS - 1;
        check("threads can't be started", cvl_set_threads(THREADS) == 0);
        BECOMES(late_waits == 0);
        starts_left = 0;
        begin_held(&caller, &right);
        starts_left = -1;
        end_held(caller, &right);
    }
}

/* Calls that begin about when threads end. */
static void ends_and_calls(void) {
    check("threads can't be started", cvl_set_threads(THREADS) == 0);
    for (int k = 0; k < ROUNDS; k++) {
        patience = k % 7 * 60;
        check("a call gives another result when its threads are about to end", scans_by_threads());
        usleep((unsigned)(k % 11 * 40));
    }
    patience = SHORT;
    check("threads stay", there_are(0) && cvl_set_threads(1) == 0);
}

int main(void) {
    unsetenv("CVL_NUM_THREADS");
    fill_vectors();
    if (CHILDREN_START) TRY(main_leaves_a_program);
    TRY(counts_of_process);
    TRY(how_long_they_wait);
    TRY(counts_of_pools);
    TRY(end_and_start);
    TRY(refused_again);
    TRY(some_end);
    TRY(ends_in_a_pool);
    TRY(time_is_up_in_a_call);
    TRY(ends_and_calls);
    return result_of_tests("threads without work end, and start again");
}

/*
 * What tests of the threads of the process hold or count: the linker puts these functions in place of some of the library and of
 * POSIX (--wrap). Parts of an addition, threads that are started, and a setter that waits stand where they are while they are
 * held.
 */
#ifndef HELD_H
#define HELD_H

#include "trying.h"

#include <time.h>

const CvlPool *__real_cvl_take_threads(void);
const CvlPool *__wrap_cvl_take_threads(void);
CvlStatus __real_cvl_proved_int2(
    uint32_t op, const int32_t *x, size_t x_len, const int32_t *y, size_t y_len, int32_t *out, size_t out_len);
CvlStatus __wrap_cvl_proved_int2(
    uint32_t op, const int32_t *x, size_t x_len, const int32_t *y, size_t y_len, int32_t *out, size_t out_len);
int __real_pthread_create(pthread_t *thread, const pthread_attr_t *how, void *(*work)(void *), void *with);
int __wrap_pthread_create(pthread_t *thread, const pthread_attr_t *how, void *(*work)(void *), void *with);
int __real_nanosleep(const struct timespec *time, struct timespec *left);
int __wrap_nanosleep(const struct timespec *time, struct timespec *left);

/* How often a call asked for the threads, and had them. */
static atomic_long asks, takes;

const CvlPool *__wrap_cvl_take_threads(void) {
    const CvlPool *found = __real_cvl_take_threads();
    asks++;
    takes += found != NULL;
    return found;
}

static atomic_bool are_held;
static atomic_int parts_at_work;

/* How often the thread of a call that is held has napped, where it might be cancelled. */
static _Thread_local bool calls_held;
static atomic_long caller_naps;

static void nap_while_held(void) {
    for (int naps = 0; are_held && naps < NAPS; naps++) {
        usleep(SLEEP);
        caller_naps += calls_held;
    }
}

CvlStatus __wrap_cvl_proved_int2(
    uint32_t op, const int32_t *x, size_t x_len, const int32_t *y, size_t y_len, int32_t *out, size_t out_len) {
    if (op == CVL_ADD) {
        parts_at_work++;
        nap_while_held();
    }
    return __real_cvl_proved_int2(op, x, x_len, y, y_len, out, out_len);
}

/* After so many threads none is started, if the number is 0 or more. */
static atomic_int starts_left = -1, started;
static atomic_bool starts_are_held;

int __wrap_pthread_create(pthread_t *thread, const pthread_attr_t *how, void *(*work)(void *), void *with) {
    if (starts_left == 0) return EAGAIN;
    if (starts_left > 0) starts_left--;
    started++;
    BECOMES(!starts_are_held);
    return __real_pthread_create(thread, how, work, with);
}

/* Naps of setters, of which so many may end while they are held. */
static atomic_int naps_begun, naps_let;
static atomic_bool naps_are_held;

static bool is_let(void) {
    int left = naps_let;
    while (left > 0 && !atomic_compare_exchange_weak(&naps_let, &left, left - 1)) continue;
    return left > 0;
}

int __wrap_nanosleep(const struct timespec *time, struct timespec *left) {
    naps_begun++;
    BECOMES(!naps_are_held || is_let());
    return __real_nanosleep(time, left);
}

static inline void begin(pthread_t *thread, void *(*work)(void *), void *with) {
    if (__real_pthread_create(thread, NULL, work, with) != 0) abort();
}

/* A scan where the call has the threads. */
static inline bool scans_by_threads(void) {
    const long before = takes;
    return scans() && takes == before + 1;
}

/* ---- an addition that stands still ---- */

static atomic_bool is_added;

/* An addition, in parts that are held meanwhile. */
static inline void *add(void *found) {
    int32_t *out = room();
    calls_held = true;
    bool right = cvl_add_wuz(a, wanted, out, LONG).number == CVL_DONE;
    is_added = true;
    for (size_t k = 0; k < LONG; k++) right = right && out[k] == a[k] + wanted[k];
    free(out);
    *(bool *)found = right;
    return NULL;
}

/* Another thread's addition, which has the threads and stands still with so many parts. */
static inline void begin_held_by(int parts, pthread_t *caller, bool *right) {
    is_added = false;
    parts_at_work = 0;
    are_held = true;
    begin(caller, add, right);
    BECOMES(parts_at_work == parts);
    check("a long call does not run on all threads", parts_at_work == parts);
}

static inline void begin_held(pthread_t *caller, bool *right) { begin_held_by((int)cvl_threads(), caller, right); }

static inline void end_held(pthread_t caller, const bool *right) {
    check("a call ends while its parts are held", !is_added);
    are_held = false;
    pthread_join(caller, NULL);
    check("a call that was held gives another result", *right);
}

/* ---- a number that is set by another thread ---- */

static atomic_int are_set;

static inline void *set_two(void *found) {
    *(bool *)found = cvl_set_threads(2) == 0;
    are_set++;
    return NULL;
}

/* Another thread that sets a number, and stands still where it starts the first of its threads. */
static inline void begin_set(pthread_t *setter, bool *set) {
    started = 0;
    are_set = 0;
    starts_are_held = true;
    begin(setter, set_two, set);
    BECOMES(started > 0);
}

#endif

/*
 * drivers.h: arrays of each length for the drivers of Eva, with nothing beside them, so that an element too far is seen; and
 * calls on each length, by
 * each number of parts, with each request refused, and by pools that leave a part out or run each twice.
 */
#ifndef CVL_ANALYSIS_DRIVERS_H
#define CVL_ANALYSIS_DRIVERS_H

#include "given.h"

enum { MOST = 4, PARTS = 3 };

#define ARRAYS(type, name)                                          \
    static type name##_1[1], name##_2[2], name##_3[3], name##_4[4]; \
    static type *const name[MOST + 1] = {NULL, name##_1, name##_2, name##_3, name##_4}

ARRAYS(int32_t, ints);
ARRAYS(int32_t, others);
ARRAYS(int32_t, room);
ARRAYS(bool, flags);
ARRAYS(bool, bools);
ARRAYS(bool, bool_room);

static size_t count;
static CvlPool pool;

/* Integers of any value. */
static inline void fill_ints(int32_t *const *arrays) {
    for (size_t n = 1; n <= MOST; n++) {
        for (size_t k = 0; k < n; k++) arrays[n][k] = any_int();
    }
}

/* Booleans, true where a pattern has a bit: 1, or any byte but 0 and 1. */
static inline void fill_flags(bool *const *arrays, unsigned pattern, bool clean) {
    for (size_t n = 1; n <= MOST; n++) {

        for (size_t k = 0; k < n; k++) {
            const bool is_true = pattern >> k & 1;
            arrays[n][k] = !is_true ? 0 : clean ? 1 : Frama_C_unsigned_char_interval(2, 255);
        }
    }
}

/* Integers in runs of so many. */
static inline void fill_runs(int32_t *const *arrays, size_t each) {
    for (size_t n = 1; n <= MOST; n++) {
        for (size_t k = 0; k < n; k++) arrays[n][k] = (int32_t)(k / each);
    }
}

/* Fills all arrays. */
static inline void fill(unsigned pattern, bool clean) {
    fill_ints(ints);
    fill_ints(others);
    fill_flags(flags, pattern, clean);
    fill_flags(bools, pattern >> 1, clean);
}

/* Leaves out the first part of one step, and runs each part of the others twice. */
static size_t step, left_out;

static inline void run_with_gap(void *state, CvlPart part, void *work, size_t parts) {
    (void)state;
    for (size_t k = step++ == left_out ? 1 : 0; k < parts; k++) part(work, k), part(work, k);
}

/* A call on so many elements. */
typedef void Call(size_t n);

static inline void make(Call *call, size_t n, size_t parts, int refusing) {
    pool = cvl_pool_alone(parts);
    refused = refusing, asked = 0;
    call(n);
    refused = -1;
}

/* On each length by each number of parts, then with each of the first requests refused,
    and then with a part left out of each step. */
static inline void each_length(Call *call, int requests, size_t steps) {
    for (size_t n = 0; n <= MOST; n++) {
        for (size_t parts = 1; parts <= PARTS; parts++) make(call, n, parts, -1);
    }
    for (int k = 0; k < requests; k++) make(call, MOST, 2, k);
    for (left_out = 0; left_out < steps; left_out++) {
        pool.parts = 2, pool.run = run_with_gap, pool.state = NULL;
        step = 0, asked = 0;
        call(MOST);
    }
}

/* The same with clean booleans, and with bytes that are copied. */
static inline void each_pattern(Call *call, int requests, size_t steps) {
    fill(5, 1);
    each_length(call, requests, steps);
    fill(6, 0);
    each_length(call, requests, steps);
}

#endif

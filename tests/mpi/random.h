/* Numbers at random, the same on each rank that begins with the same state. */
#ifndef CVL_TESTS_RANDOM_H
#define CVL_TESTS_RANDOM_H

#include <stddef.h>
#include <stdint.h>

static uint64_t state;

static uint32_t any(void) {
    state = state * UINT64_C(6364136223846793005) + UINT64_C(1442695040888963407);
    return (uint32_t)(state >> 33);
}
static size_t below(size_t n) { return n == 0 ? 0 : any() % n; }
static int one_in(size_t n) { return below(n) == 0; }

#endif

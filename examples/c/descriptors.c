/*
 * Four threads make calls on one constant descriptor at once, many times, and each result is held against that of one thread.
 * `tests/c/run descriptors` builds and runs it under the thread sanitizer.
 */
#define CVL_SHORT_NAMES
#include "cvl.h"

#include <pthread.h>
#include <stdio.h>
#include <stdlib.h>
#include <string.h>

enum { THREADS = 4, ROUNDS = 200, SEGMENTS = 1000, MOST_LENGTH = 7, ELEMENTS = SEGMENTS * MOST_LENGTH };

/* What all threads read and none writes. */
static int32_t lengths[SEGMENTS], ints[ELEMENTS], index_in_segment[ELEMENTS];
static bool flags[ELEMENTS];
static CvlSegments made;
static size_t elements;

/* What one thread writes: the results of each call. */
typedef struct Results {
    int32_t scan[ELEMENTS], reduce[SEGMENTS], counts[SEGMENTS], packed[ELEMENTS], permuted[ELEMENTS], copies[ELEMENTS];
    bool bool_scan[ELEMENTS];
    size_t kept, total;
    int failed;
} Results;

static Results wanted, found[THREADS];

static void done(Results *results, CvlStatus status) { results->failed |= status.number != CVL_DONE || status.place != -1; }

static void call_all(const CvlSegments *segments, Results *results) {
    done(results, cvl_segments_total(segments, &results->total));
    done(results, cvl_segments_int_scan(CVL_ADD, ints, elements, segments, results->scan, elements));
    done(results, cvl_segments_bool_scan(CVL_XOR, flags, elements, segments, results->bool_scan, elements));
    done(results, cvl_segments_checked_reduce(ints, elements, segments, results->reduce, SEGMENTS));
    done(results, cvl_segments_count(flags, elements, segments, results->counts, SEGMENTS));
    done(results, cvl_segments_pack_int(ints, elements, flags, elements, segments, results->packed, elements, &results->kept));
    done(results, cvl_segments_permute_int(ints, elements, index_in_segment, elements, segments, results->permuted, elements));
    done(results, cvl_segments_distribute_int(lengths, SEGMENTS, segments, results->copies, elements));
}

static void *call_often(void *results) {
    for (int round = 0; round < ROUNDS; round++) call_all(&made, results);
    return NULL;
}

int main(void) {
    pthread_t threads[THREADS];
    uint32_t seed = 12345;
    for (int32_t s = 0; s < SEGMENTS; s++) {
        seed = seed * 1664525u + 1013904223u;
        lengths[s] = (int32_t)(seed >> 16) % (MOST_LENGTH + 1);
        for (int32_t k = 0; k < lengths[s]; k++, elements++) {
            ints[elements] = (int32_t)(seed >> (k + 8)) % 1000;
            flags[elements] = seed >> (k + 20) & 1;
            index_in_segment[elements] = lengths[s] - 1 - k;
        }
    }
    done(&wanted, cvl_segments_new((CvlLengths){lengths, SEGMENTS}, &made));
    call_all(&made, &wanted);
    for (int k = 0; k < THREADS; k++) {
        if (pthread_create(&threads[k], NULL, call_often, &found[k]) != 0) abort();
    }
    for (int k = 0; k < THREADS; k++) pthread_join(threads[k], NULL);
    if (wanted.failed || wanted.total != elements) return EXIT_FAILURE;
    for (int k = 0; k < THREADS; k++) {
        if (memcmp(&found[k], &wanted, sizeof wanted) == 0) continue;
        printf("thread %d: another result\n", k);
        return EXIT_FAILURE;
    }
    printf("%d calls by %d threads on one descriptor, each as by one\n", THREADS * ROUNDS * 8, THREADS);
    return EXIT_SUCCESS;
}

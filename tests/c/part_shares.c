/*
 * Tries how calls in parts share their work, on which no result depends. Sorts, orders, ranks and sorts by key make a pass for each digit in
 * which keys differ, or one if all keys are equal, and in a pass each part gathers about as many elements; in a combining permute about as many
 * elements are sent to the range of each part. The linker puts functions of this file in place of the proved steps. It prints what is not as it
 * should be, and its status is then 1. `tests/c/run part_shares` builds and runs it.
 */
#include "cvl_parallel.h"

#include <stdio.h>
#include <stdlib.h>

enum { MOST = 8192, PARTS = 4 };

/* Keys beside their places or values: only the library looks at them. */
typedef struct CvlPlaced CvlPlaced;

/* ---- gathers: how many there were, and how many elements the greatest one had ---- */

static size_t gathers, most_gathered;

static void note(size_t gathered) {
    gathers++;
    if (gathered > most_gathered) most_gathered = gathered;
}

#define GATHER(name, type)                                                                                                 \
    CvlStatus __real_cvl_proved_gather_##name(                                                                             \
        const type *elements, size_t elements_len, const uint32_t *ends, size_t ends_len, size_t blocks, size_t from,      \
        size_t count, type *out, size_t out_len);                                                                          \
    CvlStatus __wrap_cvl_proved_gather_##name(                                                                             \
        const type *elements, size_t elements_len, const uint32_t *ends, size_t ends_len, size_t blocks, size_t from,      \
        size_t count, type *out, size_t out_len);                                                                          \
    CvlStatus __wrap_cvl_proved_gather_##name(                                                                             \
        const type *elements, size_t elements_len, const uint32_t *ends, size_t ends_len, size_t blocks, size_t from,      \
        size_t count, type *out, size_t out_len) {                                                                         \
        note(out_len);                                                                                                     \
        return __real_cvl_proved_gather_##name(elements, elements_len, ends, ends_len, blocks, from, count, out, out_len); \
    }
GATHER(keys, int32_t)
GATHER(placed, CvlPlaced)

/* ---- combining permutes: how many elements were sent to ranges, and how many to the one that got most ---- */

static size_t sent, most_sent;

CvlStatus __real_cvl_proved_combine_permute_int_range(
    uint32_t op, const int32_t *source, size_t source_len, const int32_t *index, size_t index_len, size_t lowest, int32_t *out,
    size_t out_len, size_t *named);
CvlStatus __wrap_cvl_proved_combine_permute_int_range(
    uint32_t op, const int32_t *source, size_t source_len, const int32_t *index, size_t index_len, size_t lowest, int32_t *out,
    size_t out_len, size_t *named);
CvlStatus __wrap_cvl_proved_combine_permute_int_range(
    uint32_t op, const int32_t *source, size_t source_len, const int32_t *index, size_t index_len, size_t lowest, int32_t *out,
    size_t out_len, size_t *named) {
    const CvlStatus status = __real_cvl_proved_combine_permute_int_range(
        op, source, source_len, index, index_len, lowest, out, out_len, named);
    sent += *named;
    if (*named > most_sent) most_sent = *named;
    return status;
}

/* ---- keys, which differ in some of their three digits of 11 bits ---- */

static int32_t keys[MOST], out[MOST];

static uint32_t any_of(uint32_t k) { return k * 2654435761u; }

static uint32_t all_equal(uint32_t k) { return (void)k, 7; }
static uint32_t first_digit(uint32_t k) { return any_of(k) >> 21; }
static uint32_t middle_digit(uint32_t k) { return any_of(k) >> 21 << 11; }
static uint32_t last_digit(uint32_t k) { return any_of(k) >> 22 << 22; }
static uint32_t two_digits(uint32_t k) { return any_of(k) >> 22 << 22 | first_digit(k * 3); }
static uint32_t one_digit_but_for_few(uint32_t k) { return k % 1024 == 0; }

static const struct {
    const char *name;
    uint32_t (*key)(uint32_t k);
    size_t passes;
} kinds[] = {
    {"equal keys", all_equal, 1},
    {"keys that differ in the first digit", first_digit, 1},
    {"keys that differ in the second digit", middle_digit, 1},
    {"keys that differ in the last digit", last_digit, 1},
    {"keys that differ in two digits", two_digits, 2},
    {"keys of any bits", any_of, 3},
    {"keys with one digit, but for few", one_digit_but_for_few, 1},
};

/* ---- the calls ---- */

static int failed;

static void compare(const char *call, const char *of, const char *what, size_t got, size_t least, size_t most) {
    if (got >= least && got <= most) return;
    printf("%s: %s: %s: %zu and not %zu to %zu\n", call, of, what, got, least, most);
    failed = 1;
}

static CvlStatus sort(const CvlPool *pool) { return cvl_sort_on(pool, keys, MOST, out, MOST); }
static CvlStatus order(const CvlPool *pool) { return cvl_order_on(pool, keys, MOST, out, MOST); }
static CvlStatus rank(const CvlPool *pool) { return cvl_rank_on(pool, keys, MOST, out, MOST); }
static CvlStatus by_key(const CvlPool *pool) { return cvl_sort_by_key_on(pool, keys, MOST, out, MOST); }
static CvlStatus descending(const CvlPool *pool) { return cvl_sort_by_key_descending_on(pool, keys, MOST, out, MOST); }

static const struct {
    const char *name;
    CvlStatus (*call)(const CvlPool *pool);
} calls[] = {
    {"cvl_sort_on", sort},
    {"cvl_order_on", order},
    {"cvl_rank_on", rank},
    {"cvl_sort_by_key_on", by_key},
    {"cvl_sort_by_key_descending_on", descending},
};

/* A part gathers whole pieces, each of one digit of one part: its own share, and half as much again at most. */
static void try_kind(size_t kind, size_t call) {
    const CvlPool pool = cvl_pool_alone(PARTS);
    for (uint32_t k = 0; k < MOST; k++) keys[k] = (int32_t)kinds[kind].key(k);
    gathers = most_gathered = 0;
    if (calls[call].call(&pool).number != CVL_DONE) abort();
    compare(calls[call].name, kinds[kind].name, "passes", gathers / PARTS, kinds[kind].passes, kinds[kind].passes);
    compare(calls[call].name, kinds[kind].name, "elements of a part", most_gathered, MOST / PARTS, MOST / PARTS * 3 / 2);
}

static int32_t any_place(uint32_t k) { return (int32_t)(any_of(k) % MOST); }
static int32_t low_place(uint32_t k) { return (int32_t)(any_of(k) % (MOST / 8)); }
static int32_t each_place(uint32_t k) { return (int32_t)k; }

static const struct {
    const char *name;
    int32_t (*place)(uint32_t k);
} indices[] = {{"any places", any_place}, {"places among the first", low_place}, {"each place once", each_place}};

/* A part gets its own share of the elements, and half as much again at most. */
static void try_indices(size_t of) {
    const CvlPool pool = cvl_pool_alone(PARTS);
    const char *const call = "cvl_combine_permute_int_on";
    int32_t index[MOST];
    for (uint32_t k = 0; k < MOST; k++) index[k] = indices[of].place(k);
    sent = most_sent = 0;
    if (cvl_combine_permute_int_on(&pool, CVL_ADD, keys, MOST, index, MOST, out, MOST).number != CVL_DONE) abort();
    compare(call, indices[of].name, "elements", sent, MOST, MOST);
    compare(call, indices[of].name, "elements of a part", most_sent, MOST / PARTS, MOST / PARTS * 3 / 2);
}

int main(void) {
    for (size_t call = 0; call < sizeof calls / sizeof *calls; call++) {
        for (size_t kind = 0; kind < sizeof kinds / sizeof *kinds; kind++) try_kind(kind, call);
    }
    for (size_t of = 0; of < sizeof indices / sizeof *indices; of++) try_indices(of);
    if (!failed) printf("sorts in parts make the passes that they need, and parts share their work evenly\n");
    return failed ? EXIT_FAILURE : EXIT_SUCCESS;
}

/*
 * Calls each function of cvl_parallel.h on vectors of many lengths, in 1 to 9 parts, on one thread, on 1 to 4 POSIX threads and, where the
 * compiler has it, on OpenMP's, and holds its status, its place and its rooms against those of the plain call: without faults, with one
 * and with several. In a region of OpenMP a call starts no more of its threads. It prints what differs, and its status is then 1.
 * `tests/c/run parallel` builds and runs it under sanitizers; it takes a number of cases.
 */
#define CVL_SHORT_NAMES
#include "cvl_parallel.h"

#include <stdio.h>
#include <stdlib.h>
#include <string.h>

#ifdef _OPENMP
#include "cvl_openmp.h"
#endif

#ifdef __SANITIZE_THREAD__
enum { CASES = 20 };
#else
enum { CASES = 60 };
#endif
enum { MOST_THREADS = 4, MOST_PARTS = 9 };

/* What the calls read: arrays of n elements, those of segments, and those of a result with m places. */
static struct {
    size_t n, m, k, few, segments, full_segments, trues, room, text_room, text_length, number_count, rows;
    int32_t *a, *b, *small, *divisors, *shifts, *index, *select_index, *default_index, *back_index, *few_index, *defaults;
    int32_t *lengths, *full, *wide, *back_lengths, *bad_lengths, *seg_index, *seg_select_index, *seg_default_index,
        *seg_back_index;
    int32_t *values, *strides, *seg_places, place;
    bool *p, *q, *flags, *seg_flags, *bool_defaults;
    char *text, *nested;
    size_t nested_length;
} in;

/* What a call writes. Its rooms have the same elements before the plain call and before the one in parts. */
typedef struct Room {
    int32_t *ints, *lengths;
    bool *bools;
    char *text;
    int32_t one;
    bool flag;
    size_t count, segments;
} Room;

static CvlPool pool;

static CvlStatus status_of(uint32_t number, int64_t place) {
    CvlStatus status;
    status.number = number;
    status.place = place;
    return status;
}

static bool is_white(char byte) { return byte == ' ' || byte == '\t' || byte == '\n' || byte == '\r'; }

#define BY(lengths, segments) ((CvlLengths){lengths, segments})

/* A row for each call: a name of its own, the function, and its arguments, of which those after the pool are the plain call's. */
/* clang-format off */
#define INT2(X, op, second)                                                                                                    \
    X(op##_wuz, op##_wuz, in.a, second, r->ints, in.n)                                                                         \
    X(op##_first, op##_wuz, r->ints, second, r->ints, in.n)                                                                    \
    X(op##_second, op##_wuz, in.a, r->ints, r->ints, in.n)                                                                     \
    X(op##_both, op##_wuz, r->ints, r->ints, r->ints, in.n)
#define COMPARED(X, op) X(op##_wuz, op##_wuz, in.a, in.b, r->bools, in.n)
#define BOOL2(X, op)                                                                                                           \
    X(op##_wub, op##_wub, in.p, in.q, r->bools, in.n)                                                                          \
    X(op##_wub_in, op##_wub, r->bools, in.q, r->bools, in.n)                                                                   \
    X(op##_sub, op##_sub, in.p, r->bools, in.n)                                                                                \
    X(op##_sub_in, op##_sub, r->bools, r->bools, in.n)                                                                         \
    X(op##_rub, op##_rub, in.p, in.n, &r->flag)                                                                                \
    X(op##_seb, op##_seb, in.p, BY(in.lengths, in.segments), r->bools, in.n)                                                       \
    X(op##_seb_in, op##_seb, r->bools, BY(in.lengths, in.segments), r->bools, in.n)                                                \
    X(op##_reb, op##_reb, in.p, in.n, BY(in.lengths, in.segments), r->bools)
#define SCANNED(X, op, of)                                                                                                     \
    X(op##_suz, op##_suz, of, r->ints, in.n)                                                                                   \
    X(op##_suz_in, op##_suz, r->ints, r->ints, in.n)                                                                           \
    X(op##_ruz, op##_ruz, of, in.n, &r->one)                                                                                   \
    X(op##_sez, op##_sez, of, BY(in.lengths, in.segments), r->ints, in.n)                                                          \
    X(op##_sez_in, op##_sez, r->ints, BY(in.lengths, in.segments), r->ints, in.n)                                                  \
    X(op##_sez_few, op##_sez, of, BY(in.lengths, in.segments / 2), r->ints, in.n)                                                  \
    X(op##_sez_bad, op##_sez, of, BY(in.bad_lengths, in.segments), r->ints, in.n)                                                  \
    X(op##_rez, op##_rez, of, in.n, BY(in.lengths, in.segments), r->ints)                                                          \
    X(op##_rez_bad, op##_rez, of, in.n, BY(in.bad_lengths, in.segments), r->ints)
#define TABLE(X)                                                                                                               \
    INT2(X, add, in.b) INT2(X, mul, in.b) INT2(X, min, in.b) INT2(X, max, in.b) INT2(X, and, in.b) INT2(X, ior, in.b)          \
    INT2(X, xor, in.b) INT2(X, sub, in.b) INT2(X, div, in.divisors) INT2(X, mod, in.divisors) INT2(X, lsh, in.shifts)          \
    INT2(X, rsh, in.shifts)                                                                                                    \
    COMPARED(X, grt) COMPARED(X, les) COMPARED(X, geq) COMPARED(X, leq) COMPARED(X, eql) COMPARED(X, neq)                      \
    BOOL2(X, and) BOOL2(X, ior) BOOL2(X, xor)                                                                                  \
    SCANNED(X, add, in.a) SCANNED(X, mul, in.a) SCANNED(X, min, in.a) SCANNED(X, max, in.a) SCANNED(X, and, in.a)              \
    SCANNED(X, ior, in.a) SCANNED(X, xor, in.a) SCANNED(X, tot, in.small)                                                      \
    X(not_wuz, not_wuz, in.a, r->ints, in.n)                                                                                   \
    X(not_wuz_in, not_wuz, r->ints, r->ints, in.n)                                                                             \
    X(cpy_wuz, cpy_wuz, in.a, r->ints, in.n)                                                                                   \
    X(not_wub, not_wub, in.p, r->bools, in.n)                                                                                  \
    X(cpy_wub, cpy_wub, in.p, r->bools, in.n)                                                                                  \
    X(sel_wuz, sel_wuz, in.flags, in.a, in.b, r->ints, in.n)                                                                   \
    X(sel_wub, sel_wub, in.flags, in.p, in.q, r->bools, in.n)                                                                  \
    X(int_wub, int_wub, in.p, r->ints, in.n)                                                                                   \
    X(boo_wuz, boo_wuz, in.b, r->bools, in.n)                                                                                  \
    X(cnt_lub, cnt_lub, in.flags, in.n, &r->one)                                                                               \
    X(ext_vuz, ext_vuz, in.a, in.n, in.place, &r->one)                                                                         \
    X(ext_vub, ext_vub, in.p, in.n, in.place, &r->flag)                                                                        \
    X(rep_vuz, rep_vuz, in.a, in.place, 9, r->ints, in.n)                                                                      \
    X(rep_vub, rep_vub, in.p, in.place, true, r->bools, in.n)                                                                  \
    X(dis_vuz, dis_vuz, 7, (int64_t)in.n, r->ints)                                                                             \
    X(dis_vub, dis_vub, true, (int64_t)in.n, r->bools)                                                                         \
    X(ind_luz, ind_luz, 2000000000, -77777, (int64_t)in.n, r->ints)                                                            \
    X(mke_fov, mke_fov, BY(in.lengths, in.segments), &r->count)                                                                    \
    X(mke_fov_bad, mke_fov, BY(in.bad_lengths, in.segments), &r->count)                                                            \
    X(ext_vez, ext_vez, in.a, in.n, in.seg_places, BY(in.full, in.full_segments), r->ints)                                         \
    X(ext_veb, ext_veb, in.p, in.n, in.seg_places, BY(in.full, in.full_segments), r->bools)                                        \
    X(ext_vez_empty, ext_vez, in.a, in.n, in.values, BY(in.lengths, in.segments), r->ints)                                         \
    X(rep_vez, rep_vez, in.a, in.seg_places, in.b, BY(in.full, in.full_segments), r->ints, in.n)                                   \
    X(rep_veb, rep_veb, in.p, in.seg_places, in.q, BY(in.full, in.full_segments), r->bools, in.n)                                  \
    X(dis_vez, dis_vez, in.values, BY(in.lengths, in.segments), r->ints, in.n)                                                     \
    X(dis_veb, dis_veb, in.seg_flags, BY(in.lengths, in.segments), r->bools, in.n)                                                 \
    X(ind_lez, ind_lez, in.values, in.strides, BY(in.lengths, in.segments), r->ints, in.n)                                         \
    X(pck_luz, pck_luz, in.a, in.flags, in.n, r->ints, in.room, &r->count)                                                     \
    X(pck_lub, pck_lub, in.p, in.flags, in.n, r->bools, in.room, &r->count)                                                    \
    X(pck_lez, pck_lez, in.a, in.flags, in.n, BY(in.lengths, in.segments), r->ints, in.room, &r->count)                            \
    X(pck_leb, pck_leb, in.p, in.flags, in.n, BY(in.lengths, in.segments), r->bools, in.room, &r->count)                           \
    X(pck_fov, pck_fov, in.flags, in.n, BY(in.lengths, in.segments), r->ints)                                                      \
    X(cnt_leb, cnt_leb, in.flags, in.n, BY(in.lengths, in.segments), r->ints)                                                      \
    X(smp_puz, smp_puz, in.a, in.index, r->ints, in.n)                                                                         \
    X(smp_pub, smp_pub, in.p, in.index, r->bools, in.n)                                                                        \
    X(sel_puz, sel_puz, in.a, in.select_index, in.flags, in.n, r->ints, in.trues)                                              \
    X(sel_pub, sel_pub, in.p, in.select_index, in.flags, in.n, r->bools, in.trues)                                             \
    X(sel_puz_short, sel_puz, in.a, in.select_index, in.flags, in.n, r->ints, in.trues / 2)                                    \
    X(def_puz, def_puz, in.a, in.default_index, in.n, in.defaults, r->ints, in.m)                                              \
    X(def_pub, def_pub, in.p, in.default_index, in.n, in.bool_defaults, r->bools, in.m)                                        \
    X(bck_puz, bck_puz, in.a, in.n, in.back_index, r->ints, in.k)                                                              \
    X(bck_pub, bck_pub, in.p, in.n, in.back_index, r->bools, in.k)                                                             \
    X(smp_pez, smp_pez, in.a, in.seg_index, BY(in.lengths, in.segments), r->ints, in.n)                                            \
    X(smp_peb, smp_peb, in.p, in.seg_index, BY(in.lengths, in.segments), r->bools, in.n)                                           \
    X(sel_pez, sel_pez, in.a, in.seg_select_index, in.flags, in.n, BY(in.lengths, in.segments), r->ints, in.trues)                 \
    X(sel_peb, sel_peb, in.p, in.seg_select_index, in.flags, in.n, BY(in.lengths, in.segments), r->bools, in.trues)                \
    X(def_pez, def_pez, in.a, in.seg_default_index, in.n, in.defaults, BY(in.lengths, in.segments), BY(in.wide, in.segments), r->ints, in.m)        \
    X(def_peb, def_peb, in.p, in.seg_default_index, in.n, in.bool_defaults, BY(in.lengths, in.segments), BY(in.wide, in.segments), r->bools, in.m)  \
    X(bck_pez, bck_pez, in.a, in.n, in.seg_back_index, BY(in.lengths, in.segments), BY(in.back_lengths, in.segments), r->ints, in.k)                \
    X(bck_peb, bck_peb, in.p, in.n, in.seg_back_index, BY(in.lengths, in.segments), BY(in.back_lengths, in.segments), r->bools, in.k)

#define FEW(X, op) X(combine_few_##op, cvl_combine_permute_int, CVL_##op, in.a, in.n, in.few_index, in.n, r->ints, in.few)

/* The functions that have no call of the table, and calls that a caller gets wrong: overlaps, lengths that differ, no operator. */
#define OTHERS(X)                                                                                                              \
    X(read_ints, cvl_read_ints, in.text, in.text_length, r->ints, in.room, &r->count)                                          \
    X(pieces, read_pieces, in.text, in.text_length, r->ints, in.room, &r->count)                                               \
    X(write_ints, cvl_write_ints, in.a, in.n, r->text, in.text_room, &r->count)                                                \
    X(write_bools, cvl_write_bools, in.p, in.n, r->text, in.text_room, &r->count)                                              \
    X(seg_read_ints, cvl_seg_read_ints, in.nested, in.nested_length, r->ints, in.n, &r->count, r->lengths, in.segments, &r->segments) \
    X(seg_write_ints, cvl_seg_write_ints, in.a, in.n, BY(in.lengths, in.segments), r->text, in.text_room, &r->count)               \
    X(seg_write_bools, cvl_seg_write_bools, in.p, in.n, BY(in.lengths, in.segments), r->text, in.text_room, &r->count)             \
    X(first_senders, cvl_first_senders, in.default_index, in.n, r->ints, in.m)                                                 \
    X(first_of_few, cvl_first_senders, in.back_index, in.k, r->ints, in.n)                                                     \
    X(select_first_senders, cvl_select_first_senders, in.select_index, in.n, in.flags, in.n, r->ints, in.trues)                \
    X(seg_first_senders, cvl_seg_first_senders, in.seg_default_index, in.n, BY(in.lengths, in.segments), BY(in.wide, in.segments), r->ints, in.m) \
    X(seg_select_first_senders, cvl_seg_select_first_senders, in.seg_select_index, in.n, in.flags, in.n, BY(in.lengths, in.segments), \
      BY(in.lengths, in.segments), r->ints, in.n)                                                                              \
    X(combine, cvl_combine_permute_int, CVL_ADD, in.a, in.n, in.default_index, in.n, r->ints, in.m)                            \
    X(combine_bools, cvl_combine_permute_bool, CVL_XOR, in.p, in.n, in.default_index, in.n, r->bools, in.m)                    \
    X(counts, cvl_counts, in.back_index, in.k, r->ints, in.n)                                                                  \
    X(combine_few_bools, cvl_combine_permute_bool, CVL_AND, in.p, in.n, in.few_index, in.n, r->bools, in.few)                  \
    X(xor_few_bools, cvl_combine_permute_bool, CVL_XOR, in.p, in.n, in.few_index, in.n, r->bools, in.few)                      \
    X(counts_few, cvl_counts, in.few_index, in.n, r->ints, in.few)                                                             \
    FEW(X, ADD) FEW(X, MUL) FEW(X, MIN) FEW(X, MAX) FEW(X, AND) FEW(X, IOR) FEW(X, XOR)                                        \
    X(transpose, cvl_transpose_int, in.a, in.n, in.rows, in.n / in.rows, r->ints, in.n)                                        \
    X(transpose_bools, cvl_transpose_bool, in.p, in.n, in.rows, in.n / in.rows, r->bools, in.n)                                \
    X(combine_checked, cvl_combine_checked_int, in.small, in.n, in.default_index, in.n, r->ints, in.m)                         \
    X(combine_checked_few, cvl_combine_checked_int, in.small, in.n, in.few_index, in.n, r->ints, in.few)                       \
    X(combine_overflow_few, cvl_combine_checked_int, in.a, in.n, in.few_index, in.n, r->ints, in.few)                          \
    X(combine_overflow, cvl_combine_checked_int, in.a, in.n, in.default_index, in.n, r->ints, in.m)                            \
    X(seg_combine_checked, cvl_seg_combine_checked_int, in.small, in.n, in.seg_default_index, in.n, BY(in.lengths, in.segments), \
      BY(in.wide, in.segments), r->ints, in.m)                                                                                 \
    X(seg_combine, cvl_seg_combine_permute_int, CVL_MUL, in.a, in.n, in.seg_default_index, in.n, BY(in.lengths, in.segments),  \
      BY(in.wide, in.segments), r->ints, in.m)                                                                                 \
    X(seg_combine_bools, cvl_seg_combine_permute_bool, CVL_XOR, in.p, in.n, in.seg_default_index, in.n, BY(in.lengths, in.segments), \
      BY(in.wide, in.segments), r->bools, in.m)                                                                                \
    X(seg_counts, cvl_seg_counts, in.seg_back_index, in.k, BY(in.back_lengths, in.segments), BY(in.lengths, in.segments), r->ints, in.n) \
    X(order, cvl_order, in.a, in.n, r->ints, in.n)                                                                             \
    X(rank, cvl_rank, in.a, in.n, r->ints, in.n)                                                                               \
    X(sort, cvl_sort, in.a, in.n, r->ints, in.n)                                                                               \
    X(seg_order, cvl_seg_order, in.a, in.n, BY(in.lengths, in.segments), r->ints, in.n)                                        \
    X(seg_rank, cvl_seg_rank, in.a, in.n, BY(in.lengths, in.segments), r->ints, in.n)                                          \
    X(seg_sort, cvl_seg_sort, in.a, in.n, BY(in.lengths, in.segments), r->ints, in.n)                                          \
    X(sort_by_key, cvl_sort_by_key, r->ints, in.n, r->ints + in.n, in.n)                                                       \
    X(sort_by_key_descending, cvl_sort_by_key_descending, r->ints, in.n, r->ints + in.n, in.n)                                 \
    X(seg_sort_by_key, cvl_seg_sort_by_key, BY(in.lengths, in.segments), r->ints, in.n, r->ints + in.n, in.n)                  \
    X(seg_sort_by_key_descending, cvl_seg_sort_by_key_descending, BY(in.lengths, in.segments), r->ints, in.n, r->ints + in.n, in.n)\
    X(askew, cvl_int2, CVL_ADD, r->ints, in.n / 2, in.b, in.n / 2, r->ints + in.n / 4, in.n / 2)                               \
    X(askew_scan, cvl_int_scan, CVL_ADD, r->ints, in.n / 2, r->ints + in.n / 4, in.n / 2)                                      \
    X(differ, cvl_int2, CVL_ADD, in.a, in.n, in.b, in.n / 2, r->ints, in.n)                                                    \
    X(no_room, cvl_int2, CVL_DIV, in.a, in.n, in.divisors, in.n, r->ints, in.n / 2)                                            \
    X(no_operator, cvl_int2, 99, in.a, in.n, in.b, in.n, r->ints, in.n)                                                        \
    X(no_scan, cvl_int_scan, CVL_SUB, in.a, in.n, r->ints, in.n)                                                               \
    X(no_reduce, cvl_int_reduce, CVL_NOT, in.a, in.n, &r->one)                                                                 \
    X(no_seg_scan, cvl_seg_int_scan, CVL_DIV, in.a, in.n, BY(in.lengths, in.segments), r->ints, in.n)                              \
    X(no_seg_reduce, cvl_seg_bool_reduce, CVL_ADD, in.p, in.n, BY(in.lengths, in.segments), r->bools, in.segments)                 \
    X(few_values, cvl_seg_distribute_int, in.values, in.segments / 2, BY(in.lengths, in.segments), r->ints, in.n)                  \
    X(copies_below_none, cvl_distribute_int, 7, -1, r->ints, in.n)
/* clang-format on */

/* A text that is read in pieces of any lengths, cut at white space, each after the words of those before it. */
static CvlStatus read_pieces(const char *text, size_t text_len, int32_t *out, size_t out_len, size_t *count) {
    return cvl_read_ints(text, text_len, out, out_len, count);
}
static CvlStatus read_pieces_on(
    const CvlPool *pieces, const char *text, size_t text_len, int32_t *out, size_t out_len, size_t *count);

#define DEFINED(name, function, ...)                                                  \
    static CvlStatus plain_##name(Room *r) { return (void)r, function(__VA_ARGS__); } \
    static CvlStatus parts_##name(Room *r) { return (void)r, function##_on(&pool, __VA_ARGS__); }
TABLE(DEFINED)
OTHERS(DEFINED)

typedef struct Row {
    const char *name, *function;
    CvlStatus (*plain)(Room *r), (*parts)(Room *r);
} Row;
#define ROW(name, function, ...) {#name, #function, plain_##name, parts_##name},
static const Row rows[] = {TABLE(ROW) OTHERS(ROW)};
enum { ROWS = sizeof rows / sizeof *rows };

static uint32_t state = 12345;
static long calls, faults, failed;

static uint32_t below(uint32_t limit) {
    state = state * 1664525u + 1013904223u;
    return (uint32_t)((uint64_t)state * limit >> 32);
}

static void *room_for(size_t count, size_t size) {
    void *room = malloc(count == 0 ? 1 : count * size);
    if (room == NULL) abort();
    return room;
}

static CvlStatus read_pieces_on(
    const CvlPool *pieces, const char *text, size_t text_len, int32_t *out, size_t out_len, size_t *count) {
    int32_t *read = (int32_t *)room_for(text_len, sizeof *read);
    CvlStatus status = status_of(CVL_DONE, -1);
    size_t words = 0, more = 0;
    for (size_t from = 0, to = 0; from < text_len && status.number == CVL_DONE; from = to, words += more) {
        to = from + text_len / pieces->parts + 1;
        if (to > text_len) to = text_len;
        while (to < text_len && !is_white(text[to])) to++;
        status = cvl_read_ints_after(words, text + from, to - from, read + words, text_len - words, &more);
    }
    if (status.number == CVL_DONE) {
        *count = words;
        if (words > out_len) status = status_of(CVL_LENGTH_MISMATCH, -1);
        else memcpy(out, read, words * sizeof *read);
    }
    free(read);
    return status;
}

static int32_t *random_ints(size_t count, uint32_t spread) {
    int32_t *ints = (int32_t *)room_for(count, sizeof *ints);
    for (size_t k = 0; k < count; k++)
        ints[k] = spread == 0 ? (int32_t)(below(65536) << 16 | below(65536)) : (int32_t)below(spread) - (int32_t)(spread / 2);
    return ints;
}

static bool *random_bools(size_t count) {
    bool *bools = (bool *)room_for(count, sizeof *bools);
    for (size_t k = 0; k < count; k++) bools[k] = below(3) != 0;
    return bools;
}

/* Each number from 0 to count - 1 once, at random, and 0 where there are more elements. */
static void shuffle(int32_t *numbers, size_t count) {
    for (size_t k = 0; k < count; k++) numbers[k] = (int32_t)k;
    for (size_t k = count; k > 1; k--) {
        const size_t other = below((uint32_t)k);
        const int32_t number = numbers[k - 1];
        numbers[k - 1] = numbers[other];
        numbers[other] = number;
    }
}

/* Lengths of segments that add up to n, of which none is below `least`. */
static int32_t *random_lengths(size_t n, uint32_t least, size_t *segments) {
    const uint32_t longest = 1 + below(n > 100 ? 5000 : 12);
    int32_t *lengths = (int32_t *)room_for(n + 20, sizeof *lengths);
    size_t done = 0, count = 0;
    while (done < n) {
        size_t length = least + below(longest);
        if (least == 0 && below(4) == 0) length = 0;
        if (below(40) == 0) length = n / 2 + least;
        if (length > n - done) length = n - done;
        if (least == 0 && length == 0 && count >= n) length = n - done;
        lengths[count++] = (int32_t)length;
        done += length;
    }
    for (size_t k = least == 0 ? below(3) : 0; k > 0; k--) lengths[count++] = 0;
    *segments = count;
    return lengths;
}

/* The lengths, or longer ones. */
static int32_t *widened(size_t *total, bool empty_too) {
    int32_t *wide = (int32_t *)room_for(in.segments, sizeof *wide);
    *total = 0;
    for (size_t s = 0; s < in.segments; s++) {
        wide[s] = in.lengths[s] + (in.lengths[s] > 0 || empty_too ? (int32_t)below(3) : 0);
        *total += (size_t)wide[s];
    }
    return wide;
}

static void make_segments(void) {
    const size_t n = in.n;
    size_t start = 0, kept = 0, back = 0;
    in.lengths = random_lengths(n, 0, &in.segments);
    in.full = random_lengths(n, 1, &in.full_segments);
    in.wide = widened(&in.m, true);
    in.back_lengths = widened(&in.k, false);
    in.bad_lengths = (int32_t *)room_for(in.segments, sizeof(int32_t));
    memcpy(in.bad_lengths, in.lengths, in.segments * sizeof(int32_t));
    for (size_t k = 1 + below(3); k > 0 && in.segments > 0; k--)
        in.bad_lengths[below((uint32_t)in.segments)] = -1 - (int32_t)below(3);
    in.seg_index = random_ints(n, 9);
    in.seg_select_index = random_ints(n, 9);
    in.seg_default_index = random_ints(n, 9);
    in.seg_back_index = random_ints(in.k, 9);
    in.values = random_ints(in.segments, 9);
    in.strides = random_ints(in.segments, 0);
    in.seg_flags = random_bools(in.segments);
    in.seg_places = random_ints(in.full_segments, 9);
    for (size_t s = 0; s < in.full_segments; s++) in.seg_places[s] = (int32_t)below((uint32_t)in.full[s]);
    for (size_t s = 0; s < in.segments; s++) {
        const size_t length = (size_t)in.lengths[s];
        int32_t *selected = (int32_t *)room_for(length, sizeof *selected);
        size_t trues = 0;
        for (size_t k = 0; k < length; k++) trues += in.flags[start + k];
        shuffle(selected, trues);
        shuffle(in.seg_index + start, length);
        shuffle(in.seg_default_index + start, length);
        for (size_t k = 0, j = 0; k < length; k++) in.seg_select_index[start + k] = in.flags[start + k] ? selected[j++] : 99;
        for (int32_t k = 0; k < in.back_lengths[s]; k++) in.seg_back_index[back++] = (int32_t)below((uint32_t)length);
        free(selected);
        start += length, kept += trues;
    }
    in.trues = kept;
}

/* The text of the integers of `a`, with white space of some kind between them, and that of its segments. */
static void make_texts(void) {
    char *nested = (char *)room_for(in.n * 12 + in.segments * 3 + 2, 1);
    size_t count;
    in.text = (char *)room_for(in.n * 14 + 4, 1);
    in.text_length = 0;
    for (size_t k = 0; k < in.n; k++) {
        for (size_t blanks = below(k == 0 ? 2 : 4) + (k > 0); blanks > 0; blanks--)
            in.text[in.text_length++] = " \t\n\r"[below(4)];
        in.text_length += (size_t)sprintf(in.text + in.text_length, "%d", below(9) == 0 ? (int)in.small[k] : (int)in.b[k] % 1000);
    }
    if (cvl_seg_write_ints(in.a, in.n, BY(in.lengths, in.segments), nested, in.n * 12 + in.segments * 3 + 2, &count).number !=
        CVL_DONE)
        abort();
    in.nested = nested, in.nested_length = count;
}

/* Makes a fault of each kind at a place. */
static void make_fault(void) {
    const size_t place = below((uint32_t)in.n), other = below((uint32_t)in.n);
    in.divisors[place] = 0;
    in.shifts[place] = below(2) == 0 ? 32 : -1;
    in.small[place] = below(2) == 0 ? INT32_MAX : INT32_MIN;
    in.index[place] = below(2) == 0 ? in.index[other] : (int64_t)in.n;
    in.select_index[place] = below(2) == 0 ? in.select_index[other] : -1;
    in.default_index[place] = below(2) == 0 ? in.default_index[other] : (int32_t)in.m;
    in.seg_index[place] = below(2) == 0 ? in.seg_index[other] : -1;
    in.seg_select_index[place] = below(2) == 0 ? in.seg_select_index[other] : INT32_MAX;
    in.seg_default_index[place] = below(2) == 0 ? in.seg_default_index[other] : INT32_MIN;
    in.few_index[place] = below(2) == 0 ? (int32_t)in.few : -1;
    if (in.k > 0) in.back_index[below((uint32_t)in.k)] = below(2) == 0 ? (int64_t)in.n : -1;
    if (in.k > 0) in.seg_back_index[below((uint32_t)in.k)] = below(2) == 0 ? (int64_t)in.n : -1;
    in.seg_places[below((uint32_t)in.full_segments)] = below(2) == 0 ? -1 : INT32_MAX;
    in.place = below(2) == 0 ? (int64_t)in.n : -1;
    in.text[below((uint32_t)in.text_length)] = "x-9"[below(3)];
}

/* Few places, of which the first have more than their share of the indices. */
static void make_few(void) {
    in.few = 1 + below((uint32_t)(in.n / 8 + 1));
    in.few_index = random_ints(in.n, 9);
    for (size_t k = 0; k < in.n; k++) in.few_index[k] = (int32_t)below((uint32_t)(below(2) == 0 ? in.few : in.few / 16 + 1));
}

static void make(size_t n, int fault_count) {
    in.n = n;
    in.a = random_ints(n, below(2) == 0 ? 0 : 7), in.b = random_ints(n, below(2) == 0 ? 0 : 7), in.small = random_ints(n, 201);
    in.p = random_bools(n), in.q = random_bools(n), in.flags = random_bools(n);
    in.divisors = random_ints(n, 0), in.shifts = random_ints(n, 9);
    in.index = random_ints(n, 9), in.select_index = random_ints(n, 9), in.default_index = random_ints(n, 9);
    in.place = n == 0 ? 0 : (int32_t)below((uint32_t)n);
    make_segments();
    in.defaults = random_ints(in.m, 9), in.bool_defaults = random_bools(in.m), in.back_index = random_ints(in.k, 9);
    make_few();
    shuffle(in.index, n);
    for (size_t k = 0; k < n; k++) {
        in.divisors[k] = in.divisors[k] == 0 ? -1 : in.divisors[k];
        in.shifts[k] = (int32_t)below(32);
    }
    int32_t *selected = random_ints(in.m, 9);
    shuffle(selected, in.trues);
    for (size_t k = 0, j = 0; k < n; k++) in.select_index[k] = in.flags[k] ? selected[j++] : -5;
    shuffle(selected, in.m);
    for (size_t k = 0; k < n; k++) in.default_index[k] = selected[k];
    for (size_t k = 0; k < in.k; k++) in.back_index[k] = (int32_t)below((uint32_t)n);
    free(selected);
    make_texts();
    for (int k = 0; k < fault_count && n > 0; k++) make_fault();
    in.room = below(4) == 0 ? n / 2 : n;
    in.rows = n % 500 == 0 ? 500 : n % 2 == 0 ? 2 : 1;
    in.text_room = below(4) == 0 ? n : n * 12 + in.segments * 3 + 2;
}

static void let_go(void) {
    void *all[] = {
        in.a,
        in.b,
        in.small,
        in.divisors,
        in.shifts,
        in.index,
        in.select_index,
        in.default_index,
        in.back_index,
        in.few_index,
        in.defaults,
        in.lengths,
        in.full,
        in.wide,
        in.back_lengths,
        in.bad_lengths,
        in.seg_index,
        in.seg_select_index,
        in.seg_default_index,
        in.seg_back_index,
        in.values,
        in.strides,
        in.seg_places,
        in.p,
        in.q,
        in.flags,
        in.seg_flags,
        in.bool_defaults,
        in.text,
        in.nested};
    for (size_t k = 0; k < sizeof all / sizeof *all; k++) free(all[k]);
}

static size_t longest_room(void) {
    /* the keys of a sort by key, and their values behind them */
    size_t most = 2 * in.n > in.m ? 2 * in.n : in.m;
    if (in.k > most) most = in.k;
    if (in.few > most) most = in.few;
    return in.segments > most ? in.segments : most;
}

static void compare(const Row *row, Room *plain, Room *parts, const int32_t *ints, const bool *bools) {
    const size_t most = longest_room(), text = in.n * 12 + in.segments * 3 + 2;
    Room *rooms[] = {plain, parts};
    for (int k = 0; k < 2; k++) {
        memcpy(rooms[k]->ints, ints, most * sizeof *ints);
        memcpy(rooms[k]->lengths, ints, in.segments * sizeof *ints);
        memcpy(rooms[k]->bools, bools, most * sizeof *bools);
        memset(rooms[k]->text, 77, text);
        rooms[k]->one = 77, rooms[k]->flag = true, rooms[k]->count = 77, rooms[k]->segments = 77;
    }
    const CvlStatus wanted = row->plain(plain), status = row->parts(parts);
    calls++;
    faults += wanted.number != CVL_DONE;
    if (status.number == wanted.number && status.place == wanted.place &&
        memcmp(plain->ints, parts->ints, most * sizeof *ints) == 0 &&
        memcmp(plain->bools, parts->bools, most * sizeof *bools) == 0 && memcmp(plain->text, parts->text, text) == 0 &&
        memcmp(plain->lengths, parts->lengths, in.segments * sizeof *ints) == 0 && plain->one == parts->one &&
        plain->flag == parts->flag && plain->count == parts->count && plain->segments == parts->segments) {
        return;
    }
    failed++;
    printf(
        "%s: %u at %lld in %zu parts of %zu elements, %u at %lld as a whole%s\n", row->name, (unsigned)status.number,
        (long long)status.place, pool.parts, in.n, (unsigned)wanted.number, (long long)wanted.place,
        status.number == wanted.number && status.place == wanted.place ? ", and other results" : "");
}

/* Calls every function on the data that there are, each on a pool of its own kind. */
static void call_all(CvlThreads *const *threads) {
    const size_t most = longest_room(), text = in.n * 12 + in.segments * 3 + 2;
    int32_t *ints = random_ints(most, 60);
    bool *bools = random_bools(most);
    Room rooms[2];
    for (int k = 0; k < 2; k++) {
        rooms[k].ints = (int32_t *)room_for(most, sizeof *ints),
        rooms[k].lengths = (int32_t *)room_for(in.segments, sizeof *ints);
        rooms[k].bools = (bool *)room_for(most, sizeof *bools), rooms[k].text = (char *)room_for(text, 1);
    }
    for (size_t k = 0; k < ROWS; k++) {
        switch (below(3)) {
        case 0: pool = cvl_pool_alone(1); break;
#ifdef _OPENMP
        case 1: pool = cvl_pool_openmp(); break;
#endif
        default: pool = cvl_pool_posix(threads[below(MOST_THREADS)]); break;
        }
        pool.parts = 1 + below(MOST_PARTS);
        compare(&rows[k], &rooms[0], &rooms[1], ints, bools);
    }
    for (int k = 0; k < 2; k++) free(rooms[k].ints), free(rooms[k].lengths), free(rooms[k].bools), free(rooms[k].text);
    free(ints), free(bools);
}

#ifdef _OPENMP
/* Each thread of a region has a pool of one part, and outside there is a part for each thread. */
static void within_a_region(void) {
    size_t parts[MOST_THREADS] = {0};
    omp_set_dynamic(0);
    omp_set_num_threads(MOST_THREADS);
#pragma omp parallel for num_threads(MOST_THREADS) schedule(static, 1)
    for (int k = 0; k < MOST_THREADS; k++) parts[k] = cvl_pool_openmp().parts;
    for (size_t k = 0; k < MOST_THREADS; k++) {
        failed += parts[k] != 1;
        if (parts[k] != 1) printf("a pool of OpenMP's has %zu parts in a region\n", parts[k]);
    }
    failed += cvl_pool_openmp().parts != MOST_THREADS;
    if (cvl_pool_openmp().parts != MOST_THREADS) printf("a pool of OpenMP's has %zu parts\n", cvl_pool_openmp().parts);
}
#else
static void within_a_region(void) {}
#endif

/* Lengths that are too long together, though those of each part are not; and with one element fewer as long as a vector may be. */
static void add_up_lengths(CvlThreads *threads) {
    enum { COUNT = 1 << 20, EACH = 2048, BEFORE = 77 };
    int32_t *lengths = (int32_t *)room_for(COUNT, sizeof *lengths);
    size_t total = BEFORE;
    for (size_t k = 0; k < COUNT; k++) lengths[k] = EACH;
    pool = cvl_pool_posix(threads);
    pool.parts = MOST_PARTS;
    if (cvl_make_descriptor_on(&pool, BY(lengths, COUNT), &total).number != CVL_TOO_LONG || total != BEFORE) failed++;
    lengths[COUNT / 2]--;
    if (cvl_make_descriptor_on(&pool, BY(lengths, COUNT), &total).number != CVL_DONE || total != CVL_MOST_ELEMENTS) failed++;
    calls += 2, faults++;
    free(lengths);
}

int main(int words, char **word) {
    static const size_t lengths[] = {1000, 300000, 70000, 600000, 1000, 1000, 70000, 70000};
    enum { LONG = sizeof lengths / sizeof *lengths };
    const size_t cases = words > 1 ? (size_t)atol(word[1]) : CASES;
    CvlThreads *threads[MOST_THREADS];
    within_a_region();
    for (size_t k = 0; k < MOST_THREADS; k++) {
        if (cvl_threads_start(k + 1, &threads[k]) != 0) abort();
    }
    for (size_t k = 0; k < cases; k++) {
        for (int fault_count = 0; fault_count < 4; fault_count += fault_count + 1) {
            make(k < LONG ? lengths[k] : below(41), fault_count);
            call_all(threads);
            let_go();
        }
    }
    add_up_lengths(threads[MOST_THREADS - 1]);
    for (size_t k = 0; k < MOST_THREADS; k++) cvl_threads_stop(threads[k]);
    printf(
        "%d rows, %ld calls in parts, %ld of them with a fault, %ld not as the plain call\n", (int)ROWS, calls, faults, failed);
    return failed == 0 ? EXIT_SUCCESS : EXIT_FAILURE;
}

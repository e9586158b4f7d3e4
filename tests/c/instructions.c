/*
 * Counts the instructions that calls take, and compares them with those of `instructions.txt`, so that a walk that takes more than it
 * did is seen where no time is sure to show it. A count may differ by 3 percent and by 60 instructions, since another compiler of C takes
 * others; what the C library carries out is left out.
 *
 *     instructions FILE            compares
 *     instructions FILE --write    writes the file anew: read what changed before you keep it
 */
#define _GNU_SOURCE
#define OWN_STEPS
#include "cvl.h"
#include "steps.h"

#include <inttypes.h>
#include <stdbool.h>
#include <stdio.h>
#include <string.h>

enum { N = 512, TEXT = 16 * N, SLACK = 60, SHARE = 33, LINE = 120 };

static int32_t a[N], b[N], small[N], in_order[N], at_random[N], keys[N], lengths[N], places[N], out[N];
static int64_t exact[N];
static bool flags[N], flags_out[N];
static char text[TEXT], text_out[TEXT];
static size_t segments, written, count;

/* ---- shapes: how N elements are cut ---- */

/* The lengths of the segments are of a pattern that is repeated; the last segment has what is left. */
static const struct {
    const char *name;
    int32_t pattern[8];
    size_t of;
} shapes[] = {
    {"segments of one", {1}, 1},
    {"segments of two", {2}, 1},
    {"segments of four", {4}, 1},
    {"segments of 64", {64}, 1},
    {"one segment", {N}, 1},
    {"segments of one to three", {2, 1, 3, 3, 1, 2, 1, 3}, 8},
    {"segments of one to seven", {5, 1, 7, 2, 4, 1, 6, 3}, 8},
    {"segments of four, each second one empty", {4, 0}, 2},
    {"segments of three, the last shorter", {3}, 1},
};

enum { SHAPES = sizeof shapes / sizeof *shapes };

static void cut(size_t shape) {
    int32_t left = N;
    for (segments = 0; left > 0; segments++) {
        const int32_t wanted = shapes[shape].pattern[segments % shapes[shape].of];
        lengths[segments] = wanted < left ? wanted : left;
        left -= lengths[segments];
    }
}

/* ---- calls ---- */

#define LENGTHS ((CvlLengths){lengths, segments})
#define CALL(name, ...) \
    static CvlStatus name(void) { return __VA_ARGS__; }

CALL(add, cvl_int2(CVL_ADD, a, N, b, N, out, N))
CALL(divide, cvl_int2(CVL_DIV, a, N, b, N, out, N))
CALL(less, cvl_compare(CVL_LES, a, N, b, N, flags_out, N))
CALL(select_each, cvl_select_int(flags, N, a, N, b, N, out, N))
CALL(numbers_of_flags, cvl_int_from_bool(flags, N, out, N))
CALL(scan_add, cvl_int_scan(CVL_ADD, a, N, out, N))
CALL(scan_max, cvl_int_scan(CVL_MAX, a, N, out, N))
CALL(scan_or, cvl_bool_scan(CVL_IOR, flags, N, flags_out, N))
CALL(reduce_add, cvl_int_reduce(CVL_ADD, a, N, out))
CALL(reduce_max, cvl_int_reduce(CVL_MAX, a, N, out))
CALL(checked_scan, cvl_checked_scan(small, N, out, N))
CALL(checked_reduce, cvl_checked_reduce(small, N, out))
CALL(count_flags, cvl_count(flags, N, out))
CALL(progression, cvl_index(3, 5, N, out, N))
CALL(pack, cvl_pack_int(a, N, flags, N, out, N, &count))
CALL(permute_in_order, cvl_permute_int(a, N, in_order, N, out, N))
CALL(permute_at_random, cvl_permute_int(a, N, at_random, N, out, N))
CALL(back_permute, cvl_back_permute_int(a, N, at_random, N, out, N))
CALL(first_senders, cvl_first_senders(at_random, N, out, N))
CALL(combine, cvl_combine_permute_int(CVL_ADD, a, N, at_random, N, out, N))
CALL(counts, cvl_counts(at_random, N, out, N))
CALL(order, cvl_order(keys, N, out, N))
CALL(rank, cvl_rank(keys, N, out, N))
CALL(sort, cvl_sort(keys, N, out, N))
CALL(merge, cvl_merge_by_flags_int(flags, N, a, N / 2, b, N / 2, out, N))
CALL(transpose, cvl_transpose_int(a, N, 16, N / 16, out, N))
CALL(write_ints, cvl_write_ints(a, N, text_out, TEXT, &count))
CALL(read_ints, cvl_read_ints(text + 1, written - 2, out, N, &count)) /* without its brackets */

CALL(seg_scan_add, cvl_seg_int_scan(CVL_ADD, a, N, LENGTHS, out, N))
CALL(seg_scan_max, cvl_seg_int_scan(CVL_MAX, a, N, LENGTHS, out, N))
CALL(seg_scan_add_in_place, cvl_seg_int_scan(CVL_ADD, out, N, LENGTHS, out, N))
CALL(seg_scan_max_in_place, cvl_seg_int_scan(CVL_MAX, out, N, LENGTHS, out, N))
CALL(seg_scan_or, cvl_seg_bool_scan(CVL_IOR, flags, N, LENGTHS, flags_out, N))
CALL(seg_reduce_add, cvl_seg_int_reduce(CVL_ADD, a, N, LENGTHS, out, segments))
CALL(seg_reduce_max, cvl_seg_int_reduce(CVL_MAX, a, N, LENGTHS, out, segments))
CALL(seg_checked_scan, cvl_seg_checked_scan(small, N, LENGTHS, out, N))
CALL(seg_checked_reduce, cvl_seg_checked_reduce(small, N, LENGTHS, out, segments))
CALL(seg_exact_sums, cvl_seg_exact_sums(a, N, LENGTHS, exact, segments))
CALL(seg_count, cvl_seg_count(flags, N, LENGTHS, out, segments))
CALL(seg_pack, cvl_seg_pack_int(a, N, flags, N, LENGTHS, out, N, &count))
CALL(seg_distribute, cvl_seg_distribute_int(a, segments, LENGTHS, out, N))
CALL(seg_index, cvl_seg_index(a, segments, places, segments, LENGTHS, out, N))
CALL(seg_permute, cvl_seg_permute_int(a, N, places, N, LENGTHS, out, N))
CALL(seg_back_permute, cvl_seg_back_permute_int(a, N, places, N, LENGTHS, LENGTHS, out, N))
CALL(seg_first_true, cvl_seg_first_true(flags, N, LENGTHS, out, segments))
CALL(seg_sort, cvl_seg_sort(keys, N, LENGTHS, out, N))

typedef struct {
    const char *name;
    CvlStatus (*call)(void);
} Call;

static const Call flat[] = {
    {"sums", add},
    {"quotients", divide},
    {"comparisons", less},
    {"choices", select_each},
    {"numbers of booleans", numbers_of_flags},
    {"scan of sums", scan_add},
    {"scan of maxima", scan_max},
    {"scan of booleans", scan_or},
    {"reduce of sums", reduce_add},
    {"reduce of maxima", reduce_max},
    {"checked scan", checked_scan},
    {"checked reduce", checked_reduce},
    {"count", count_flags},
    {"progression", progression},
    {"pack", pack},
    {"permute in order", permute_in_order},
    {"permute at random", permute_at_random},
    {"back permute", back_permute},
    {"first senders", first_senders},
    {"combining permute", combine},
    {"counts", counts},
    {"order", order},
    {"rank", rank},
    {"sort", sort},
    {"merge by flags", merge},
    {"transpose", transpose},
    {"text of integers", write_ints},
    {"integers of a text", read_ints},
};

static const Call by_segments[] = {
    {"scan of sums", seg_scan_add},
    {"scan of maxima", seg_scan_max},
    {"scan of sums in place", seg_scan_add_in_place},
    {"scan of maxima in place", seg_scan_max_in_place},
    {"scan of booleans", seg_scan_or},
    {"reduce of sums", seg_reduce_add},
    {"reduce of maxima", seg_reduce_max},
    {"checked scan", seg_checked_scan},
    {"checked reduce", seg_checked_reduce},
    {"exact sums", seg_exact_sums},
    {"count", seg_count},
    {"pack", seg_pack},
    {"distribute", seg_distribute},
    {"progressions", seg_index},
    {"permute", seg_permute},
    {"back permute", seg_back_permute},
    {"first true", seg_first_true},
    {"sort", seg_sort},
};

enum {
    FLAT = sizeof flat / sizeof *flat,
    BY_SEGMENTS = sizeof by_segments / sizeof *by_segments,
    ALL = FLAT + BY_SEGMENTS * SHAPES
};

/* The places of each segment, from its last to its first. */
static void number_places(void) {
    size_t place = 0;
    for (size_t s = 0; s < segments; s++) {
        for (int32_t k = 0; k < lengths[s]; k++) places[place++] = lengths[s] - 1 - k;
    }
}

static void fill(void) {
    for (size_t k = 0; k < N; k++) {
        const uint32_t mixed = (uint32_t)k * 2654435761u;
        a[k] = (int32_t)mixed, b[k] = (int32_t)(mixed >> 7) + 1, small[k] = (int32_t)(mixed >> 20) - 2048;
        keys[k] = (int32_t)(mixed ^ mixed >> 15);
        in_order[k] = (int32_t)k, at_random[k] = (int32_t)(k * 389 % N);
        flags[k] = k % 2 == (k / 16) % 2;
    }
}

/* ---- counts ---- */

static _Atomic uint64_t steps_of_call;

/* The instructions of a call, after one that loads what a first call loads. */
static uint64_t instructions(const Call *call) {
    if (call->call().number != CVL_DONE) {
        printf("instructions: %s has a fault\n", call->name);
        exit(1);
    }
    begin_steps(&steps_of_call);
    (void)call->call();
    end_steps();
    return atomic_load(&steps_of_call);
}

/* The k-th call under its name. */
static uint64_t counted(size_t k, char *name) {
    if (k < FLAT) {
        snprintf(name, LINE, "%s", flat[k].name);
        return instructions(&flat[k]);
    }
    const Call *const call = &by_segments[(k - FLAT) / SHAPES];
    const size_t shape = (k - FLAT) % SHAPES;
    cut(shape);
    number_places();
    snprintf(name, LINE, "%s, %s", call->name, shapes[shape].name);
    return instructions(call);
}

static int write_all(const char *path) {
    char name[LINE];
    FILE *const file = fopen(path, "w");
    if (file == NULL) return perror(path), 1;
    for (size_t k = 0; k < ALL; k++) {
        const uint64_t found = counted(k, name);
        fprintf(file, "%s: %" PRIu64 "\n", name, found);
    }
    return fclose(file) != 0;
}

static bool is_near(uint64_t found, uint64_t kept) {
    const uint64_t apart = found > kept ? found - kept : kept - found;
    return apart <= SLACK + kept / SHARE;
}

/* Each line has a name, a colon and a count. */
static int compare_all(const char *path) {
    char name[LINE], line[2 * LINE];
    FILE *const file = fopen(path, "r");
    size_t apart = 0;
    if (file == NULL) return perror(path), 1;
    for (size_t k = 0; k < ALL; k++) {
        const uint64_t found = counted(k, name);
        const char *const kept = fgets(line, sizeof line, file) == NULL ? NULL : strrchr(line, ':');
        if (kept == NULL || strncmp(line, name, (size_t)(kept - line)) != 0 || !is_near(found, strtoull(kept + 1, NULL, 10))) {
            printf("instructions: %s: %" PRIu64 ", and %s has %s", name, found, path, kept == NULL ? "no more lines\n" : line);
            apart++;
        }
    }
    const bool is_more = fgets(line, sizeof line, file) != NULL;
    if (is_more) printf("instructions: %s has more lines: %s", path, line);
    fclose(file);
    if (apart == 0 && !is_more) printf("%d calls take the instructions that they took\n", (int)ALL);
    return apart > 0 || is_more;
}

int main(int words, char **word) {
    if (words < 2) return fputs("usage: instructions FILE [--write]\n", stderr), 2;
    fill();
    if (cvl_write_ints(small, N, text, TEXT, &written).number != CVL_DONE) return 1;
    return words > 2 && strcmp(word[2], "--write") == 0 ? write_all(word[1]) : compare_all(word[1]);
}

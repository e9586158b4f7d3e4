/*
 * arguments.h: arguments without a fault for each call of calls.h, of any length, for tests that make all calls; and whether a call wrote what
 * the plain reading has. Vectors have n elements in `segments` segments.
 */
#ifndef ARGUMENTS_H
#define ARGUMENTS_H

#include "reading.h"

enum { UNTOUCHED = 77 };

/* How many elements, segments and true flags a call has, and how long the rooms for texts are. */
static size_t n, segments, trues, text_room;

/* The lengths of the segments, and of what the flags keep and leave of them; where each starts, and how long the longest is. */
static int32_t *lengths, *sides[2];
static size_t *starts, longest;

/* The memory of a call, and of its plain reading. */
static unsigned char *memory[MOST_OPERANDS], *right[MOST_OPERANDS];
static int failed;

static inline void fail(const Row *row, const char *why, long long got, long long right_one) {
    printf("%s: %s: %lld and not %lld\n", row->name, why, got, right_one);
    failed = 1;
}

/* ---- segments and flags ---- */

static inline bool flag_at(size_t k) { return k % 3 != 1; }

static inline size_t trues_in(size_t start, size_t end) {
    size_t count = 0;
    for (size_t k = start; k < end; k++) count += flag_at(k);
    return count;
}

/* Whether each segment of a call has to have an element, which an index names. */
static inline bool is_filled(const Row *row) { return extent_of(row, operand_for(row, USE_INDEX)) == EXTENT_SEGMENTS; }

/* Segments with a long one among short ones, every fifth of which is empty, or has one element. */
static inline void cut(const Row *row, size_t most_of_short) {
    const size_t long_one = segments / 2 + 1 < segments ? segments / 2 + 1 : 0;
    longest = n;
    for (size_t s = 0; s < segments; s++) {
        lengths[s] = s == long_one ? 0 : s % 5 == 0 ? is_filled(row) : (int32_t)(s * 37 % most_of_short + 1);
        longest -= (size_t)lengths[s];
    }
    if (segments > 0) lengths[long_one] = (int32_t)longest;
}

/* Where segments of these lengths start, and what the flags keep and leave of them. */
static inline void measure_segments(const Row *row) {
    for (size_t s = 0; s < segments; s++) starts[s + 1] = starts[s] + (size_t)lengths[s];
    for (size_t s = 0; s < segments && uses(row, USE_TRUE_LENGTHS); s++) {
        sides[0][s] = (int32_t)trues_in(starts[s], starts[s + 1]);
        sides[1][s] = lengths[s] - sides[0][s];
    }
}

static inline int32_t *lengths_for(Use use) {
    return use == USE_TRUE_LENGTHS ? sides[0] : use == USE_FALSE_LENGTHS ? sides[1] : lengths;
}

/* How many rows a matrix of all elements has. */
static inline size_t matrix_rows(void) { return n > 0 && n % 500 == 0 ? 500 : n > 0 && n % 2 == 0 ? 2 : 1; }

/* ---- what operands hold ---- */

static inline bool is_found(const Row *row) { return row->model == FIRST_TRUE || row->model == SEG_FIRST_TRUE; }
static inline bool is_product(const Row *row) { return uses(row, USE_COLUMNS); }
static inline bool is_of_runs(const Row *row) { return row->model >= RUN_LENGTHS && row->model <= SEG_RUN_COUNTS; }

/* An element at a place, where the operand holds no indices: none divides by 0, shifts too far or adds up to too much. */
static inline int32_t element_at(const Row *row, size_t k, size_t place) {
    switch (use_of(row, k)) {
    case USE_MASK: return flag_at(place) && !(is_found(row) && place < n / 2); /* the first true flag is far behind */
    case USE_OFFSETS: return (int32_t)starts[place];
    case USE_STARTS: return (int32_t)(place * 7907 % (n - (size_t)lengths[place] + 1));
    case USE_INDEX: return lengths[place] == 0 ? 0 : (int32_t)(place % (size_t)lengths[place]);
    default: break;
    }
    if (is_of_runs(row))
        return (
            int32_t)(kind_of(row, k) == KIND_FLAGS ? place / 3 % 2 : place / 3 + place / 7); /* sorted keys, or flags in runs */
    if (kind_of(row, k) == KIND_FLAGS) return extent_of(row, k) == EXTENT_N ? place * (k + 1) % 5 < 2 : place % 4 < 3;
    if (kind_of(row, k) == KIND_BYTES) return (int32_t)(place * 7907 % 256);
    return (int32_t)((place * 7907 + k) % 31 + 1) % (is_product(row) && k == 2 ? 2 : 32);
}

/* The text of as many elements, or of their segments, of which nothing is written without a place for it; and how long it is. */
static inline size_t put_elements(const Row *row, char *text) {
    const bool nested = row->model == SEG_READ;
    char word[16];
    size_t length = 0;
    for (size_t s = 0; s < (nested ? segments : n > 0); s++) {
        const size_t start = nested ? starts[s] : 0, end = nested ? starts[s + 1] : n;
        for (size_t place = start; place < end || (nested && place == start); place++) {
            const char *before = place > start ? " " : !nested ? "" : s == 0 ? "[[" : " [";
            const int count = place < end ? sprintf(word, "%s%d", before, (int)element_at(row, 1, place))
                                          : sprintf(word, "%s", before);
            if (text != NULL) memcpy(text + length, word, (size_t)count);
            length += (size_t)count;
        }
        if (nested && text != NULL) memcpy(text + length, "]]", s + 1 < segments ? 1 : 2);
        length += !nested ? 0 : s + 1 < segments ? 1 : 2;
    }
    return length;
}

/* How many elements an operand has: a descriptor is one, and numbers are none. */
static inline size_t elements_of(const Row *row, size_t k) {
    const size_t places = uses(row, USE_MASK) && uses(row, USE_INDEX) ? trues : n;
    if (!is_in_memory(row, k)) return 0;
    if (kind_of(row, k) == KIND_SEGMENTS || !is_array(row, k)) return 1;
    if (role_of(row, k) == ROLE_LENGTHS) return segments;
    if (kind_of(row, k) == KIND_TEXT) return is_room(row, k) ? text_room : put_elements(row, NULL);
    switch (extent_of(row, k)) {
    case EXTENT_SEGMENTS:
    case EXTENT_LENGTHS_ROOM: return segments;
    case EXTENT_OFFSETS: return segments + 1;
    case EXTENT_BOTH: return 2 * n;
    case EXTENT_TRUES: return trues;
    case EXTENT_FALSES: return n - trues;
    case EXTENT_RANGE: return places;
    case EXTENT_MARKS: return (places + 31) / 32;
    default: return n;
    }
}

static inline size_t bytes_of(const Row *row, size_t k) { return elements_of(row, k) * size_of(kind_of(row, k)); }

/* Indices that send each place of a segment, or of all, to another one: 7919 is a prime number that divides none of their numbers. If a mask
 * chooses among them, each whose flag is true is sent to one of as many places. */
static inline void fill_indices(const Row *row, int32_t *index, Use use) {
    const bool cut_up = use == USE_INDEX && is_cut_up(row), by_flags = use == USE_INDEX && uses(row, USE_MASK);
    for (size_t s = 0; s < (cut_up ? segments : 1); s++) {
        const size_t start = cut_up ? starts[s] : 0, end = cut_up ? starts[s + 1] : n,
                     places = by_flags ? trues_in(start, end) : end - start;
        for (size_t k = start, sent = 0; k < end; k++)
            index[k] = by_flags && !flag_at(k) ? -1 : (int32_t)((sent++ * 7919 + 3) % places);
    }
}

/* What each byte of a room is before a call. A boolean that a call joins with others is true, by 1 or by any byte but 0; a sum may grow; but
 * integers that a call joins or moves are elements. */
static inline int byte_before(const Row *row, size_t k, bool odd) {
    if (kind_of(row, k) == KIND_SEGMENTS) return 0;
    const bool is_over = row->operands[k].is_over;
    return is_over && (kind_of(row, k) == KIND_SUMS || (kind_of(row, k) == KIND_FLAGS && !odd)) ? 1 : UNTOUCHED;
}

/* Fills an operand. True flags are 1, or any byte but 0. */
static inline void fill(const Row *row, size_t k, void *at, bool odd) {
    unsigned char *const bytes = (unsigned char *)at;
    int32_t *const ints = (int32_t *)at;
    const Use use = use_of(row, k);
    const size_t count = elements_of(row, k);
    if (is_written(row, k) && !(row->operands[k].is_over && kind_of(row, k) == KIND_INTS)) {
        memset(at, byte_before(row, k, odd), bytes_of(row, k));
    } else if (kind_of(row, k) == KIND_SEGMENTS) {
        /* field by field over zeros, since the bytes between the fields are compared too */
        CvlSegments *const descriptor = (CvlSegments *)memset(at, 0, sizeof *descriptor);
        descriptor->lengths = lengths_for(use), descriptor->segments = segments, descriptor->some = true;
    } else if (role_of(row, k) == ROLE_LENGTHS) {
        memcpy(at, lengths_for(use), count * sizeof *ints);
    } else if (kind_of(row, k) == KIND_TEXT) {
        put_elements(row, (char *)at);
    } else if ((use == USE_INDEX && !is_filled(row)) || use == USE_COLUMNS) {
        fill_indices(row, ints, use);
    } else if (kind_of(row, k) == KIND_FLAGS) {
        for (size_t place = 0; place < count; place++)
            bytes[place] = (unsigned char)(!element_at(row, k, place) ? 0 : odd ? place % 255 + 1 : 1);
    } else if (kind_of(row, k) == KIND_BYTES) {
        for (size_t place = 0; place < count; place++) bytes[place] = (unsigned char)element_at(row, k, place);
    } else {
        for (size_t place = 0; place < count; place++) ints[place] = element_at(row, k, place);
    }
}

static inline int64_t number_for(const Row *row, size_t k) {
    switch (use_of(row, k)) {
    case USE_INIT: return 5;
    case USE_STRIDE: return 3;
    case USE_LOWEST: return 0;
    case USE_ROW_COUNT: return (int64_t)matrix_rows();
    case USE_COLUMN_COUNT: return (int64_t)(n / matrix_rows());
    default: break;
    }
    if (role_of(row, k) == ROLE_PLACE) return 0;
    if (role_of(row, k) == ROLE_COUNT) return (int64_t)n;
    return kind_of(row, k) == KIND_FLAGS ? 1 : kind_of(row, k) == KIND_SIZES ? 2 : 9;
}

/* An operator of a call, of several one that is no other's neutral one. */
static inline uint32_t operator_of(const Row *row) {
    static const uint32_t first[] = {CVL_SUB, CVL_LES, CVL_NOT, CVL_ADD, CVL_XOR};
    for (size_t k = 0; k < sizeof first / sizeof *first; k++) {
        if (takes_operator(row, first[k])) return first[k];
    }
    return operator_from(row, 0);
}

/* The arguments of a call, where each operand is somewhere, but nothing is filled. */
static inline Given given_at(const Row *row, unsigned char *const *at) {
    Given g;
    memset(&g, 0, sizeof g);
    g.op = operator_of(row);
    for (size_t k = 0; k < count_of(row); k++) g.at[k] = at[k], g.len[k] = elements_of(row, k), g.number[k] = number_for(row, k);
    return g;
}

/* ---- calls in memory of their own, beside the plain reading ---- */

static inline void fill_rooms(const Row *row, unsigned char *const *at, bool odd) {
    for (size_t k = 0; k < count_of(row); k++) {
        if (is_written(row, k)) fill(row, k, at[k], odd);
    }
}

/* The arguments of a call, filled. */
static inline Given filled(const Row *row, size_t most_of_short, bool odd) {
    cut(row, most_of_short);
    measure_segments(row);
    const Given g = given_at(row, memory);
    for (size_t k = 0; k < count_of(row); k++) {
        if (is_in_memory(row, k)) fill(row, k, memory[k], odd);
    }
    return g;
}

/* Reads a call plainly, before it is made. */
static inline CvlStatus expect(const Row *row, const Given *g, bool odd) {
    fill_rooms(row, right, odd);
    memcpy(written_at, right, sizeof right);
    const CvlStatus status = reading(row, g);
    if (!is_left(status)) fill_rooms(row, right, odd);
    return status;
}

/* Whether a call answered and wrote what is expected. */
static inline bool is_as_expected(const Row *row, CvlStatus status, CvlStatus expected) {
    if (status.number != expected.number) fail(row, "another status", status.number, expected.number);
    else if (status.place != expected.place) fail(row, "another place", status.place, expected.place);
    for (size_t k = 0; k < count_of(row); k++) {
        const size_t bytes = bytes_of(row, k);
        size_t byte = 0;
        if (!is_written(row, k) || kind_of(row, k) == KIND_SEGMENTS || memcmp(memory[k], right[k], bytes) == 0) continue;
        while (memory[k][byte] == right[k][byte]) byte++;
        printf("%s: byte %zu of operand %zu: %d and not %d\n", row->name, byte, k, memory[k][byte], right[k][byte]);
        failed = 1;
    }
    return status.number == expected.number && status.place == expected.place;
}

static inline void *zeros(size_t count, size_t size) {
    void *found = calloc(count + 1, size);
    if (found == NULL) abort();
    return found;
}

/* Makes memory for calls on so many elements, in so many segments; no operand has more than eight bytes for each element. */
static inline void make_memory(size_t most, size_t most_segments) {
    lengths = (int32_t *)zeros(most_segments, sizeof *lengths), starts = (size_t *)zeros(most_segments, sizeof *starts);
    for (size_t side = 0; side < 2; side++) sides[side] = (int32_t *)zeros(most_segments, sizeof *lengths);
    for (size_t k = 0; k < MOST_OPERANDS; k++)
        memory[k] = (unsigned char *)zeros(most, 8), right[k] = (unsigned char *)zeros(most, 8);
}

#endif

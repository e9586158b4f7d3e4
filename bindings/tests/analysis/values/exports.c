/*
 * exports.c: the proved exports whose answers the C goes by, as plain loops that do what is proved of them. The others are
 * written by `analyse`, by their types: each reads all that it is handed, and writes any values.
 */
#include "given.h"

int refused = -1, asked;
uint32_t fault = CVL_DIVIDE_BY_ZERO;

/* How many bytes an integer has in a text: from 1 to 11. */
size_t digits_each = 1;

bool cvl_proved_are_flags(const bool *bytes, size_t bytes_len) {
    for (size_t k = 0; k < bytes_len; k++) {
        if (bytes[k] > 1) return 0;
    }
    return 1;
}

void cvl_proved_make_flags(bool *bytes, size_t bytes_len) {
    for (size_t k = 0; k < bytes_len; k++) bytes[k] = bytes[k] != 0;
}

CvlStatus cvl_proved_make_descriptor(const int32_t *lengths, size_t lengths_len, size_t *total_out) {
    size_t total = 0;
    if (is_refused()) return told_fault();
    for (size_t k = 0; k < lengths_len; k++) {
        if (lengths[k] < 0) return cvl_status(CVL_NEGATIVE_LENGTH, (int64_t)k);
        total += (size_t)lengths[k];
    }
    if (total > CVL_MOST_ELEMENTS) return cvl_status(CVL_TOO_LONG, -1);
    *total_out = total;
    return cvl_done();
}

static size_t trues(const bool *flags, size_t count) {
    size_t found = 0;
    for (size_t k = 0; k < count; k++) found += flags[k] != 0;
    return found;
}

CvlStatus cvl_proved_count(const bool *flags, size_t flags_len, int32_t *out) {
    if (is_refused()) return told_fault();
    *out = (int32_t)trues(flags, flags_len);
    return cvl_done();
}

CvlStatus cvl_proved_exact_sum(const int32_t *a, size_t a_len, int64_t *out) {
    int64_t sum = 0;
    if (is_refused()) return told_fault();
    for (size_t k = 0; k < a_len; k++) sum += a[k];
    *out = sum;
    return cvl_done();
}

/* Whether there is room, for so many; then that is counted. */
static bool has_room(size_t needed, size_t room, size_t *count) {
    *count = needed;
    return needed <= room;
}

CvlStatus cvl_proved_part_places(
    const int32_t *counts, size_t counts_len, size_t room, size_t *out, size_t out_len, size_t *count) {
    size_t place = 0;
    if (is_refused()) return told_fault();
    for (size_t k = 0; k < counts_len; k++) {
        out[k] = place;
        place += (size_t)counts[k];
    }
    out[out_len - 1] = place;
    return has_room(place, room, count) ? cvl_done() : cvl_status(CVL_LENGTH_MISMATCH, -1);
}

CvlStatus cvl_proved_pack_int(
    const int32_t *values, size_t values_len, const bool *flags, size_t flags_len, int32_t *out, size_t out_len, size_t *count) {
    if (is_refused()) return told_fault();
    reads_ints(values, values_len);
    reads_flags(flags, flags_len);
    if (!has_room(trues(flags, flags_len), out_len, count)) return cvl_status(CVL_LENGTH_MISMATCH, -1);
    writes_ints(out, *count);
    return cvl_done();
}

CvlStatus cvl_proved_pack_bool(
    const bool *values, size_t values_len, const bool *flags, size_t flags_len, bool *out, size_t out_len, size_t *count) {
    if (is_refused()) return told_fault();
    reads_flags(values, values_len);
    reads_flags(flags, flags_len);
    if (!has_room(trues(flags, flags_len), out_len, count)) return cvl_status(CVL_LENGTH_MISMATCH, -1);
    writes_flags(out, *count);
    return cvl_done();
}

/* ---- sorts: keys differ in every bit but the lowest; of a block half of the elements have the first digit, and the others the last ---- */

CvlStatus cvl_proved_int_reduce(uint32_t op, const int32_t *a, size_t a_len, int32_t *out) {
    if (is_refused()) return told_fault();
    reads_ints(a, a_len);
    *out = op == CVL_AND ? 0 : op == CVL_IOR ? -2 : any_int();
    return cvl_done();
}

static void writes_ends(size_t first, size_t n, uint32_t *ends, size_t ends_len) {
    for (size_t k = 0; k < ends_len; k++) ends[k] = (uint32_t)(first + (k + 1 < ends_len ? n / 2 : n));
}

CvlStatus cvl_proved_key_block(
    uint32_t pass, size_t first, const int32_t *block, size_t block_len, int32_t *room, size_t room_len, uint32_t *ends,
    size_t ends_len) {
    (void)pass;
    if (is_refused()) return told_fault();
    reads_ints(block, block_len);
    writes_ints(room, room_len);
    writes_ends(first, block_len, ends, ends_len);
    return cvl_done();
}

CvlStatus cvl_proved_placed_block(
    uint32_t pass, size_t first, const CvlPlaced *block, size_t block_len, CvlPlaced *room, size_t room_len, uint32_t *ends,
    size_t ends_len) {
    (void)pass;
    if (is_refused()) return told_fault();
    reads_placed(block, block_len);
    writes_placed(room, room_len);
    writes_ends(first, block_len, ends, ends_len);
    return cvl_done();
}

/* ---- texts ---- */

static size_t list_length(size_t count, size_t each) { return 2 + count * each + (count == 0 ? 0 : count - 1); }

static CvlStatus writes_text(size_t length, bool *out, size_t out_len, size_t *count) {
    if (!has_room(length, out_len, count)) return cvl_status(CVL_LENGTH_MISMATCH, -1);
    writes_bytes(out, length);
    return cvl_done();
}

CvlStatus cvl_proved_write_ints(const int32_t *a, size_t a_len, bool *out, size_t out_len, size_t *count) {
    if (is_refused()) return told_fault();
    reads_ints(a, a_len);
    return writes_text(list_length(a_len, digits_each), out, out_len, count);
}

CvlStatus cvl_proved_write_bools(const bool *a, size_t a_len, bool *out, size_t out_len, size_t *count) {
    if (is_refused()) return told_fault();
    reads_flags(a, a_len);
    return writes_text(list_length(a_len, 1), out, out_len, count);
}

static size_t lists_length(const int32_t *lengths, size_t segments, size_t each) {
    size_t length = list_length(segments, 0);
    for (size_t k = 0; k < segments; k++) length += list_length((size_t)lengths[k], each);
    return length;
}

CvlStatus cvl_proved_seg_write_ints(
    const int32_t *a, size_t a_len, const int32_t *lengths, size_t lengths_len, bool *out, size_t out_len, size_t *count) {
    if (is_refused()) return told_fault();
    reads_ints(a, a_len);
    return writes_text(lists_length(lengths, lengths_len, digits_each), out, out_len, count);
}

CvlStatus cvl_proved_seg_write_bools(
    const bool *a, size_t a_len, const int32_t *lengths, size_t lengths_len, bool *out, size_t out_len, size_t *count) {
    if (is_refused()) return told_fault();
    reads_flags(a, a_len);
    return writes_text(lists_length(lengths, lengths_len, 1), out, out_len, count);
}

/* A text here is of letters, each a word with its digits, and spaces. */
CvlStatus cvl_proved_read_ints(const bool *text, size_t text_len, int32_t *out, size_t out_len, size_t *count) {
    size_t words = 0;
    if (is_refused()) return told_fault();
    for (size_t k = 0; k < text_len; k++) words += text[k] != ' ' && (k == 0 || text[k - 1] == ' ');
    if (!has_room(words, out_len, count)) return cvl_status(CVL_LENGTH_MISMATCH, -1);
    writes_ints(out, words);
    return cvl_done();
}

/* ---- runs of equal neighbours ---- */

static bool ints_differ(const void *a, size_t j, size_t k) { return ((const int32_t *)a)[j] != ((const int32_t *)a)[k]; }

static bool flags_differ(const void *a, size_t j, size_t k) { return (((const bool *)a)[j] != 0) != (((const bool *)a)[k] != 0); }

/* Writes the lengths of the runs from one place to another behind `done` others, or nothing, and answers how many there are then. */
static size_t runs_of(
    bool (*differ)(const void *, size_t, size_t), const void *a, size_t from, size_t to, int32_t *out, size_t done) {
    size_t begin = from;
    for (size_t k = from + 1; k <= to; k++) {
        if (k < to && !differ(a, k - 1, k)) continue;
        if (out != NULL) out[done] = (int32_t)(k - begin);
        begin = k, done++;
    }
    return done;
}

static size_t runs_in(
    bool (*differ)(const void *, size_t, size_t), const void *a, const int32_t *lengths, size_t segments, int32_t *out) {
    size_t from = 0, done = 0;
    for (size_t s = 0; s < segments; s++) {
        done = runs_of(differ, a, from, from + (size_t)lengths[s], out, done);
        from += (size_t)lengths[s];
    }
    return done;
}

CvlStatus cvl_proved_run_lengths_int(const int32_t *a, size_t a_len, int32_t *out, size_t out_len, size_t *count) {
    if (is_refused()) return told_fault();
    if (!has_room(runs_of(ints_differ, a, 0, a_len, NULL, 0), out_len, count)) return cvl_status(CVL_LENGTH_MISMATCH, -1);
    runs_of(ints_differ, a, 0, a_len, out, 0);
    return cvl_done();
}

CvlStatus cvl_proved_run_lengths_bool(const bool *a, size_t a_len, int32_t *out, size_t out_len, size_t *count) {
    if (is_refused()) return told_fault();
    if (!has_room(runs_of(flags_differ, a, 0, a_len, NULL, 0), out_len, count)) return cvl_status(CVL_LENGTH_MISMATCH, -1);
    runs_of(flags_differ, a, 0, a_len, out, 0);
    return cvl_done();
}

CvlStatus cvl_proved_seg_run_lengths_int(
    const int32_t *a, size_t a_len, const int32_t *lengths, size_t lengths_len, int32_t *out, size_t out_len, size_t *count) {
    if (is_refused()) return told_fault();
    reads_ints(a, a_len);
    if (!has_room(runs_in(ints_differ, a, lengths, lengths_len, NULL), out_len, count))
        return cvl_status(CVL_LENGTH_MISMATCH, -1);
    runs_in(ints_differ, a, lengths, lengths_len, out);
    return cvl_done();
}

CvlStatus cvl_proved_seg_run_lengths_bool(
    const bool *a, size_t a_len, const int32_t *lengths, size_t lengths_len, int32_t *out, size_t out_len, size_t *count) {
    if (is_refused()) return told_fault();
    reads_flags(a, a_len);
    if (!has_room(runs_in(flags_differ, a, lengths, lengths_len, NULL), out_len, count))
        return cvl_status(CVL_LENGTH_MISMATCH, -1);
    runs_in(flags_differ, a, lengths, lengths_len, out);
    return cvl_done();
}

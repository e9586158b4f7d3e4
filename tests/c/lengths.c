/*
 * Calls each function of cvl.h on vectors of 4,194,304, 4,194,305, 8,388,613 and 67,108,864 elements, by one thread and by four, without a fault
 * and with one in the last places, and holds what it answers and writes against the plain reading. Nested texts that are read end at 4,194,304 elements,
 * and more are told. Then some calls on 2,147,483,647 booleans, the most of a vector, and on one more, of which nothing may be read; faults in
 * the last places of as many integers, zeros that the system has at hand, of which a page alone is written; and a text of as many words, and of
 * one more, whose bytes are one piece of memory, mapped again and again. It takes up to 6 GB of memory. It prints what differs, and its status
 * is then 1. `tests/c/run lengths` builds and runs it; the functions are those of calls.h. One length may be named alone, with which four threads
 * read the texts.
 */
#define _GNU_SOURCE
#include "far.h"
#include "arguments.h"

enum { THREADS = 4, SEGMENT = 400, MOST_OF_SHORT = 200, LEAST_LAST = 8, WAYS = 4 };

/* ---- faults in the last places */

static int32_t *ints_at(size_t operand) { return (int32_t *)(void *)memory[operand]; }

/* The last place before another one that takes part in a permute: each, or one whose flag is true. */
static size_t last_before(const Row *row, size_t place) {
    do place--;
    while (uses(row, USE_MASK) && !flag_at(place));
    return place;
}

/* Whether two indices may be one: of a back permute, first senders, a combining permute and a product. */
static bool may_repeat(const Row *row) {
    const bool sends_back = row->model == BACK_PERMUTE || row->model == SEG_BACK_PERMUTE;
    return sends_back || operand_for(row, USE_INDEX) == 0 || combines(row) || is_product(row);
}

/* Indices: out of range, or, in the second way, one that stands there already. */
static bool spoil_index(const Row *row, size_t k, int way) {
    int32_t *index = ints_at(k);
    const size_t last = last_before(row, n), other = last_before(row, last);
    index[last] = way == 1 && !may_repeat(row) ? index[other] : way == 1 ? INT32_MAX : -1;
    return true;
}

/* A length below 0, or lengths that add up to one more. */
static bool spoil_lengths(size_t k, int way) {
    int32_t *last = ints_at(k) + segments - 1;
    *last = way == 2 ? -1 : *last + 1;
    return true;
}

/* The fault of an operator, where it has one. */
static uint32_t fault_of(uint32_t op) {
    size_t k = 0;
    while (k < ALL_OPERATORS && operators[k].number != op) k++;
    return k < ALL_OPERATORS ? operators[k].fault : (uint32_t)CVL_DONE;
}

/* Sums that no longer fit: of a scan at its last place, of a reduce at the last segment, or at 0. */
static bool spoil_sum(void) {
    int32_t *a = ints_at(0);
    a[n - 3] = 1, a[n - 2] = INT32_MAX;
    return true;
}

/* Spoils what a call is given, in the last places, and answers whether it has a fault in this way. */
static bool spoil(const Row *row, int way) {
    const size_t index = operand_for(row, is_product(row) ? USE_COLUMNS : USE_INDEX);
    size_t cuts = count_of(row); /* the last lengths of all elements */
    while (cuts > 0 && (role_of(row, cuts - 1) != ROLE_LENGTHS || lengths_for(use_of(row, cuts - 1)) != lengths)) cuts--;
    if (way > 1) return cuts > 0 && !(way == 3 && row->model == MAKE_DESCRIPTOR) && spoil_lengths(cuts - 1, way);
    if (is_filled(row) && way == 0) return ints_at(index)[segments - 1] = lengths[segments - 1], true;
    if (index < count_of(row) && !is_filled(row) && !uses(row, USE_LOWEST)) return spoil_index(row, index, way);
    if (way == 1) return false;
    switch (row->model) {
    case CHECKED_SCAN:
    case SEG_CHECKED_SCAN:
    case CHECKED_REDUCE:
    case SEG_CHECKED_REDUCE: return spoil_sum();
    case BINARY: break;
    default: return false;
    }
    const uint32_t fault = fault_of(operator_of(row));
    if (fault != CVL_DONE) ints_at(1)[n - 1] = fault == CVL_DIVIDE_BY_ZERO ? 0 : 32;
    return fault != CVL_DONE;
}

/* ---- each call */

static long calls, faults;

/* Makes a call by one thread and by four. */
static void make_calls(const Row *row, const Given *g, CvlStatus expected) {
    for (size_t threads = 1; threads <= THREADS; threads += THREADS - 1) {
        if (cvl_set_threads(threads) != 0) abort();
        fill_rooms(row, memory, false);
        is_as_expected(row, row->call(g), expected);
        calls++;
        faults += expected.number != CVL_DONE;
    }
}

static void with_faults(const Row *row) {
    for (int way = 0; way < WAYS; way++) {
        const Given g = filled(row, MOST_OF_SHORT, false);
        if (!spoil(row, way)) continue;
        const CvlStatus expected = expect(row, &g, false);
        if (expected.number == CVL_DONE) fail(row, "no fault in way", way, way);
        make_calls(row, &g, expected);
    }
}

static void without_fault(const Row *row) {
    const Given g = filled(row, MOST_OF_SHORT, false);
    const uint32_t right_number = row->model == SEG_READ && n > CVL_MOST_OF_TEXT ? CVL_TOO_LONG : CVL_DONE;
    const CvlStatus expected = expect(row, &g, false);
    if (expected.number != right_number) fail(row, "another reading", expected.number, right_number);
    make_calls(row, &g, expected);
}

/* A call of the table, or a function that no call has; others are these again. */
static bool is_call(const Row *row) {
    static const char *const own[] = {"_after", "_range", "exact_sum", "read_ints", "write_"};
    for (size_t k = 0; k < sizeof own / sizeof *own; k++) {
        if (strstr(row->name, own[k]) != NULL && !in_parts(row)) return !has(row, ROLE_LENGTHS, KIND_SEGMENTS);
    }
    return row->is_call && !in_parts(row) && !has(row, ROLE_LENGTHS, KIND_SEGMENTS);
}

static bool has_text(const Row *row) { return has(row, ROLE_READS, KIND_TEXT) || has(row, ROLE_ROOM, KIND_TEXT); }

static void each_call(size_t elements) {
    n = elements, segments = elements / SEGMENT;
    while ((segments - 1) % 5 == 0 || (segments - 1) * 37 % MOST_OF_SHORT < LEAST_LAST) segments++;
    trues = trues_in(0, n), text_room = 3 * n;
    for (size_t k = 0; k < ROWS; k++) {
        if (!is_call(&rows[k])) continue;
        without_fault(&rows[k]);
        if (!has_text(&rows[k])) with_faults(&rows[k]);
    }
    printf("%zu elements: %ld calls, %ld of them with a fault\n", n, calls, faults);
}

/* ---- the most elements of a vector, and one more */

static void check(const char *what, bool is_so) {
    if (!is_so) {
        printf("the most elements: %s\n", what);
        failed = 1;
    }
}

static bool is(CvlStatus status, uint32_t number, int64_t place) { return status.number == number && status.place == place; }

/* An exclusive or of the flags before each place, in the place of the flags. */
static bool scans_in_place(bool *flags, size_t count) {
    bool right = is(cvl_xor_sub(flags, flags, count), CVL_DONE, -1), odd = false;
    for (size_t k = 0; k < count && right; k++) {
        right = flags[k] == odd;
        odd ^= flag_at(k);
    }
    return right;
}

static void most_booleans(bool *flags, size_t most) {
    int32_t count = 0;
    bool found = false, odd = false;
    size_t right = 0;
    memset(flags, 1, most);
    check("a count of as many", is(cvl_cnt_lub(flags, most, &count), CVL_DONE, -1) && (size_t)count == most);
    for (size_t k = 0; k < most; k++) {
        flags[k] = flag_at(k);
        right += flags[k];
    }
    odd = right % 2 == 1;
    check("a count", is(cvl_cnt_lub(flags, most, &count), CVL_DONE, -1) && (size_t)count == right);
    check("a reduce", is(cvl_xor_rub(flags, most, &found), CVL_DONE, -1) && found == odd);
    check("a reduce that is false", is(cvl_and_rub(flags, most, &found), CVL_DONE, -1) && !found);
    check(
        "the last element", is(cvl_ext_vub(flags, most, (int64_t)most - 1, &found), CVL_DONE, -1) && found == flag_at(most - 1));
    check("an index behind it", is(cvl_ext_vub(flags, most, (int64_t)most, &found), CVL_INDEX_OUT_OF_RANGE, 0));
    check("a scan in place", scans_in_place(flags, most));
}

/* Nothing of a vector that is too long is read. */
static void one_more(const bool *far, size_t count) {
    int32_t *ints = (int32_t *)(void *)(uintptr_t)far;
    size_t length = 7;
    bool found;
    check(
        "a count of too many",
        is(cvl_cnt_lub(far, count, ints), CVL_OVERLAP, -1) &&
            is(cvl_cnt_lub(far, count, (int32_t *)memory[0]), CVL_TOO_LONG, -1));
    check("a reduce of too many", is(cvl_xor_rub(far, count, &found), CVL_TOO_LONG, -1));
    check("a scan of too many", is(cvl_xor_sub(far, (bool *)(uintptr_t)far, count), CVL_TOO_LONG, -1));
    check("a text of too many", is(cvl_write_bools(far, count, (char *)memory[0], 9, &length), CVL_TOO_LONG, -1) && length == 7);
    check("copies of too many", is(cvl_dis_vub(true, (int64_t)count, (bool *)(uintptr_t)far), CVL_TOO_LONG, -1));
}

static void most_of_all(void) {
    const size_t most = CVL_MOST_ELEMENTS, bytes = most + 1;
    bool *flags = (bool *)far_zeros(bytes, 1);
    bool *far = (bool *)mmap(NULL, bytes, PROT_NONE, MAP_PRIVATE | MAP_ANONYMOUS | MAP_NORESERVE, -1, 0);
    if (far == MAP_FAILED) abort();
    for (size_t threads = 1; threads <= THREADS; threads += THREADS - 1) {
        if (cvl_set_threads(threads) != 0) abort();
        most_booleans(flags, most);
        one_more(far, bytes);
    }
    munmap(flags, bytes);
    printf("%zu booleans\n", most);
}

/* ---- faults in the last places of the longest vectors of integers ---- */

static void last_faults(int32_t *a, int32_t *room, size_t most) {
    const CvlLengths cut = {a, most};
    const int64_t last = (int64_t)most - 1;
    size_t total = 7;
    a[last] = -1;
    check("a length below 0 at the last place", is(cvl_mke_fov(cut, &total), CVL_NEGATIVE_LENGTH, last) && total == 7);
    check("an index below 0 at the last place", is(cvl_bck_puz(a, most, a, room, most), CVL_INDEX_OUT_OF_RANGE, last));
    a[last] = 32;
    check("a shift by 32 at the last place", is(cvl_lsh_wuz(room, a, room, most), CVL_SHIFT_OUT_OF_RANGE, last));
    a[last] = 0, a[last - 1] = INT32_MAX, a[last - 2] = 1;
    check("a sum that no longer fits at the last place", is(cvl_tot_suz(a, a, most), CVL_OVERFLOW, last));
    check("a sum of all that no longer fits", is(cvl_tot_ruz(a, most, room), CVL_OVERFLOW, 0));
    check(
        "a room after a fault", room[0] == 0 && room[last] == 0 && a[last] == 0 && a[last - 1] == INT32_MAX && a[last - 2] == 1);
    a[last - 1] = a[last - 2] = 0;
}

static void last_places(void) {
    const size_t most = CVL_MOST_ELEMENTS;
    int32_t *a = (int32_t *)far_zeros(most, sizeof *a), *room = (int32_t *)far_zeros(most, sizeof *room);
    for (size_t threads = 1; threads <= THREADS; threads += THREADS - 1) {
        if (cvl_set_threads(threads) != 0) abort();
        last_faults(a, room, most);
    }
    munmap(a, most * sizeof *a);
    munmap(room, most * sizeof *room);
    printf("%zu integers\n", most);
}

/* ---- a text of as many words as a vector has elements ---- */

/* So many bytes of a text whose words are one byte each. */
static char *far_text(size_t bytes, char word, size_t piece) {
    char *const found = (char *)far_pieces(bytes, piece);
    memset(found, ' ', piece);
    for (size_t k = 0; k < piece; k += 2) found[k] = word;
    return found;
}

static void most_words(size_t least_threads) {
    const size_t most = CVL_MOST_ELEMENTS, piece = (size_t)1 << 24;
    char *const text = far_text(2 * (most + 1), 'x', piece);
    int32_t number = 7;
    size_t count = 7;
    for (size_t threads = least_threads; threads <= THREADS; threads += THREADS - 1) {
        if (cvl_set_threads(threads) != 0) abort();
        check("the first of as many words", is(cvl_read_ints(text, 2 * most, &number, 1, &count), CVL_BAD_INPUT, 0));
        check("one word more", is(cvl_read_ints(text, 2 * (most + 1), &number, 1, &count), CVL_TOO_LONG, -1));
    }
    check("a room and a count after a fault", number == 7 && count == 7);
    munmap(text, 2 * (most + 1) + piece);
    printf("%zu words\n", most);
}

int main(int words, char **word) {
    static const size_t all[] = {4194304, 4194305, 8388613, 67108864};
    const size_t named = words > 1 ? (size_t)atol(word[1]) : 0,
                 longest_one = named > 0 && named < CVL_MOST_ELEMENTS ? named : all[3];
    pool = cvl_pool_alone(1);
    setvbuf(stdout, NULL, _IONBF, 0);
    make_memory(longest_one, longest_one / SEGMENT + 10);
    for (size_t k = 0; k < sizeof all / sizeof *all && named == 0; k++) each_call(all[k]);
    if (named > 0 && named < CVL_MOST_ELEMENTS) each_call(named), most_words(THREADS);
    else most_of_all(), last_places(), most_words(1);
    return failed ? EXIT_FAILURE : EXIT_SUCCESS;
}

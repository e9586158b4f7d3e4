/*
 * Calls every function of cvl.h and cvl_parallel.h on vectors of 300,000 elements in 1,500 segments, of which some are empty and
 * one is long, with booleans that are 0 or 1 and with others. No call may have a fault. What it writes is compared with the
 * plain reading, and the memory that it asks for with what it needs: in parts beside what the parts ask for. It prints what differs, and its
 * status is then 1. `tests/c/run long` builds and runs it under sanitizers. The functions are those of calls.h.
 */
#include "arguments.h"

#include <unistd.h>

enum { ELEMENTS = 300000, SEGMENTS = 1500, MOST_OF_SHORT = 200, PARTS = 3, SECONDS = 300 };

/* ---- memory: the linker puts these in the place of malloc and realloc (--wrap) */

static size_t asked, asked_by_parts;
static bool in_part;

void *__real_malloc(size_t size);
void *__real_realloc(void *block, size_t size);
void *__wrap_malloc(size_t size);
void *__wrap_realloc(void *block, size_t size);

void *__wrap_malloc(size_t size) {
    *(in_part ? &asked_by_parts : &asked) += size;
    return __real_malloc(size);
}

void *__wrap_realloc(void *block, size_t size) {
    *(in_part ? &asked_by_parts : &asked) += size;
    return __real_realloc(block, size);
}

/* Runs parts in turn. */
static void run_parts(void *state, CvlPart part, void *work, size_t parts) {
    (void)state;
    in_part = true;
    for (size_t k = 0; k < parts; k++) part(work, k);
    in_part = false;
}

/* Whether elements of a call go to places that indices name: by a permute, or by one of its parts. */
static bool permutes(const Row *row) {
    switch (row->model) {
    case PERMUTE:
    case SELECT_PERMUTE:
    case DEFAULT_PERMUTE:
    case SEG_PERMUTE:
    case SEG_SELECT_PERMUTE:
    case SEG_DEFAULT_PERMUTE: return true;
    default: return false;
    }
}

/* The starts and the lengths of the segments of each descriptor that a call makes: a permute that is not simple. */
static size_t descriptors_of(const Row *row) {
    const bool makes = row->model == SEG_SELECT_PERMUTE || row->model == SEG_DEFAULT_PERMUTE;
    size_t count = 0;
    for (size_t k = 0; k < count_of(row) && makes; k++) count += role_of(row, k) == ROLE_LENGTHS;
    return count * segments * 2 * sizeof(int32_t);
}

static bool sorts(const Row *row) { return row->model == SORT || row->model == SEG_SORT; }

/* Whether a call sorts keys and moves their values with them. */
static bool moves(const Row *row) { return row->model >= SORT_BY_KEY && row->model <= SEG_SORT_BY_KEY_DESCENDING; }

/* Whether a call orders keys, which it does as a whole. */
static bool orders(const Row *row) {
    return sorts(row) || moves(row) || row->model == ORDER || row->model == RANK || row->model == SEG_ORDER ||
        row->model == SEG_RANK;
}

/* How many bytes such a call asks for: few keys are sorted where they are, and others in as much room and in counts of digits. Places stand
 * beside the keys of one segment, and values beside all keys. */
static size_t memory_of_keys(const Row *row) {
    const size_t keys = is_cut_up(row) ? longest : n, counts = keys <= 1535 ? 256 : 2048;
    const size_t each = sorts(row) ? sizeof(int32_t) : 2 * sizeof(int32_t),
                 room = keys <= 48 ? 0 : each * keys + sizeof(uint32_t) * counts;
    return room + (sorts(row) ? 0 : each * (moves(row) ? n : keys));
}

/* How many bytes of memory a call asks for that has no text: its descriptors, and a mark or a sender for each place of a permute, or a
 * result that is made before it is put into the room. The indices jump, so that the marks of a simple and a default permute are bits. */
static size_t memory_of(const Row *row) {
    const size_t room = operand(row, ROLE_ROOM), item = size_of(kind_of(row, room)), marks = (n + 31) / 32 * sizeof(uint32_t);
    const bool cut_up = is_cut_up(row);
    if (uses(row, USE_LOWEST)) return 0; /* a part of a permute has the caller's marks */
    if (orders(row)) return memory_of_keys(row);
    switch (row->model) {
    case COMBINE_CHECKED_INT:
    case SEG_COMBINE_CHECKED_INT: return sizeof(int64_t) * n; /* the sums, before they are known to fit */
    case PERMUTE:
    case SEG_PERMUTE: return cut_up ? longest : marks;
    case SELECT_PERMUTE:
    case SEG_SELECT_PERMUTE: return descriptors_of(row) + sizeof(uint32_t) * trues;
    case DEFAULT_PERMUTE:
    case SEG_DEFAULT_PERMUTE: return descriptors_of(row) + (cut_up ? sizeof(uint32_t) * n : marks);
    case REPLACE:
    case SEG_REPLACE: return !cut_up && item == 1 ? 0 : item * n;
    case TELL_NUMBERS: return segments * sizeof(int32_t); /* the number of each segment */
    case SPARSE_PRODUCT_BY_OFFSETS:
    case CHECKED_SPARSE_PRODUCT_BY_OFFSETS: return 2 * item * segments; /* the rows' lengths, too */
    case SEG_EXTRACT:
    case SEG_CHECKED_REDUCE:
    case SPARSE_PRODUCT:
    case CHECKED_SPARSE_PRODUCT: return item * segments;
    default: return descriptors_of(row);
    }
}

/* The same in parts: room for all keys, or twice for all beside their places, and 2,048 counts for each part. */
static size_t memory_of_keys_in_parts(const Row *row) {
    return (sorts(row) ? sizeof(int32_t) : 4 * sizeof(int32_t)) * n + 2048 * sizeof(uint32_t) * PARTS;
}

/* Whether a call in parts keeps what stood in its room. */
static bool keeps_room(const Row *row) {
    switch (row->model) {
    case COMBINE_CHECKED_INT:
    case FIRST_SENDERS:
    case SELECT_FIRST_SENDERS: return true;
    case SEG_EXTRACT:
    case SEG_REPLACE:
    case SEG_BACK_PERMUTE:
    case SEG_FIRST_SENDERS:
    case SEG_SELECT_FIRST_SENDERS:
    case SEG_COUNTS: return true;
    case SEG_MERGE_BY_FLAGS:
    case GATHER_SEGMENTS: return true;
    default: return permutes(row) || (is_cut_up(row) && (orders(row) || is_product(row) || combines(row)));
    }
}

/*
 * How many bytes a call in parts asks for beside its parts: for a copy of its room, and a bit for each place of a permute; of a
 * text for the longest that its parts may write, or for as many integers as they may read.
 */
static size_t memory_in_parts(const Row *row) {
    const size_t room = operand(row, ROLE_ROOM), in_brackets = is_cut_up(row) ? segments : 0;
    if (row->model == WRITE || row->model == SEG_WRITE)
        return (kind_of(row, 0) == KIND_FLAGS ? 2 : 12) * n + 3 * in_brackets + 2 * PARTS;
    if (row->model == READ) return (elements_of(row, 0) + PARTS) / 2 * sizeof(int32_t);
    if (orders(row) && !is_cut_up(row)) return memory_of_keys_in_parts(row);
    if (is_of_runs(row) && row->model != SEG_RUN_COUNTS) return sizeof(int32_t) * n; /* the lengths of the parts' runs */
    if (!keeps_room(row)) return 0;
    if (row->model == COMBINE_CHECKED_INT) return sizeof(int64_t) * n;                   /* the sums of all ranges */
    if (uses(row, USE_OFFSETS)) return bytes_of(row, room) + sizeof(int32_t) * segments; /* the rows' lengths, too */
    if (is_cut_up(row) || !permutes(row)) return bytes_of(row, room) * (moves(row) ? 2 : 1);
    return (bytes_of(row, room) + 3) / 4 * 4 + sizeof(uint32_t) * (elements_of(row, room) / 32 + PARTS);
}

static bool has_text(const Row *row) { return has(row, ROLE_READS, KIND_TEXT) || has(row, ROLE_ROOM, KIND_TEXT); }

/* How many bytes the parts themselves may ask for: each as much as the whole call does, or those of a text as it grows. */
static size_t most_of_parts(const Row *row) { return has_text(row) ? 4 * text_room : PARTS * memory_of(row); }

/* Whether the memory of a call is known: booleans that are not 0 and 1 may be copied, and a text grows where it isn't cut. */
static bool is_known(const Row *row, bool odd) { return !odd && !(in_parts(row) ? row->model == SEG_READ : has_text(row)); }

/* ---- each call */

/* Makes the call, where true flags are 1, or any byte but 0. */
static void check(const Row *row, bool odd) {
    const Given g = filled(row, MOST_OF_SHORT, odd);
    const CvlStatus expected = expect(row, &g, odd);
    asked = asked_by_parts = 0;
    const CvlStatus status = row->call(&g);
    const size_t needed = !is_known(row, odd) ? asked : in_parts(row) ? memory_in_parts(row) : memory_of(row);
    if (expected.number != CVL_DONE) fail(row, "a fault", expected.number, CVL_DONE);
    if (!is_as_expected(row, status, expected)) return;
    if (asked != needed) fail(row, "other bytes of memory", (long long)asked, (long long)needed);
    if (is_known(row, odd) && asked_by_parts > most_of_parts(row)) {
        fail(row, "more bytes of memory in parts", (long long)asked_by_parts, (long long)most_of_parts(row));
    }
}

int main(void) {
    alarm(SECONDS);
    pool = cvl_pool_alone(PARTS);
    pool.run = run_parts;
    n = ELEMENTS, segments = SEGMENTS, trues = trues_in(0, n), text_room = 3 * n;
    make_memory(n, segments);
    for (size_t k = 0; k < ROWS; k++) {
        check(&rows[k], false);
        if (has(&rows[k], ROLE_READS, KIND_FLAGS)) check(&rows[k], true);
    }
    if (!failed) printf("%d functions on %d elements as they should be\n", (int)ROWS, (int)ELEMENTS);
    return failed ? EXIT_FAILURE : EXIT_SUCCESS;
}

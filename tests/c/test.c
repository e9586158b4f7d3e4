/*
 * Calls every function of cvl.h on worked values, each fault that its comment names, and each call once without memory. It
 * prints what is not as it should be, and its status is then 1. `tests/c/run test` builds and runs it under sanitizers.
 */
#define _DEFAULT_SOURCE
#define CVL_SHORT_NAMES
#include "cvl.h"

#include <pthread.h>
#include <stdio.h>
#include <stdlib.h>
#include <string.h>
#include <sys/mman.h>
#include <unistd.h>

enum { ROOM = 8, TEXT_ROOM = 32, UNTOUCHED = 77, SECONDS = 300 };

static int32_t ints[ROOM];
static bool bools[ROOM];
static size_t total;
static char bytes[TEXT_ROOM];
static int32_t lists[ROOM];
static size_t list_count;

/* More elements than a vector has, which are 0 where one of them is read, and take no memory. */
static int32_t *too_many_ints;
static bool *too_many_bools;

static int failed;
static int calls;
static int refusing, spared;

/* The linker puts these in the place of malloc and realloc (--wrap), so that a test can refuse memory, after some that it spares. */
void *__real_malloc(size_t size);
void *__wrap_malloc(size_t size);
void *__wrap_malloc(size_t size) { return refusing && spared-- <= 0 ? NULL : __real_malloc(size); }

#ifndef OVER_SHARED
/* An export that answers the number that a test names. */
static uint32_t answered = CVL_DONE;
CvlStatus __real_cvl_proved_seg_checked_reduce(
    const int32_t *a, size_t a_len, const int32_t *lengths, size_t lengths_len, int32_t *out, size_t out_len);
CvlStatus __wrap_cvl_proved_seg_checked_reduce(
    const int32_t *a, size_t a_len, const int32_t *lengths, size_t lengths_len, int32_t *out, size_t out_len);
CvlStatus __wrap_cvl_proved_seg_checked_reduce(
    const int32_t *a, size_t a_len, const int32_t *lengths, size_t lengths_len, int32_t *out, size_t out_len) {
    if (answered == CVL_DONE) return __real_cvl_proved_seg_checked_reduce(a, a_len, lengths, lengths_len, out, out_len);
    return (CvlStatus){answered, 2};
}
#endif

static void fail(const char *call, const char *why) {
    printf("%s: %s\n", call, why);
    failed = 1;
}

static void reset(void) {
    for (int k = 0; k < ROOM; k++) {
        ints[k] = UNTOUCHED;
        lists[k] = UNTOUCHED;
        bools[k] = k % 2 == 0;
    }
    memset(bytes, UNTOUCHED, sizeof bytes);
    total = UNTOUCHED;
    list_count = UNTOUCHED;
    calls++;
}

/* The status is this one. */
static void tells(const char *call, CvlStatus status, uint32_t number, int64_t place) {
    if (status.number != number || status.place != place) {
        printf(
            "%s: %u at %lld, not %u at %lld\n", call, (unsigned)status.number, (long long)status.place, (unsigned)number,
            (long long)place);
        failed = 1;
    }
}

/* The rooms are as before from these places on. */
static void leaves(const char *call, int first_int, int first_bool) {
    for (int k = first_int; k < ROOM; k++) {
        if (ints[k] != UNTOUCHED) fail(call, "an integer was written");
    }
    for (int k = first_bool; k < ROOM; k++) {
        if (bools[k] != (k % 2 == 0)) fail(call, "a boolean was written");
    }
}

/* The status is that of a call which told so many elements as the total. */
static void counts(const char *call, CvlStatus status, uint32_t number, size_t count) {
    tells(call, status, number, -1);
    if (total != count) fail(call, "another count");
}

/* The room for texts is as before from this place on. */
static void leaves_bytes(const char *call, size_t first) {
    for (size_t k = first; k < TEXT_ROOM; k++) {
        if (bytes[k] != UNTOUCHED) fail(call, "a byte was written");
    }
}

static void holds_ints(const char *call, const int32_t *wanted, size_t count) {
    if (memcmp(ints, wanted, count * sizeof *wanted) != 0) fail(call, "other integers");
    leaves(call, (int)count, 0);
}

static void holds_bools(const char *call, const bool *wanted, size_t count) {
    if (memcmp(bools, wanted, count * sizeof *wanted) != 0) fail(call, "other booleans");
    leaves(call, 0, (int)count);
}

/* The call is done, and the room holds these integers or booleans. */
#define INTS(call, ...)                                            \
    do {                                                           \
        const int32_t wanted[] = {__VA_ARGS__};                    \
        reset();                                                   \
        tells(#call, call, CVL_DONE, -1);                          \
        holds_ints(#call, wanted, sizeof wanted / sizeof *wanted); \
        NO_MEMORY(call);                                           \
    } while (0)
#define BOOLS(call, ...)                                            \
    do {                                                            \
        const bool wanted[] = {__VA_ARGS__};                        \
        reset();                                                    \
        tells(#call, call, CVL_DONE, -1);                           \
        holds_bools(#call, wanted, sizeof wanted / sizeof *wanted); \
        NO_MEMORY(call);                                            \
    } while (0)

/* The call is done, the front of the room holds these integers or this text, and the count is their number. */
#define FRONT_INTS(call, ...)                                                        \
    do {                                                                             \
        const int32_t wanted[] = {__VA_ARGS__};                                      \
        INTS(call, __VA_ARGS__);                                                     \
        if (total != UNTOUCHED) fail(#call, "the count was written without memory"); \
        reset();                                                                     \
        tells(#call, call, CVL_DONE, -1);                                            \
        if (total != sizeof wanted / sizeof *wanted) fail(#call, "another count");   \
    } while (0)
#define TEXT(call, wanted)                                                           \
    do {                                                                             \
        reset();                                                                     \
        tells(#call, call, CVL_DONE, -1);                                            \
        if (total != strlen(wanted)) fail(#call, "another count");                   \
        if (memcmp(bytes, wanted, strlen(wanted)) != 0) fail(#call, "another text"); \
        leaves_bytes(#call, strlen(wanted));                                         \
        NO_MEMORY(call);                                                             \
        leaves_bytes(#call, 0);                                                      \
        if (total != UNTOUCHED) fail(#call, "the count was written");                \
    } while (0)

/* The room is too short and as before, and the count is the length that is needed. */
#define TOO_SHORT(call, needed)                                         \
    do {                                                                \
        reset();                                                        \
        tells(#call, call, CVL_LENGTH_MISMATCH, -1);                    \
        leaves(#call, 0, 0);                                            \
        leaves_bytes(#call, 0);                                         \
        if (total != (needed)) fail(#call, "another length is needed"); \
    } while (0)

/* Without memory the call says so, or it takes none and is done. */
#define NO_MEMORY(call)                                                   \
    do {                                                                  \
        CvlStatus status;                                                 \
        reset();                                                          \
        refusing = 1;                                                     \
        status = call;                                                    \
        refusing = 0;                                                     \
        if (status.number != CVL_DONE) {                                  \
            tells(#call, status, CVL_NO_RESOURCES, -1);                   \
            leaves(#call, 0, 0);                                          \
            if (total != UNTOUCHED) fail(#call, "the total was written"); \
        }                                                                 \
    } while (0)

/* The call has this fault, and the rooms are as before. */
#define FAULT(call, number, place)                                    \
    do {                                                              \
        reset();                                                      \
        tells(#call, call, number, place);                            \
        leaves(#call, 0, 0);                                          \
        if (total != UNTOUCHED) fail(#call, "the total was written"); \
    } while (0)

/* The call is done, and the front of the room holds these integers or booleans, whose number is told as the total. */
#define COUNTED_INTS(call, ...)                                                                  \
    do {                                                                                         \
        INTS(call, __VA_ARGS__);                                                                 \
        counts(#call, call, CVL_DONE, sizeof((const int32_t[]){__VA_ARGS__}) / sizeof(int32_t)); \
    } while (0)
#define COUNTED_BOOLS(call, ...)                                                           \
    do {                                                                                   \
        BOOLS(call, __VA_ARGS__);                                                          \
        counts(#call, call, CVL_DONE, sizeof((const bool[]){__VA_ARGS__}) / sizeof(bool)); \
    } while (0)

/* The call takes so many copies of booleans that are neither 0 nor 1, and where one is refused it says so. */
#define COPIES(call, copies)                                              \
    do {                                                                  \
        for (int granted = 0; granted < (copies); granted++) {            \
            CvlStatus status;                                             \
            reset();                                                      \
            spared = granted;                                             \
            refusing = 1;                                                 \
            status = call;                                                \
            refusing = spared = 0;                                        \
            tells(#call, status, CVL_NO_RESOURCES, -1);                   \
            leaves(#call, 0, 0);                                          \
            leaves_bytes(#call, 0);                                       \
            if (total != UNTOUCHED) fail(#call, "the total was written"); \
        }                                                                 \
    } while (0)
#define INTS_OF_COPIES(copies, call, ...) \
    do {                                  \
        INTS(call, __VA_ARGS__);          \
        COPIES(call, copies);             \
    } while (0)
#define BOOLS_OF_COPIES(copies, call, ...) \
    do {                                   \
        BOOLS(call, __VA_ARGS__);          \
        COPIES(call, copies);              \
    } while (0)

#define I(...) ((const int32_t[]){__VA_ARGS__})
#define B(...) ((const bool[]){__VA_ARGS__})
#define O(...) ((const bool *)(const unsigned char[]){__VA_ARGS__})
#define S(lengths, segments) ((CvlLengths){lengths, segments})

static void place_by_place(void) {
    const int32_t *a = I(12, -7, 2147483647), *b = I(10, 2, 1);
    const int32_t *dividends = I(7, -7, INT32_MIN), *divisors = I(2, 2, -1);
    const int32_t *values = I(1, -7, 3), *amounts = I(4, 1, 31);
    const bool *f = B(true, true, false, false), *g = B(true, false, true, false);
    INTS(add_wuz(a, b, ints, 3), 22, -5, INT32_MIN);
    INTS(sub_wuz(a, b, ints, 3), 2, -9, 2147483646);
    INTS(mul_wuz(a, b, ints, 3), 120, -14, 2147483647);
    INTS(min_wuz(a, b, ints, 3), 10, -7, 1);
    INTS(max_wuz(a, b, ints, 3), 12, 2, 2147483647);
    INTS(and_wuz(a, b, ints, 3), 8, 0, 1);
    INTS(ior_wuz(a, b, ints, 3), 14, -5, 2147483647);
    INTS(xor_wuz(a, b, ints, 3), 6, -5, 2147483646);
    INTS(div_wuz(dividends, divisors, ints, 3), 3, -3, INT32_MIN);
    INTS(mod_wuz(dividends, divisors, ints, 3), 1, -1, 0);
    INTS(lsh_wuz(values, amounts, ints, 3), 16, -14, INT32_MIN);
    INTS(rsh_wuz(values, amounts, ints, 3), 0, -4, 0);
    INTS(not_wuz(I(0, 5, -1), ints, 3), -1, -6, 0);
    INTS(cpy_wuz(I(3, 1), ints, 2), 3, 1);
    BOOLS(not_wub(B(false, true, true), bools, 3), true, false, false);
    BOOLS(cpy_wub(B(false, true, true), bools, 3), false, true, true);
    BOOLS(grt_wuz(I(1, 2, 3), I(2, 2, 2), bools, 3), false, false, true);
    BOOLS(les_wuz(I(1, 2, 3), I(2, 2, 2), bools, 3), true, false, false);
    BOOLS(geq_wuz(I(1, 2, 3), I(2, 2, 2), bools, 3), false, true, true);
    BOOLS(leq_wuz(I(1, 2, 3), I(2, 2, 2), bools, 3), true, true, false);
    BOOLS(eql_wuz(I(1, 2, 3), I(2, 2, 2), bools, 3), false, true, false);
    BOOLS(neq_wuz(I(1, 2, 3), I(2, 2, 2), bools, 3), true, false, true);
    BOOLS(and_wub(f, g, bools, 4), true, false, false, false);
    BOOLS(ior_wub(f, g, bools, 4), true, true, true, false);
    BOOLS(xor_wub(f, g, bools, 4), false, true, true, false);
    INTS(sel_wuz(B(true, false, false), I(5, 0, 5), I(1, 1, 1), ints, 3), 5, 1, 1);
    BOOLS(sel_wub(B(true, false), B(true, true), B(false, false), bools, 2), true, false);
    INTS(int_wub(B(false, true, true), ints, 3), 0, 1, 1);
    BOOLS(boo_wuz(I(0, -3, 7), bools, 3), false, true, true);
    FAULT(div_wuz(I(1, 2, 3), I(1, 0, 0), ints, 3), CVL_DIVIDE_BY_ZERO, 1);
    FAULT(mod_wuz(I(1, 2, 3), I(0, 1, 0), ints, 3), CVL_DIVIDE_BY_ZERO, 0);
    FAULT(lsh_wuz(I(1, 2, 3), I(31, 32, -1), ints, 3), CVL_SHIFT_OUT_OF_RANGE, 1);
    FAULT(rsh_wuz(I(1, 2, 3), I(31, 0, -1), ints, 3), CVL_SHIFT_OUT_OF_RANGE, 2);
    INTS(add_wuz(a, b, ints, 1), 22);
}

static void place_by_place_faults(void) {
    const int32_t *a = I(1, 2, 3);
    const bool *f = B(true, true, false);
    const size_t many = (size_t)CVL_MOST_ELEMENTS + 1;
    FAULT(cvl_int2(CVL_GRT, a, 3, a, 3, ints, 3), CVL_UNKNOWN_CALL, -1);
    FAULT(cvl_int2(CVL_ADD, a, 3, a, 2, ints, 3), CVL_LENGTH_MISMATCH, -1);
    FAULT(cvl_int2(CVL_ADD, a, 3, a, 3, ints, 4), CVL_LENGTH_MISMATCH, -1);
    FAULT(cvl_int2(CVL_ADD, too_many_ints, many, a, 3, ints, 3), CVL_TOO_LONG, -1);
    FAULT(cvl_int2(UINT32_MAX, too_many_ints, many, a, 3, ints, 3), CVL_UNKNOWN_CALL, -1);
    FAULT(cvl_int1(CVL_ADD, a, 3, ints, 3), CVL_UNKNOWN_CALL, -1);
    FAULT(cvl_int1(CVL_NOT, a, 3, ints, 2), CVL_LENGTH_MISMATCH, -1);
    FAULT(cvl_int1(CVL_CPY, too_many_ints, many, ints, 2), CVL_TOO_LONG, -1);
    FAULT(cvl_compare(CVL_NOT, a, 3, a, 3, bools, 3), CVL_UNKNOWN_CALL, -1);
    FAULT(cvl_compare(CVL_RSH, a, 3, a, 3, bools, 3), CVL_UNKNOWN_CALL, -1);
    FAULT(cvl_compare(CVL_EQL, a, 2, a, 3, bools, 2), CVL_LENGTH_MISMATCH, -1);
    FAULT(cvl_compare(CVL_EQL, too_many_ints, many, a, 3, bools, 2), CVL_TOO_LONG, -1);
    FAULT(cvl_bool2(CVL_MAX, f, 3, f, 3, bools, 3), CVL_UNKNOWN_CALL, -1);
    FAULT(cvl_bool2(CVL_SUB, f, 3, f, 3, bools, 3), CVL_UNKNOWN_CALL, -1);
    FAULT(cvl_bool2(CVL_AND, f, 3, f, 2, bools, 3), CVL_LENGTH_MISMATCH, -1);
    FAULT(cvl_bool2(CVL_AND, too_many_bools, many, f, 2, bools, 3), CVL_TOO_LONG, -1);
    FAULT(cvl_bool1(CVL_CPY + 1, f, 3, bools, 3), CVL_UNKNOWN_CALL, -1);
    FAULT(cvl_bool1(CVL_CPY, f, 3, bools, 2), CVL_LENGTH_MISMATCH, -1);
    FAULT(cvl_bool1(CVL_NOT, too_many_bools, many, bools, 2), CVL_TOO_LONG, -1);
    FAULT(cvl_int_from_bool(f, 3, ints, 2), CVL_LENGTH_MISMATCH, -1);
    FAULT(cvl_int_from_bool(too_many_bools, many, ints, 2), CVL_TOO_LONG, -1);
    FAULT(cvl_bool_from_int(a, 3, bools, 4), CVL_LENGTH_MISMATCH, -1);
    FAULT(cvl_bool_from_int(too_many_ints, many, bools, 4), CVL_TOO_LONG, -1);
    FAULT(cvl_select_int(f, 3, a, 2, a, 3, ints, 3), CVL_LENGTH_MISMATCH, -1);
    FAULT(cvl_select_int(f, 3, a, 3, a, 2, ints, 3), CVL_LENGTH_MISMATCH, -1);
    FAULT(cvl_select_bool(f, 3, f, 3, f, 3, bools, 2), CVL_LENGTH_MISMATCH, -1);
    FAULT(cvl_select_bool(too_many_bools, many, f, 3, f, 3, bools, 2), CVL_TOO_LONG, -1);
}

static void scans(void) {
    const int32_t *a = I(3, 1, 4);
    const bool *f = B(true, false, true);
    const size_t many = (size_t)CVL_MOST_ELEMENTS + 1;
    INTS(add_suz(a, ints, 3), 0, 3, 4);
    INTS(mul_suz(a, ints, 3), 1, 3, 3);
    INTS(min_suz(a, ints, 3), 2147483647, 3, 1);
    INTS(max_suz(a, ints, 3), INT32_MIN, 3, 3);
    INTS(and_suz(a, ints, 3), -1, 3, 1);
    INTS(ior_suz(a, ints, 3), 0, 3, 3);
    INTS(xor_suz(a, ints, 3), 0, 3, 2);
    INTS(add_ruz(a, 3, ints), 8);
    INTS(mul_ruz(a, 3, ints), 12);
    INTS(min_ruz(a, 3, ints), 1);
    INTS(max_ruz(a, 3, ints), 4);
    INTS(and_ruz(a, 3, ints), 0);
    INTS(ior_ruz(a, 3, ints), 7);
    INTS(xor_ruz(a, 3, ints), 6);
    INTS(min_ruz(a, 0, ints), 2147483647);
    BOOLS(and_sub(f, bools, 3), true, true, false);
    BOOLS(ior_sub(f, bools, 3), false, true, true);
    BOOLS(xor_sub(f, bools, 3), false, true, true);
    BOOLS(and_rub(f, 3, bools), false);
    BOOLS(ior_rub(f, 3, bools), true);
    BOOLS(xor_rub(f, 3, bools), false);
    BOOLS(ior_rub(f, 0, bools), false);
    FAULT(cvl_int_scan(CVL_SUB, a, 3, ints, 3), CVL_UNKNOWN_CALL, -1);
    FAULT(cvl_int_scan(CVL_ADD, a, 3, ints, 2), CVL_LENGTH_MISMATCH, -1);
    FAULT(cvl_int_scan(CVL_ADD, too_many_ints, many, ints, 2), CVL_TOO_LONG, -1);
    FAULT(cvl_int_reduce(CVL_DIV, a, 3, ints), CVL_UNKNOWN_CALL, -1);
    FAULT(cvl_int_reduce(CVL_ADD, too_many_ints, many, ints), CVL_TOO_LONG, -1);
    FAULT(cvl_bool_scan(CVL_ADD, f, 3, bools, 3), CVL_UNKNOWN_CALL, -1);
    FAULT(cvl_bool_scan(CVL_AND, f, 3, bools, 4), CVL_LENGTH_MISMATCH, -1);
    FAULT(cvl_bool_scan(CVL_AND, too_many_bools, many, bools, 4), CVL_TOO_LONG, -1);
    FAULT(cvl_bool_reduce(CVL_SUB, f, 3, bools), CVL_UNKNOWN_CALL, -1);
    FAULT(cvl_bool_reduce(CVL_AND, too_many_bools, many, bools), CVL_TOO_LONG, -1);
}

static void scans_in_parts(void) {
    const int32_t *a = I(3, 1, 4);
    const bool *f = B(true, false, true);
    const size_t many = (size_t)CVL_MOST_ELEMENTS + 1;
    INTS(cvl_int_scan_after(CVL_ADD, 10, a, 3, ints, 3), 10, 13, 14);
    INTS(cvl_int_scan_after(CVL_ADD, 2147483647, a, 3, ints, 3), 2147483647, -2147483646, -2147483645);
    INTS(cvl_int_scan_after(CVL_MUL, 2, a, 3, ints, 3), 2, 6, 6);
    INTS(cvl_int_scan_after(CVL_MIN, 2, a, 3, ints, 3), 2, 2, 1);
    INTS(cvl_int_scan_after(CVL_MAX, 2, a, 3, ints, 3), 2, 3, 3);
    INTS(cvl_int_scan_after(CVL_AND, 5, a, 3, ints, 3), 5, 1, 1);
    INTS(cvl_int_scan_after(CVL_IOR, 8, a, 3, ints, 3), 8, 11, 11);
    INTS(cvl_int_scan_after(CVL_XOR, 1, a, 3, ints, 3), 1, 2, 3);
    BOOLS(cvl_bool_scan_after(CVL_AND, true, f, 3, bools, 3), true, true, false);
    BOOLS(cvl_bool_scan_after(CVL_AND, false, f, 3, bools, 3), false, false, false);
    BOOLS(cvl_bool_scan_after(CVL_IOR, false, f, 3, bools, 3), false, true, true);
    BOOLS(cvl_bool_scan_after(CVL_XOR, true, f, 3, bools, 3), true, false, false);
    FAULT(cvl_int_scan_after(CVL_SUB, 0, a, 3, ints, 3), CVL_UNKNOWN_CALL, -1);
    FAULT(cvl_int_scan_after(CVL_ADD, 0, a, 3, ints, 2), CVL_LENGTH_MISMATCH, -1);
    FAULT(cvl_int_scan_after(CVL_ADD, 0, a, 3, ints, 4), CVL_LENGTH_MISMATCH, -1);
    FAULT(cvl_int_scan_after(CVL_ADD, 0, too_many_ints, many, ints, 2), CVL_TOO_LONG, -1);
    FAULT(cvl_int_scan_after(UINT32_MAX, 0, too_many_ints, many, ints, 2), CVL_UNKNOWN_CALL, -1);
    FAULT(cvl_bool_scan_after(CVL_MAX, false, f, 3, bools, 3), CVL_UNKNOWN_CALL, -1);
    FAULT(cvl_bool_scan_after(CVL_IOR, false, f, 3, bools, 2), CVL_LENGTH_MISMATCH, -1);
    FAULT(cvl_bool_scan_after(CVL_IOR, false, f, 3, bools, 4), CVL_LENGTH_MISMATCH, -1);
    FAULT(cvl_bool_scan_after(CVL_IOR, false, too_many_bools, many, bools, 4), CVL_TOO_LONG, -1);
}

static void parts_of_calls(void) {
    const int32_t *a = I(3, 1, 4);
    const size_t many = (size_t)CVL_MOST_ELEMENTS + 1;
    int64_t sum = UNTOUCHED;
    tells("cvl_exact_sum", cvl_exact_sum(too_many_ints, many, &sum), CVL_TOO_LONG, -1);
    if (sum != UNTOUCHED) fail("cvl_exact_sum", "the sum was written");
    tells("cvl_exact_sum", cvl_exact_sum(I(2147483647, 1, -3, 2147483647), 4, &sum), CVL_DONE, -1);
    if (sum != 4294967292) fail("cvl_exact_sum", "another sum");
    INTS(cvl_checked_scan_after(10, a, 3, ints, 3), 10, 13, 14);
    INTS(cvl_checked_scan_after(2147483643, a, 3, ints, 3), 2147483643, 2147483646, 2147483647);
    FAULT(cvl_checked_scan_after(2147483644, a, 3, ints, 3), CVL_OVERFLOW, 2);
    FAULT(cvl_checked_scan_after(-2147483649, a, 3, ints, 3), CVL_OVERFLOW, 0);
    FAULT(cvl_checked_scan_after(INT64_MAX, a, 3, ints, 3), CVL_OVERFLOW, 0);
    tells("cvl_checked_scan_after", cvl_checked_scan_after(INT64_MIN, a, 0, ints, 0), CVL_DONE, -1);
    FAULT(cvl_checked_scan_after(0, a, 3, ints, 2), CVL_LENGTH_MISMATCH, -1);
    FAULT(cvl_checked_scan_after(0, too_many_ints, many, ints, 2), CVL_TOO_LONG, -1);
}

static uint32_t marks[2];

/* The call told that so many places were written, and set these bits of the first word. */
static void marked(const char *call, uint32_t wanted, size_t written) {
    if (total != written) fail(call, "another number of places");
    if (marks[0] != wanted) fail(call, "other marks");
}

/* A range of 40 places has two words of marks, and its places 0, 31, 32 and 39 are written. */
static void marks_of_two_words(void) {
    static int32_t room[40];
    marks[0] = marks[1] = UINT32_MAX;
    tells(
        "cvl_permute_int_range",
        cvl_permute_int_range(I(1, 2, 3, 4, 5), 5, I(10, 41, 42, 49, 50), 5, 10, room, 40, marks, 2, &total), CVL_DONE, -1);
    marked("cvl_permute_int_range", 0x80000001, 4);
    if (marks[1] != 0x81) fail("cvl_permute_int_range", "other marks");
    if (room[0] != 1 || room[31] != 2 || room[32] != 3 || room[39] != 4) fail("cvl_permute_int_range", "other elements");
}

static void ranges_of_permutes(void) {
    const int32_t *source = I(5, 6, 7), *index = I(2, 0, 1), *twice = I(1, 9, 1), *some = I(1, 9, 0);
    const bool *p = B(true, false, true), *f = B(true, false, true);
    const size_t most = CVL_MOST_ELEMENTS;
    COUNTED_INTS(cvl_permute_int_range(source, 3, index, 3, 0, ints, 3, marks, 1, &total), 6, 7, 5);
    COUNTED_INTS(cvl_permute_int_range(source, 3, index, 3, 1, ints, 2, marks, 1, &total), 7, 5);
    /* of several elements that are sent to one place the last stays, and the place counts once; other places are as they were */
    INTS(cvl_permute_int_range(source, 3, twice, 3, 0, ints, 3, marks, 1, &total), UNTOUCHED, 7, UNTOUCHED);
    marked("cvl_permute_int_range", 2, 1);
    INTS(cvl_permute_int_range(source, 3, twice, 3, 1, ints, 1, marks, 1, &total), 7);
    marked("cvl_permute_int_range", 1, 1);
    INTS(cvl_permute_int_range(source, 3, I(-1, 3, INT32_MIN), 3, 1, ints, 2, marks, 1, &total), UNTOUCHED, UNTOUCHED);
    marked("cvl_permute_int_range", 0, 0);
    INTS(cvl_permute_int_range(source, 3, I(CVL_MOST_ELEMENTS - 1, 0, -1), 3, most - 1, ints, 1, marks, 1, &total), 5);
    marked("cvl_permute_int_range", 1, 1);
    COUNTED_BOOLS(cvl_permute_bool_range(p, 3, index, 3, 0, bools, 3, marks, 1, &total), false, true, true);
    BOOLS(cvl_permute_bool_range(p, 3, twice, 3, 0, bools, 3, marks, 1, &total), true, true, true);
    marked("cvl_permute_bool_range", 2, 1);
    BOOLS_OF_COPIES(1, cvl_permute_bool_range(O(2, 0, 2), 3, index, 3, 1, bools, 2, marks, 1, &total), true, true);
    COUNTED_INTS(cvl_select_permute_int_range(source, 3, some, 3, f, 3, 0, ints, 2, marks, 1, &total), 7, 5);
    COUNTED_INTS(cvl_select_permute_int_range(source, 3, some, 3, f, 3, 1, ints, 1, marks, 1, &total), 5);
    INTS_OF_COPIES(1, cvl_select_permute_int_range(source, 3, some, 3, O(2, 0, 9), 3, 0, ints, 1, marks, 1, &total), 7);
    COUNTED_BOOLS(cvl_select_permute_bool_range(p, 3, some, 3, f, 3, 0, bools, 2, marks, 1, &total), true, true);
    BOOLS_OF_COPIES(
        2, cvl_select_permute_bool_range(O(7, 0, 0), 3, some, 3, O(2, 0, 9), 3, 0, bools, 2, marks, 1, &total), false, true);
    FAULT(
        cvl_permute_int_range(too_many_ints, most + 1, too_many_ints, most + 1, 0, ints, 3, marks, 1, &total), CVL_TOO_LONG, -1);
    FAULT(cvl_permute_int_range(source, 2, index, 3, most, ints, 1, marks, 1, &total), CVL_TOO_LONG, -1);
    FAULT(cvl_permute_int_range(source, 3, index, 3, SIZE_MAX, ints, 1, marks, 1, &total), CVL_TOO_LONG, -1);
    FAULT(cvl_permute_int_range(source, 2, index, 3, 0, ints, 3, marks, 1, &total), CVL_LENGTH_MISMATCH, -1);
    FAULT(cvl_permute_int_range(source, 3, index, 3, 0, ints, 3, marks, 2, &total), CVL_LENGTH_MISMATCH, -1);
    FAULT(cvl_permute_bool_range(p, 3, index, 3, most - 1, bools, 2, marks, 1, &total), CVL_TOO_LONG, -1);
    FAULT(cvl_permute_bool_range(p, 3, index, 2, 0, bools, 3, marks, 1, &total), CVL_LENGTH_MISMATCH, -1);
    FAULT(cvl_select_permute_int_range(source, 3, some, 3, f, 2, 0, ints, 2, marks, 1, &total), CVL_LENGTH_MISMATCH, -1);
    FAULT(cvl_select_permute_int_range(source, 3, some, 3, f, 3, most, ints, 2, marks, 1, &total), CVL_TOO_LONG, -1);
    FAULT(cvl_select_permute_bool_range(p, 3, some, 3, f, 3, 0, bools, 2, marks, 0, &total), CVL_LENGTH_MISMATCH, -1);
    marks_of_two_words();
}

static void pieces_of_texts(void) {
    const size_t most = CVL_MOST_ELEMENTS;
    FRONT_INTS(cvl_read_ints_after(3, "9 10", 4, ints, ROOM, &total), 9, 10);
    TOO_SHORT(cvl_read_ints_after(most, " 9 10 11 ", 9, ints, 2, &total), 3);
    FAULT(cvl_read_ints_after(0, "9 x", 3, ints, ROOM, &total), CVL_BAD_INPUT, 1);
    FAULT(cvl_read_ints_after(3, "9 x", 3, ints, ROOM, &total), CVL_BAD_INPUT, 4);
    FAULT(cvl_read_ints_after(most, "x", 1, ints, ROOM, &total), CVL_BAD_INPUT, CVL_MOST_ELEMENTS);
    FAULT(cvl_read_ints_after(most + 1, "9", 1, ints, ROOM, &total), CVL_TOO_LONG, -1);
    FAULT(cvl_read_ints_after(SIZE_MAX, "x", 1, ints, ROOM, &total), CVL_TOO_LONG, -1);
}

static void checked_sums(void) {
    const int32_t *a = I(3, 1, 4, 1, 5), *lengths = I(2, 0, 3), *high = I(2147483647, 1, -1);
    const size_t many = (size_t)CVL_MOST_ELEMENTS + 1;
    INTS(tot_suz(I(3, 1, 4), ints, 3), 0, 3, 4);
    INTS(tot_ruz(high, 3, ints), 2147483647);
    INTS(tot_ruz(a, 0, ints), 0);
    INTS(tot_sez(a, S(lengths, 3), ints, 5), 0, 3, 0, 4, 5);
    INTS(tot_rez(a, 5, S(lengths, 3), ints), 4, 0, 10);
    FAULT(tot_suz(high, ints, 3), CVL_OVERFLOW, 2);
    FAULT(tot_ruz(high, 2, ints), CVL_OVERFLOW, 0);
    FAULT(tot_sez(I(1, 2147483647, 1, 1), S(I(1, 3), 2), ints, 4), CVL_OVERFLOW, 3);
    FAULT(tot_rez(I(1, 2147483647, 1, 1), 4, S(I(1, 3), 2), ints), CVL_OVERFLOW, 1);
    FAULT(tot_sez(a, S(lengths, 2), ints, 5), CVL_LENGTH_MISMATCH, -1);
    FAULT(tot_rez(a, 5, S(I(5, -1), 2), ints), CVL_NEGATIVE_LENGTH, 1);
    FAULT(cvl_checked_scan(a, 5, ints, 4), CVL_LENGTH_MISMATCH, -1);
    FAULT(cvl_checked_scan(too_many_ints, many, ints, 4), CVL_TOO_LONG, -1);
    FAULT(cvl_checked_reduce(too_many_ints, many, ints), CVL_TOO_LONG, -1);
    FAULT(cvl_seg_checked_reduce(a, 5, S(lengths, 3), ints, 2), CVL_LENGTH_MISMATCH, -1);
}

/* Whatever an export answers that it may find before it looks at all lengths, their faults come first. A shared object shows no exports. */
static void late_faults(void) {
#ifndef OVER_SHARED
    static const uint32_t late[] = {
        CVL_DIVIDE_BY_ZERO, CVL_SHIFT_OUT_OF_RANGE, CVL_INDEX_OUT_OF_RANGE, CVL_INDEX_REPEATED, CVL_OVERFLOW, CVL_NO_RESOURCES,
    };
    for (size_t k = 0; k < sizeof late / sizeof *late; k++) {
        answered = late[k];
        FAULT(cvl_seg_checked_reduce(I(1, 2, 3), 3, S(I(2, -1, 2), 3), ints, 3), CVL_NEGATIVE_LENGTH, 1);
        FAULT(cvl_seg_checked_reduce(I(1, 2, 3), 3, S(I(2, 0, 2), 3), ints, 3), CVL_LENGTH_MISMATCH, -1);
        FAULT(cvl_seg_checked_reduce(I(1, 2, 3), 3, S(I(2, 0, 1), 3), ints, 3), late[k], 2);
    }
    answered = CVL_DONE;
#endif
}

static void sparse_products(void) {
    const int32_t *lengths = I(2, 0, 2), *columns = I(0, 2, 1, 2), *values = I(2, 1, 3, 4), *x = I(1, 2, 3);
    INTS(cvl_sparse_product(S(lengths, 3), columns, 4, values, 4, x, 3, ints, 3), 5, 0, 18);
    INTS(cvl_checked_sparse_product(S(lengths, 3), columns, 4, values, 4, x, 3, ints, 3), 5, 0, 18);
    INTS(cvl_sparse_product(S(I(2), 1), I(0, 0), 2, I(2147483647, 1), 2, I(1), 1, ints, 1), INT32_MIN);
    FAULT(cvl_checked_sparse_product(S(I(2), 1), I(0, 0), 2, I(2147483647, 1), 2, I(1), 1, ints, 1), CVL_OVERFLOW, 0);
    /* what adds up to more than 64 bits on the way, and to less than 32 in the end */
    INTS(
        cvl_checked_sparse_product(
            S(I(6), 1), I(0, 0, 1, 1, 0, 2), 6, I(INT32_MIN, INT32_MIN, INT32_MIN, INT32_MIN, 2, 7), 6,
            I(INT32_MIN, INT32_MAX, 1), 3, ints, 1),
        7);
    FAULT(cvl_sparse_product(S(I(2), 1), I(0, 3), 2, I(1, 1), 2, x, 3, ints, 1), CVL_INDEX_OUT_OF_RANGE, 1);
    FAULT(cvl_sparse_product(S(I(-1), 1), columns, 0, values, 0, x, 3, ints, 1), CVL_NEGATIVE_LENGTH, 0);
    FAULT(cvl_sparse_product(S(lengths, 3), columns, 4, values, 3, x, 3, ints, 3), CVL_LENGTH_MISMATCH, -1);
    FAULT(cvl_sparse_product(S(lengths, 3), columns, 3, values, 3, x, 3, ints, 3), CVL_LENGTH_MISMATCH, -1);
    FAULT(cvl_sparse_product(S(lengths, 3), columns, 4, values, 4, x, 3, ints, 2), CVL_LENGTH_MISMATCH, -1);
    FAULT(
        cvl_sparse_product(S(lengths, 3), too_many_ints, (size_t)CVL_MOST_ELEMENTS + 1, values, 4, x, 3, ints, 3), CVL_TOO_LONG,
        -1);
}

static void sparse_products_by_offsets(void) {
    const int32_t *offsets = I(0, 2, 2, 4), *columns = I(0, 2, 1, 2), *values = I(2, 1, 3, 4), *x = I(1, 2, 3);
    INTS(cvl_sparse_product_by_offsets(offsets, 4, columns, 4, values, 4, x, 3, ints, 3), 5, 0, 18);
    INTS(cvl_checked_sparse_product_by_offsets(offsets, 4, columns, 4, values, 4, x, 3, ints, 3), 5, 0, 18);
    INTS(cvl_sparse_product_by_offsets(I(0, 2), 2, I(0, 0), 2, I(2147483647, 1), 2, I(1), 1, ints, 1), INT32_MIN);
    FAULT(
        cvl_checked_sparse_product_by_offsets(I(0, 0, 2), 3, I(0, 0), 2, I(2147483647, 1), 2, I(1), 1, ints, 2), CVL_OVERFLOW, 1);
    FAULT(cvl_sparse_product_by_offsets(I(0), 1, columns, 0, values, 0, x, 3, ints, 0), CVL_DONE, -1);
    FAULT(cvl_sparse_product_by_offsets(offsets, 0, columns, 0, values, 0, x, 3, ints, 0), CVL_LENGTH_MISMATCH, -1);
    FAULT(cvl_sparse_product_by_offsets(I(1, 0, 4), 3, columns, 4, values, 4, x, 3, ints, 2), CVL_LENGTH_MISMATCH, -1);
    FAULT(cvl_sparse_product_by_offsets(I(0, 3, 2, 4), 4, columns, 4, values, 4, x, 3, ints, 3), CVL_NEGATIVE_LENGTH, 1);
    /* what is told of offsets comes before what does not agree, and both before columns */
    FAULT(cvl_sparse_product_by_offsets(I(0, 3, 2, 4), 4, columns, 4, values, 3, x, 3, ints, 1), CVL_NEGATIVE_LENGTH, 1);
    FAULT(cvl_sparse_product_by_offsets(I(0, 2, 3), 3, I(0, 9, 1, 2), 4, values, 4, x, 3, ints, 2), CVL_LENGTH_MISMATCH, -1);
    FAULT(cvl_sparse_product_by_offsets(offsets, 4, columns, 4, values, 4, x, 3, ints, 4), CVL_LENGTH_MISMATCH, -1);
    FAULT(cvl_sparse_product_by_offsets(offsets, 4, columns, 4, values, 4, x, 2, ints, 3), CVL_INDEX_OUT_OF_RANGE, 1);
    FAULT(
        cvl_sparse_product_by_offsets(too_many_ints, (size_t)CVL_MOST_ELEMENTS + 2, columns, 4, values, 4, x, 3, ints, 3),
        CVL_TOO_LONG, -1);
    FAULT(
        cvl_sparse_product_by_offsets(offsets, 4, too_many_ints, (size_t)CVL_MOST_ELEMENTS + 1, values, 4, x, 3, ints, 3),
        CVL_TOO_LONG, -1);
}

static void elements(void) {
    const bool *f = B(true, true, true);
    INTS(cnt_lub(B(false, true, true, false, true), 5, ints), 3);
    INTS(ext_vuz(I(4, 5, 6), 3, 2, ints), 6);
    BOOLS(ext_vub(B(false, true, true), 3, 0, bools), false);
    INTS(rep_vuz(I(1, 2, 3), 1, 9, ints, 3), 1, 9, 3);
    BOOLS(rep_vub(f, 2, false, bools, 3), true, true, false);
    INTS(dis_vuz(7, 3, ints), 7, 7, 7);
    INTS(dis_vuz(INT32_MIN, 1, ints), INT32_MIN);
    BOOLS(dis_vub(false, 2, bools), false, false);
    INTS(ind_luz(10, -2, 3, ints), 10, 8, 6);
    INTS(ind_luz(2147483647, 1, 2, ints), 2147483647, INT32_MIN);
    FAULT(cnt_lub(too_many_bools, (size_t)CVL_MOST_ELEMENTS + 1, ints), CVL_TOO_LONG, -1);
    FAULT(ext_vuz(I(4, 5, 6), 3, 3, ints), CVL_INDEX_OUT_OF_RANGE, 0);
    FAULT(ext_vuz(I(4, 5, 6), 3, -1, ints), CVL_INDEX_OUT_OF_RANGE, 0);
    FAULT(ext_vub(f, 0, 0, bools), CVL_INDEX_OUT_OF_RANGE, 0);
    FAULT(rep_vuz(I(1, 2, 3), 3, 9, ints, 3), CVL_INDEX_OUT_OF_RANGE, 0);
    FAULT(rep_vub(f, -1, false, bools, 3), CVL_INDEX_OUT_OF_RANGE, 0);
    FAULT(dis_vuz(7, -1, ints), CVL_NEGATIVE_LENGTH, -1);
    FAULT(dis_vub(false, (int64_t)CVL_MOST_ELEMENTS + 1, bools), CVL_TOO_LONG, -1);
    FAULT(ind_luz(0, 1, INT32_MIN, ints), CVL_NEGATIVE_LENGTH, -1);
    FAULT(ind_luz(0, 1, (int64_t)CVL_MOST_ELEMENTS + 1, ints), CVL_TOO_LONG, -1);
    FAULT(cvl_replace_int(I(1, 2, 3), 3, 1, 9, ints, 4), CVL_LENGTH_MISMATCH, -1);
    FAULT(cvl_replace_bool(f, 3, 1, false, bools, 2), CVL_LENGTH_MISMATCH, -1);
    FAULT(cvl_distribute_int(7, 3, ints, 2), CVL_LENGTH_MISMATCH, -1);
    FAULT(cvl_distribute_bool(false, 3, bools, 2), CVL_LENGTH_MISMATCH, -1);
    FAULT(cvl_index(0, 1, 3, ints, 4), CVL_LENGTH_MISMATCH, -1);
}

static void descriptors(void) {
    const int32_t *lengths = I(2, 0, 3);
    reset();
    tells("mke_fov", mke_fov(S(lengths, 3), &total), CVL_DONE, -1);
    if (total != 5) fail("mke_fov", "another total");
    NO_MEMORY(mke_fov(S(lengths, 3), &total));
    FAULT(mke_fov(S(I(2, -1, -2), 3), &total), CVL_NEGATIVE_LENGTH, 1);
    FAULT(mke_fov(S(I(CVL_MOST_ELEMENTS, 1), 2), &total), CVL_TOO_LONG, -1);
    FAULT(mke_fov(S(too_many_ints, (size_t)CVL_MOST_ELEMENTS + 1), &total), CVL_TOO_LONG, -1);
}

static void segments(void) {
    const int32_t *five = I(1, 2, 3, 4, 5), *lengths = I(2, 0, 3), *full = I(2, 3);
    const bool *flags = B(false, true, true);
    INTS(ext_vez(five, 5, I(1, 2), S(full, 2), ints), 2, 5);
    BOOLS(ext_veb(flags, 3, I(0, 1), S(I(1, 2), 2), bools), false, true);
    INTS(rep_vez(five, I(0, 1), I(8, 9), S(full, 2), ints, 5), 8, 2, 3, 9, 5);
    BOOLS(rep_veb(flags, I(0, 1), B(true, false), S(I(1, 2), 2), bools, 3), true, true, false);
    INTS(dis_vez(I(7, 8, 9), S(lengths, 3), ints, 5), 7, 7, 9, 9, 9);
    BOOLS(dis_veb(B(false, true), S(I(1, 2), 2), bools, 3), false, true, true);
    INTS(ind_lez(I(0, 5, 10), I(1, 1, -2), S(lengths, 3), ints, 5), 0, 1, 10, 8, 6);
    FAULT(ext_vez(five, 4, I(1, 2), S(full, 2), ints), CVL_LENGTH_MISMATCH, -1);
    FAULT(ext_vez(five, 5, I(1, 0, 2), S(lengths, 3), ints), CVL_INDEX_OUT_OF_RANGE, 1);
    FAULT(ext_veb(flags, 3, I(0, -1), S(I(1, 2), 2), bools), CVL_INDEX_OUT_OF_RANGE, 1);
    FAULT(cvl_seg_extract_int(five, 5, I(1, 2), 1, S(full, 2), ints, 2), CVL_LENGTH_MISMATCH, -1);
    FAULT(cvl_seg_extract_bool(flags, 3, I(0, 1), 2, S(I(1, 2), 2), bools, 3), CVL_LENGTH_MISMATCH, -1);
    FAULT(rep_vez(five, I(2, 0), I(8, 9), S(full, 2), ints, 5), CVL_INDEX_OUT_OF_RANGE, 0);
    FAULT(rep_veb(flags, I(0, 1), B(true, false), S(I(1, -2), 2), bools, 3), CVL_NEGATIVE_LENGTH, 1);
    FAULT(cvl_seg_replace_int(five, 5, I(0, 1), 2, I(8, 9), 1, S(full, 2), ints, 5), CVL_LENGTH_MISMATCH, -1);
    FAULT(cvl_seg_replace_bool(flags, 3, I(0, 1), 2, flags, 2, S(I(1, 2), 2), bools, 4), CVL_LENGTH_MISMATCH, -1);
    FAULT(dis_vez(I(7, 8, 9), S(lengths, 3), ints, 4), CVL_LENGTH_MISMATCH, -1);
    FAULT(dis_veb(flags, S(I(1, -1, 0), 3), bools, 2), CVL_NEGATIVE_LENGTH, 1);
    FAULT(cvl_seg_distribute_int(I(7, 8, 9), 2, S(lengths, 3), ints, 5), CVL_LENGTH_MISMATCH, -1);
    FAULT(cvl_seg_distribute_bool(flags, 3, S(full, 2), bools, 5), CVL_LENGTH_MISMATCH, -1);
    FAULT(ind_lez(I(0, 5, 10), I(1, 1, -2), S(I(2, 0, -3), 3), ints, 5), CVL_NEGATIVE_LENGTH, 2);
    FAULT(cvl_seg_index(I(0, 5), 2, I(1), 1, S(full, 2), ints, 5), CVL_LENGTH_MISMATCH, -1);
    FAULT(cvl_seg_index(I(0, 5), 2, I(1, 1), 2, S(full, 2), ints, 6), CVL_LENGTH_MISMATCH, -1);
}

static void segmented_scans(void) {
    const int32_t *a = I(3, 1, 4, 1, 5), *b = I(3, 1, 4, 4, 5), *lengths = I(2, 0, 3);
    const bool *f = B(true, false, true, false, true), *g = B(true, true, true, true, true);
    INTS(add_sez(a, S(lengths, 3), ints, 5), 0, 3, 0, 4, 5);
    INTS(mul_sez(a, S(lengths, 3), ints, 5), 1, 3, 1, 4, 4);
    INTS(min_sez(a, S(lengths, 3), ints, 5), 2147483647, 3, 2147483647, 4, 1);
    INTS(max_sez(a, S(lengths, 3), ints, 5), INT32_MIN, 3, INT32_MIN, 4, 4);
    INTS(and_sez(a, S(lengths, 3), ints, 5), -1, 3, -1, 4, 0);
    INTS(ior_sez(b, S(lengths, 3), ints, 5), 0, 3, 0, 4, 4);
    INTS(xor_sez(b, S(lengths, 3), ints, 5), 0, 3, 0, 4, 0);
    INTS(add_sez(I(2147483647, 1, 1), S(I(3), 1), ints, 3), 0, 2147483647, INT32_MIN);
    INTS(add_rez(a, 5, S(lengths, 3), ints), 4, 0, 10);
    INTS(mul_rez(a, 5, S(lengths, 3), ints), 3, 1, 20);
    INTS(min_rez(a, 5, S(lengths, 3), ints), 1, 2147483647, 1);
    INTS(max_rez(a, 5, S(lengths, 3), ints), 3, INT32_MIN, 5);
    INTS(and_rez(a, 5, S(lengths, 3), ints), 1, -1, 0);
    INTS(ior_rez(a, 5, S(lengths, 3), ints), 3, 0, 5);
    INTS(xor_rez(a, 5, S(lengths, 3), ints), 2, 0, 0);
    BOOLS(and_seb(f, S(lengths, 3), bools, 5), true, true, true, true, false);
    BOOLS(ior_seb(g, S(lengths, 3), bools, 5), false, true, false, true, true);
    BOOLS(xor_seb(g, S(lengths, 3), bools, 5), false, true, false, true, false);
    BOOLS(and_reb(f, 5, S(lengths, 3), bools), false, true, false);
    BOOLS(ior_reb(f, 5, S(lengths, 3), bools), true, false, true);
    BOOLS(xor_reb(f, 5, S(lengths, 3), bools), true, false, false);
    FAULT(add_sez(a, S(lengths, 2), ints, 5), CVL_LENGTH_MISMATCH, -1);
    FAULT(add_rez(a, 4, S(lengths, 3), ints), CVL_LENGTH_MISMATCH, -1);
    FAULT(and_seb(f, S(lengths, 3), bools, 4), CVL_LENGTH_MISMATCH, -1);
    FAULT(and_reb(f, 0, S(lengths, 3), bools), CVL_LENGTH_MISMATCH, -1);
}

static void segmented_scan_faults(void) {
    const int32_t *a = I(3, 1, 4, 1, 5), *lengths = I(2, 0, 3), *below = I(5, -1, -2), *above = I(CVL_MOST_ELEMENTS, 1);
    const bool *f = B(true, false, true, false, true);
    const size_t many = (size_t)CVL_MOST_ELEMENTS + 1;
    FAULT(cvl_seg_int_scan(CVL_SUB, a, 5, S(below, 3), ints, 5), CVL_UNKNOWN_CALL, -1);
    FAULT(cvl_seg_int_scan(CVL_ADD, a, 5, S(too_many_ints, many), ints, 5), CVL_TOO_LONG, -1);
    FAULT(cvl_seg_int_scan(CVL_ADD, a, 5, S(below, 3), ints, 4), CVL_NEGATIVE_LENGTH, 1);
    FAULT(cvl_seg_int_scan(CVL_ADD, a, 5, S(above, 2), ints, 5), CVL_TOO_LONG, -1);
    FAULT(cvl_seg_int_scan(CVL_ADD, too_many_ints, many, S(lengths, 3), ints, 5), CVL_LENGTH_MISMATCH, -1);
    FAULT(cvl_seg_int_scan(CVL_ADD, a, 5, S(lengths, 3), ints, 4), CVL_LENGTH_MISMATCH, -1);
    FAULT(cvl_seg_int_scan(CVL_ADD, a, 5, S(lengths, 3), ints, 6), CVL_LENGTH_MISMATCH, -1);
    FAULT(cvl_seg_int_reduce(CVL_RSH, a, 5, S(below, 3), ints, 3), CVL_UNKNOWN_CALL, -1);
    FAULT(cvl_seg_int_reduce(CVL_ADD, a, 5, S(too_many_ints, many), ints, 3), CVL_TOO_LONG, -1);
    FAULT(cvl_seg_int_reduce(CVL_ADD, a, 5, S(below, 3), ints, 3), CVL_NEGATIVE_LENGTH, 1);
    FAULT(cvl_seg_int_reduce(CVL_ADD, a, 5, S(above, 2), ints, 2), CVL_TOO_LONG, -1);
    FAULT(cvl_seg_int_reduce(CVL_ADD, a, 5, S(lengths, 3), ints, 2), CVL_LENGTH_MISMATCH, -1);
    FAULT(cvl_seg_int_reduce(CVL_ADD, a, 5, S(lengths, 3), ints, 5), CVL_LENGTH_MISMATCH, -1);
    FAULT(cvl_seg_bool_scan(CVL_MAX, f, 5, S(below, 3), bools, 5), CVL_UNKNOWN_CALL, -1);
    FAULT(cvl_seg_bool_scan(CVL_AND, f, 5, S(too_many_ints, many), bools, 5), CVL_TOO_LONG, -1);
    FAULT(cvl_seg_bool_scan(CVL_AND, f, 5, S(below, 3), bools, 5), CVL_NEGATIVE_LENGTH, 1);
    FAULT(cvl_seg_bool_scan(CVL_AND, f, 5, S(above, 2), bools, 5), CVL_TOO_LONG, -1);
    FAULT(cvl_seg_bool_scan(CVL_AND, f, 5, S(lengths, 3), bools, 4), CVL_LENGTH_MISMATCH, -1);
    FAULT(cvl_seg_bool_scan(CVL_AND, f, 5, S(lengths, 3), bools, 6), CVL_LENGTH_MISMATCH, -1);
    FAULT(cvl_seg_bool_reduce(CVL_SUB, f, 5, S(below, 3), bools, 3), CVL_UNKNOWN_CALL, -1);
    FAULT(cvl_seg_bool_reduce(CVL_AND, f, 5, S(too_many_ints, many), bools, 3), CVL_TOO_LONG, -1);
    FAULT(cvl_seg_bool_reduce(CVL_AND, f, 5, S(below, 3), bools, 3), CVL_NEGATIVE_LENGTH, 1);
    FAULT(cvl_seg_bool_reduce(CVL_AND, f, 5, S(above, 2), bools, 2), CVL_TOO_LONG, -1);
    FAULT(cvl_seg_bool_reduce(CVL_AND, f, 5, S(lengths, 3), bools, 2), CVL_LENGTH_MISMATCH, -1);
    FAULT(cvl_seg_bool_reduce(CVL_AND, f, 5, S(lengths, 3), bools, 4), CVL_LENGTH_MISMATCH, -1);
}

static void packs(void) {
    const int32_t *values = I(1, 2, 3, 4, 5), *lengths = I(2, 0, 3);
    const bool *flags = B(false, true, true, false, true), *none = B(false, false, false);
    COUNTED_INTS(pck_luz(values, flags, 5, ints, ROOM, &total), 2, 3, 5);
    COUNTED_INTS(pck_luz(values, flags, 5, ints, 3, &total), 2, 3, 5);
    COUNTED_INTS(pck_luz(I(INT32_MIN), B(true), 1, ints, 1, &total), INT32_MIN);
    COUNTED_BOOLS(pck_lub(flags, flags, 5, bools, 3, &total), true, true, true);
    COUNTED_BOOLS(pck_lub(B(true, false, true), B(false, true, true), 3, bools, ROOM, &total), false, true);
    COUNTED_INTS(pck_lez(values, flags, 5, S(lengths, 3), ints, 3, &total), 2, 3, 5);
    COUNTED_INTS(pck_lez(values, flags, 5, S(lengths, 3), ints, 4, &total), 2, 3, 5);
    COUNTED_BOOLS(pck_leb(B(true, false, true), B(false, true, true), 3, S(I(1, 2), 2), bools, 2, &total), false, true);
    COUNTED_BOOLS(pck_leb(flags, flags, 5, S(lengths, 3), bools, ROOM, &total), true, true, true);
    reset();
    counts("pck_luz of no true flag", pck_luz(values, none, 3, ints, 0, &total), CVL_DONE, 0);
    leaves("pck_luz of no true flag", 0, 0);
    reset();
    counts("pck_leb of no segment", pck_leb(none, none, 0, S(lengths, 0), bools, 1, &total), CVL_DONE, 0);
    leaves("pck_leb of no segment", 0, 0);
    INTS(pck_fov(flags, 5, S(lengths, 3), ints), 1, 0, 2);
    INTS(cnt_leb(B(false, false, true, false, true), 5, S(lengths, 3), ints), 0, 0, 2);
}

static void pack_faults(void) {
    const int32_t *values = I(1, 2, 3, 4, 5), *lengths = I(2, 0, 3), *below = I(5, -1, -2), *above = I(CVL_MOST_ELEMENTS, 1);
    const bool *flags = B(false, true, true, false, true);
    const size_t many = (size_t)CVL_MOST_ELEMENTS + 1;
    TOO_SHORT(pck_luz(values, flags, 5, ints, 2, &total), 3);
    TOO_SHORT(pck_luz(values, flags, 5, ints, 0, &total), 3);
    TOO_SHORT(pck_lub(flags, flags, 5, bools, 2, &total), 3);
    TOO_SHORT(pck_lez(values, flags, 5, S(lengths, 3), ints, 0, &total), 3);
    TOO_SHORT(pck_leb(flags, flags, 5, S(lengths, 3), bools, 2, &total), 3);
    FAULT(cvl_pack_int(values, 5, flags, 4, ints, 0, &total), CVL_LENGTH_MISMATCH, -1);
    FAULT(cvl_pack_int(values, 4, flags, 5, ints, ROOM, &total), CVL_LENGTH_MISMATCH, -1);
    FAULT(cvl_pack_int(values, 5, too_many_bools, many, ints, ROOM, &total), CVL_TOO_LONG, -1);
    FAULT(cvl_pack_int(too_many_ints, many, flags, 5, ints, ROOM, &total), CVL_LENGTH_MISMATCH, -1);
    FAULT(cvl_pack_bool(flags, 5, flags, 4, bools, ROOM, &total), CVL_LENGTH_MISMATCH, -1);
    FAULT(cvl_pack_bool(too_many_bools, many, too_many_bools, many, bools, ROOM, &total), CVL_TOO_LONG, -1);
    FAULT(cvl_seg_pack_int(values, 4, flags, 5, S(lengths, 3), ints, ROOM, &total), CVL_LENGTH_MISMATCH, -1);
    FAULT(cvl_seg_pack_int(values, 5, flags, 4, S(lengths, 3), ints, ROOM, &total), CVL_LENGTH_MISMATCH, -1);
    FAULT(cvl_seg_pack_int(values, 4, flags, 4, S(below, 3), ints, ROOM, &total), CVL_NEGATIVE_LENGTH, 1);
    FAULT(cvl_seg_pack_int(values, 5, flags, 5, S(above, 2), ints, ROOM, &total), CVL_TOO_LONG, -1);
    FAULT(cvl_seg_pack_int(values, 5, flags, 5, S(too_many_ints, many), ints, ROOM, &total), CVL_TOO_LONG, -1);
    FAULT(cvl_seg_pack_int(values, 5, flags, 5, S(lengths, 2), ints, ROOM, &total), CVL_LENGTH_MISMATCH, -1);
    FAULT(cvl_seg_pack_bool(flags, 5, flags, 5, S(lengths, 2), bools, ROOM, &total), CVL_LENGTH_MISMATCH, -1);
    FAULT(cvl_seg_pack_bool(flags, 5, flags, 5, S(below, 3), bools, ROOM, &total), CVL_NEGATIVE_LENGTH, 1);
    FAULT(cvl_seg_packed_lengths(flags, 5, S(lengths, 3), ints, 2), CVL_LENGTH_MISMATCH, -1);
    FAULT(cvl_seg_packed_lengths(flags, 5, S(lengths, 3), ints, 4), CVL_LENGTH_MISMATCH, -1);
    FAULT(cvl_seg_packed_lengths(flags, 4, S(lengths, 3), ints, 3), CVL_LENGTH_MISMATCH, -1);
    FAULT(cvl_seg_packed_lengths(flags, 5, S(below, 3), ints, 3), CVL_NEGATIVE_LENGTH, 1);
    FAULT(cvl_seg_packed_lengths(flags, 5, S(above, 2), ints, 2), CVL_TOO_LONG, -1);
    FAULT(cvl_seg_count(flags, 5, S(lengths, 3), ints, 5), CVL_LENGTH_MISMATCH, -1);
    FAULT(cvl_seg_count(flags, 5, S(lengths, 2), ints, 2), CVL_LENGTH_MISMATCH, -1);
    FAULT(cvl_seg_count(flags, 5, S(below, 3), ints, 3), CVL_NEGATIVE_LENGTH, 1);
    FAULT(cvl_seg_count(flags, 5, S(too_many_ints, many), ints, 3), CVL_TOO_LONG, -1);
}

static void permutes(void) {
    const int32_t *three = I(10, 20, 30), *turn = I(2, 0, 1), *ends = I(-1, 3, 0);
    const bool *f = B(true, false, false), *flags = B(true, false, true, false);
    INTS(smp_puz(three, turn, ints, 3), 20, 30, 10);
    BOOLS(smp_pub(f, turn, bools, 3), false, false, true);
    INTS(sel_puz(I(1, 2, 3, 4), I(1, 9, 0, 9), flags, 4, ints, 2), 3, 1);
    BOOLS(sel_pub(B(true, true, false, true), I(1, 9, 0, 9), flags, 4, bools, 2), false, true);
    INTS(def_puz(I(7, 8), I(3, 1), 2, I(0, 0, 0, 0, 0), ints, 5), 0, 8, 0, 7, 0);
    BOOLS(def_pub(B(true, false), I(3, 1), 2, B(false, true, true, false), bools, 4), false, false, true, true);
    INTS(bck_puz(three, 3, I(2, 2, 0, 0), ints, 4), 30, 30, 10, 10);
    BOOLS(bck_pub(f, 3, I(2, 2, 0, 0), bools, 4), false, false, true, true);
    INTS(smp_puz(I(INT32_MIN), I(0), ints, 1), INT32_MIN);
    FAULT(smp_puz(three, ends, ints, 3), CVL_INDEX_OUT_OF_RANGE, 0);
    FAULT(smp_puz(three, I(2, 3, 2), ints, 3), CVL_INDEX_OUT_OF_RANGE, 1);
    FAULT(smp_puz(three, I(1, 1, 3), ints, 3), CVL_INDEX_REPEATED, 1);
    FAULT(smp_pub(f, I(0, 2, 0), bools, 3), CVL_INDEX_REPEATED, 2);
    FAULT(smp_pub(f, I(0, 1, INT32_MIN), bools, 3), CVL_INDEX_OUT_OF_RANGE, 2);
    FAULT(sel_puz(three, I(0, 9, 2), B(true, false, true), 3, ints, 2), CVL_INDEX_OUT_OF_RANGE, 2);
    FAULT(sel_puz(three, I(1, 1, 1), B(true, false, true), 3, ints, 2), CVL_INDEX_REPEATED, 2);
    FAULT(sel_pub(f, I(-1, 9, 0), B(true, false, false), 3, bools, 1), CVL_INDEX_OUT_OF_RANGE, 0);
    FAULT(sel_pub(f, I(0, 0, 0), B(true, true, false), 3, bools, 2), CVL_INDEX_REPEATED, 1);
    FAULT(def_puz(three, I(4, 3, 5), 3, I(0, 0, 0, 0, 0), ints, 5), CVL_INDEX_OUT_OF_RANGE, 2);
    FAULT(def_puz(three, I(4, 4, 5), 3, I(0, 0, 0, 0, 0), ints, 5), CVL_INDEX_REPEATED, 1);
    FAULT(def_pub(f, I(0, 1, 2), 3, flags, bools, 0), CVL_INDEX_OUT_OF_RANGE, 0);
    FAULT(def_pub(f, I(0, 3, 3), 3, flags, bools, 4), CVL_INDEX_REPEATED, 2);
    FAULT(bck_puz(three, 3, I(2, 3, -1), ints, 3), CVL_INDEX_OUT_OF_RANGE, 1);
    FAULT(bck_pub(f, 0, I(0), bools, 1), CVL_INDEX_OUT_OF_RANGE, 0);
}

static void permutes_of_wrong_lengths(void) {
    const int32_t *three = I(10, 20, 30), *turn = I(2, 0, 1);
    const bool *f = B(true, true, false);
    const size_t many = (size_t)CVL_MOST_ELEMENTS + 1;
    FAULT(cvl_permute_int(three, 3, turn, 2, ints, 2), CVL_LENGTH_MISMATCH, -1);
    FAULT(cvl_permute_int(three, 3, turn, 3, ints, 4), CVL_LENGTH_MISMATCH, -1);
    FAULT(cvl_permute_bool(f, 2, turn, 3, bools, 3), CVL_LENGTH_MISMATCH, -1);
    FAULT(cvl_permute_bool(f, 3, turn, 3, bools, 2), CVL_LENGTH_MISMATCH, -1);
    FAULT(cvl_select_permute_int(three, 2, turn, 3, f, 3, ints, 2), CVL_LENGTH_MISMATCH, -1);
    FAULT(cvl_select_permute_int(three, 3, I(1, 0, 9), 3, f, 3, ints, 3), CVL_LENGTH_MISMATCH, -1);
    FAULT(cvl_select_permute_bool(f, 3, turn, 3, f, 2, bools, 2), CVL_LENGTH_MISMATCH, -1);
    FAULT(cvl_select_permute_bool(f, 3, I(1, 0, 9), 3, f, 3, bools, 1), CVL_LENGTH_MISMATCH, -1);
    FAULT(cvl_default_permute_int(three, 3, turn, 2, three, 3, ints, 3), CVL_LENGTH_MISMATCH, -1);
    FAULT(cvl_default_permute_int(three, 3, turn, 3, three, 3, ints, 4), CVL_LENGTH_MISMATCH, -1);
    FAULT(cvl_default_permute_bool(f, 2, turn, 3, f, 3, bools, 3), CVL_LENGTH_MISMATCH, -1);
    FAULT(cvl_default_permute_bool(f, 3, turn, 3, f, 3, bools, 2), CVL_LENGTH_MISMATCH, -1);
    FAULT(cvl_back_permute_int(three, 3, turn, 3, ints, 2), CVL_LENGTH_MISMATCH, -1);
    FAULT(cvl_back_permute_bool(f, 3, turn, 3, bools, 4), CVL_LENGTH_MISMATCH, -1);
    FAULT(cvl_permute_int(three, 3, too_many_ints, many, ints, 3), CVL_TOO_LONG, -1);
    FAULT(cvl_permute_bool(too_many_bools, many, too_many_ints, many, bools, 3), CVL_TOO_LONG, -1);
    FAULT(cvl_select_permute_int(three, 3, too_many_ints, many, f, 3, ints, 3), CVL_TOO_LONG, -1);
    FAULT(cvl_select_permute_bool(f, 3, too_many_ints, many, f, 3, bools, 3), CVL_TOO_LONG, -1);
    FAULT(cvl_default_permute_int(three, 3, too_many_ints, many, three, 3, ints, 3), CVL_TOO_LONG, -1);
    FAULT(cvl_default_permute_bool(f, 3, too_many_ints, many, f, 3, bools, 3), CVL_TOO_LONG, -1);
    FAULT(cvl_back_permute_int(three, 3, too_many_ints, many, ints, 3), CVL_TOO_LONG, -1);
    FAULT(cvl_back_permute_bool(f, 3, too_many_ints, many, bools, 3), CVL_TOO_LONG, -1);
    INTS(cvl_back_permute_int(too_many_ints, many, I(CVL_MOST_ELEMENTS), 1, ints, 1), 0);
}

static void permutes_of_segments(void) {
    const int32_t *five = I(1, 2, 3, 4, 5), *lengths = I(2, 0, 3), *turn = I(1, 0, 2, 0, 1), *some = I(9, 0, 1, 9, 0);
    const int32_t *to = I(2, 0, 0, 1, 2), *defaults = I(0, 0, 0, 9, 0, 0, 0), *widths = I(3, 1, 3), *from = I(1, 1, 1, 2);
    const bool *flags = B(false, true, true, false, true);
    INTS(smp_pez(five, turn, S(lengths, 3), ints, 5), 2, 1, 4, 5, 3);
    BOOLS(smp_peb(B(true, false, false, false, true), turn, S(lengths, 3), bools, 5), false, true, false, true, false);
    INTS(sel_pez(five, some, flags, 5, S(lengths, 3), ints, 3), 2, 5, 3);
    BOOLS(sel_peb(B(true, false, true, true, false), some, flags, 5, S(lengths, 3), bools, 3), false, false, true);
    INTS(def_pez(five, to, 5, defaults, S(lengths, 3), S(widths, 3), ints, 7), 2, 0, 1, 9, 3, 4, 5);
    BOOLS(
        def_peb(B(true, false), I(1, 0), 2, B(false, false, true, true), S(I(1, 1), 2), S(I(2, 2), 2), bools, 4), false, true,
        false, true);
    INTS(bck_pez(five, 5, from, S(lengths, 3), S(I(3, 0, 1), 3), ints, 4), 2, 2, 2, 5);
    BOOLS(
        bck_peb(B(true, false, false, false, true), 5, from, S(lengths, 3), S(I(3, 0, 1), 3), bools, 4), false, false, false,
        true);
    FAULT(smp_pez(five, I(1, 2, 2, 0, 1), S(lengths, 3), ints, 5), CVL_INDEX_OUT_OF_RANGE, 1);
    FAULT(smp_pez(five, I(1, 0, 2, 2, 3), S(lengths, 3), ints, 5), CVL_INDEX_REPEATED, 3);
    FAULT(smp_peb(flags, I(0, 0, 2, 2, 3), S(lengths, 3), bools, 5), CVL_INDEX_REPEATED, 1);
    FAULT(smp_peb(flags, I(1, 0, -1, 0, 0), S(lengths, 3), bools, 5), CVL_INDEX_OUT_OF_RANGE, 2);
    FAULT(sel_pez(five, I(9, 1, 1, 9, 0), flags, 5, S(lengths, 3), ints, 3), CVL_INDEX_OUT_OF_RANGE, 1);
    FAULT(sel_pez(five, I(9, 0, 1, 9, 1), flags, 5, S(lengths, 3), ints, 3), CVL_INDEX_REPEATED, 4);
    FAULT(sel_peb(flags, I(9, 0, 1, 9, 2), flags, 5, S(lengths, 3), bools, 3), CVL_INDEX_OUT_OF_RANGE, 4);
    FAULT(sel_peb(flags, I(9, 0, 0, 9, 0), flags, 5, S(lengths, 3), bools, 3), CVL_INDEX_REPEATED, 4);
    FAULT(def_pez(five, I(2, 3, 0, 1, 2), 5, defaults, S(lengths, 3), S(widths, 3), ints, 7), CVL_INDEX_OUT_OF_RANGE, 1);
    FAULT(def_pez(five, I(2, 0, 0, 1, 0), 5, defaults, S(lengths, 3), S(widths, 3), ints, 7), CVL_INDEX_REPEATED, 4);
    FAULT(def_peb(flags, I(0, 0), 2, flags, S(I(1, 1), 2), S(I(1, 0), 2), bools, 1), CVL_INDEX_OUT_OF_RANGE, 1);
    FAULT(def_peb(flags, I(0, 0), 2, flags, S(I(2, 0), 2), S(I(1, 0), 2), bools, 1), CVL_INDEX_REPEATED, 1);
    FAULT(bck_pez(five, 5, I(1, 2, 0, 0), S(lengths, 3), S(I(3, 0, 1), 3), ints, 4), CVL_INDEX_OUT_OF_RANGE, 1);
    FAULT(bck_peb(flags, 5, I(1, 0, 0, 0), S(lengths, 3), S(I(3, 1, 0), 3), bools, 4), CVL_INDEX_OUT_OF_RANGE, 3);
}

/* The range told that so many indices name a place of it. */
static void named(const char *call, size_t wanted) {
    if (total != wanted) fail(call, "another number of indices");
}

static void first_senders(void) {
    const int32_t *index = I(2, 0, 2, 3), *some = I(2, 0, 2, 9);
    const bool *f = B(false, true, true, false);
    const size_t many = (size_t)CVL_MOST_ELEMENTS + 1;
    INTS(cvl_first_senders(index, 4, ints, 4), 1, -1, 0, 3);
    INTS(cvl_first_senders(index, 4, ints, 6), 1, -1, 0, 3, -1, -1);
    INTS(cvl_first_senders(index, 0, ints, 2), -1, -1);
    INTS(cvl_select_first_senders(some, 4, f, 4, ints, 3), 1, -1, 2);
    INTS_OF_COPIES(1, cvl_select_first_senders(some, 4, O(0, 9, 2, 0), 4, ints, 3), 1, -1, 2);
    FAULT(cvl_first_senders(index, 4, ints, 3), CVL_INDEX_OUT_OF_RANGE, 3);
    FAULT(cvl_first_senders(I(0, -1, 9), 3, ints, 2), CVL_INDEX_OUT_OF_RANGE, 1);
    FAULT(cvl_first_senders(index, 1, ints, 0), CVL_INDEX_OUT_OF_RANGE, 0);
    FAULT(cvl_first_senders(too_many_ints, many, ints, 3), CVL_TOO_LONG, -1);
    FAULT(cvl_select_first_senders(some, 4, f, 4, ints, 2), CVL_INDEX_OUT_OF_RANGE, 2);
    FAULT(cvl_select_first_senders(some, 4, f, 3, ints, 3), CVL_LENGTH_MISMATCH, -1);
    FAULT(cvl_select_first_senders(too_many_ints, many, f, 3, ints, 3), CVL_TOO_LONG, -1);
    INTS(cvl_first_senders_range(index, 4, 1, ints, 2, &total), -1, 0);
    named("cvl_first_senders_range", 2);
    INTS(cvl_first_senders_range(I(INT32_MIN, INT32_MAX - 1), 2, CVL_MOST_ELEMENTS - 1, ints, 1, &total), 1);
    named("cvl_first_senders_range", 1);
    INTS(cvl_select_first_senders_range(some, 4, f, 4, 1, ints, 2, &total), -1, 2);
    named("cvl_select_first_senders_range", 1);
    FAULT(cvl_first_senders_range(index, 4, CVL_MOST_ELEMENTS, ints, 1, &total), CVL_TOO_LONG, -1);
    FAULT(cvl_select_first_senders_range(some, 4, f, 3, 0, ints, 1, &total), CVL_LENGTH_MISMATCH, -1);
}

static void first_senders_of_segments(void) {
    const int32_t *index = I(1, 1, 0, 3, 0), *some = I(1, 1, 9, 3, 0), *lengths = I(2, 0, 3), *widths = I(2, 1, 4);
    const bool *f = B(false, true, false, true, true);
    INTS(cvl_seg_first_senders(index, 5, S(lengths, 3), S(widths, 3), ints, 7), -1, 0, -1, 0, -1, -1, 1);
    INTS(cvl_seg_select_first_senders(some, 5, f, 5, S(lengths, 3), S(widths, 3), ints, 7), -1, 1, -1, 2, -1, -1, 1);
    INTS_OF_COPIES(
        1, cvl_seg_select_first_senders(some, 5, O(0, 9, 0, 2, 1), 5, S(lengths, 3), S(widths, 3), ints, 7), -1, 1, -1, 2, -1, -1,
        1);
    FAULT(cvl_seg_first_senders(index, 5, S(lengths, 3), S(I(2, 1, 3), 3), ints, 6), CVL_INDEX_OUT_OF_RANGE, 3);
    FAULT(cvl_seg_first_senders(I(1, 2, 0, 9, 0), 5, S(lengths, 3), S(widths, 3), ints, 7), CVL_INDEX_OUT_OF_RANGE, 1);
    FAULT(cvl_seg_first_senders(I(1, 2, 0, 9, 0), 5, S(lengths, 3), S(widths, 3), ints, 6), CVL_LENGTH_MISMATCH, -1);
    FAULT(cvl_seg_first_senders(index, 4, S(lengths, 3), S(widths, 3), ints, 7), CVL_LENGTH_MISMATCH, -1);
    FAULT(cvl_seg_first_senders(index, 5, S(lengths, 3), S(I(2, 5), 2), ints, 7), CVL_LENGTH_MISMATCH, -1);
    FAULT(cvl_seg_first_senders(index, 5, S(I(2, -1, 4), 3), S(I(-1, 4, 4), 3), ints, 7), CVL_NEGATIVE_LENGTH, 1);
    FAULT(cvl_seg_first_senders(index, 5, S(lengths, 3), S(I(2, 6, -1), 3), ints, 7), CVL_NEGATIVE_LENGTH, 2);
    FAULT(cvl_seg_select_first_senders(some, 5, f, 5, S(lengths, 3), S(I(1, 2, 4), 3), ints, 7), CVL_INDEX_OUT_OF_RANGE, 1);
    FAULT(cvl_seg_select_first_senders(some, 5, f, 4, S(lengths, 3), S(widths, 3), ints, 7), CVL_LENGTH_MISMATCH, -1);
}

/* The rooms hold 77 at each place before, or true at each other place. */
static void combining_permutes(void) {
    const int32_t *source = I(5, 6, 7, 8), *index = I(2, 0, 2, 1);
    const bool *f = B(true, true, true, false);
    const size_t many = (size_t)CVL_MOST_ELEMENTS + 1;
    INTS(cvl_combine_permute_int(CVL_ADD, source, 4, index, 4, ints, 3), 83, 85, 89);
    INTS(cvl_combine_permute_int(CVL_MUL, source, 4, index, 4, ints, 4), 462, 616, 2695, 77);
    INTS(cvl_combine_permute_int(CVL_MIN, source, 4, index, 4, ints, 3), 6, 8, 5);
    INTS(cvl_combine_permute_int(CVL_MAX, I(99, 6, 100, -8), 4, index, 4, ints, 3), 77, 77, 100);
    INTS(cvl_combine_permute_int(CVL_AND, source, 4, index, 4, ints, 3), 4, 8, 5);
    INTS(cvl_combine_permute_int(CVL_IOR, source, 4, index, 4, ints, 3), 79, 77, 79);
    INTS(cvl_combine_permute_int(CVL_XOR, source, 4, index, 4, ints, 3), 75, 69, 79);
    INTS(cvl_combine_permute_int(CVL_ADD, I(INT32_MAX, INT32_MAX), 2, I(0, 0), 2, ints, 1), 75);
    INTS(cvl_combine_permute_int(CVL_ADD, NULL, 0, NULL, 0, ints, 2), 77, 77);
    BOOLS(cvl_combine_permute_bool(CVL_XOR, f, 4, I(0, 1, 1, 2), 4, bools, 3), false, false, true);
    BOOLS(cvl_combine_permute_bool(CVL_AND, f, 4, index, 4, bools, 3), true, false, true);
    BOOLS_OF_COPIES(1, cvl_combine_permute_bool(CVL_IOR, O(0, 9, 2, 1), 4, I(0, 1, 1, 3), 4, bools, 4), true, true, true, true);
    INTS(cvl_counts(index, 4, ints, 4), 1, 1, 2, 0);
    INTS(cvl_counts(NULL, 0, ints, 2), 0, 0);
    FAULT(cvl_combine_permute_int(CVL_ADD, source, 4, index, 4, ints, 2), CVL_INDEX_OUT_OF_RANGE, 0);
    FAULT(cvl_combine_permute_int(CVL_ADD, source, 4, I(0, -1, 9, 0), 4, ints, 3), CVL_INDEX_OUT_OF_RANGE, 1);
    FAULT(cvl_combine_permute_int(CVL_ADD, source, 1, index, 1, NULL, 0), CVL_INDEX_OUT_OF_RANGE, 0);
    FAULT(cvl_combine_permute_int(CVL_ADD, source, 3, I(0, 9, 0, 0), 4, ints, 3), CVL_LENGTH_MISMATCH, -1);
    FAULT(cvl_combine_permute_int(CVL_SUB, source, 4, index, 3, ints, 3), CVL_UNKNOWN_CALL, -1);
    FAULT(cvl_combine_permute_bool(CVL_ADD, f, 4, index, 4, bools, 3), CVL_UNKNOWN_CALL, -1);
    FAULT(cvl_combine_permute_int(CVL_ADD, source, 4, too_many_ints, many, ints, 3), CVL_TOO_LONG, -1);
    FAULT(cvl_combine_permute_int(CVL_ADD, source, 4, index, 3, too_many_ints, many), CVL_TOO_LONG, -1);
    FAULT(cvl_combine_permute_bool(CVL_IOR, f, 4, I(0, 0, 3, 0), 4, bools, 3), CVL_INDEX_OUT_OF_RANGE, 2);
    FAULT(cvl_combine_permute_int(CVL_ADD, source, 4, index, 4, (int32_t *)(uintptr_t)(source + 1), 3), CVL_OVERLAP, -1);
    FAULT(cvl_counts(index, 4, ints, 2), CVL_INDEX_OUT_OF_RANGE, 0);
    FAULT(cvl_counts(too_many_ints, many, ints, 3), CVL_TOO_LONG, -1);
    FAULT(cvl_counts(index, 4, too_many_ints, many), CVL_TOO_LONG, -1);
}

/* Booleans that stand in the room and are neither 0 nor 1 are true, and become 1; at a fault and without memory they stay. */
static void combining_permutes_over_odd_booleans(void) {
    static const unsigned char before[] = {2, 0, 77, 255}, wanted[] = {1, 1, 0, 1};
    static const char call[] = "cvl_combine_permute_bool over odd booleans";
    unsigned char room[4];
    CvlStatus status;
    memcpy(room, before, 4);
    tells(call, cvl_combine_permute_bool(CVL_XOR, B(true, true), 2, I(1, 4), 2, (bool *)room, 4), CVL_INDEX_OUT_OF_RANGE, 1);
    if (memcmp(room, before, 4) != 0) fail(call, "a boolean was written");
    refusing = 1;
    status = cvl_combine_permute_bool(CVL_XOR, B(true, true), 2, I(1, 2), 2, (bool *)room, 4);
    refusing = 0;
    tells(call, status, CVL_NO_RESOURCES, -1);
    if (memcmp(room, before, 4) != 0) fail(call, "a boolean was written without memory");
    tells(call, cvl_combine_permute_bool(CVL_XOR, B(true, true), 2, I(1, 2), 2, (bool *)room, 4), CVL_DONE, -1);
    if (memcmp(room, wanted, 4) != 0) fail(call, "other booleans");
}

static void combining_permutes_of_segments(void) {
    const int32_t *source = I(5, 6, 7, 8, 9), *index = I(1, 1, 0, 3, 0), *lengths = I(2, 0, 3), *widths = I(2, 1, 4);
    const bool *f = B(true, false, true, true, true);
    INTS(
        cvl_seg_combine_permute_int(CVL_ADD, source, 5, index, 5, S(lengths, 3), S(widths, 3), ints, 7), 77, 88, 77, 93, 77, 77,
        85);
    INTS(
        cvl_seg_combine_permute_int(CVL_MIN, source, 5, index, 5, S(lengths, 3), S(widths, 3), ints, 7), 77, 5, 77, 7, 77, 77, 8);
    BOOLS(
        cvl_seg_combine_permute_bool(CVL_XOR, f, 5, index, 5, S(lengths, 3), S(widths, 3), bools, 7), true, true, true, false,
        true, false, false);
    BOOLS_OF_COPIES(
        1, cvl_seg_combine_permute_bool(CVL_XOR, O(3, 0, 1, 9, 1), 5, index, 5, S(lengths, 3), S(widths, 3), bools, 7), true,
        true, true, false, true, false, false);
    INTS(cvl_seg_counts(index, 5, S(lengths, 3), S(widths, 3), ints, 7), 0, 2, 0, 2, 0, 0, 1);
    INTS(cvl_seg_counts(NULL, 0, S(I(0, 0), 2), S(I(1, 2), 2), ints, 3), 0, 0, 0);
    FAULT(
        cvl_seg_combine_permute_int(CVL_ADD, source, 5, index, 5, S(lengths, 3), S(I(2, 2, 3), 3), ints, 7),
        CVL_INDEX_OUT_OF_RANGE, 3);
    FAULT(
        cvl_seg_combine_permute_int(CVL_ADD, source, 5, I(1, -1, 0, 9, 0), 5, S(lengths, 3), S(widths, 3), ints, 7),
        CVL_INDEX_OUT_OF_RANGE, 1);
    FAULT(
        cvl_seg_combine_permute_int(CVL_ADD, source, 5, I(1, 2, 0, 9, 0), 5, S(lengths, 3), S(widths, 3), ints, 6),
        CVL_LENGTH_MISMATCH, -1);
    FAULT(
        cvl_seg_combine_permute_int(CVL_ADD, source, 4, index, 5, S(lengths, 3), S(widths, 3), ints, 7), CVL_LENGTH_MISMATCH, -1);
    FAULT(
        cvl_seg_combine_permute_int(CVL_ADD, source, 5, index, 5, S(I(2, 0, 2), 3), S(widths, 3), ints, 7), CVL_LENGTH_MISMATCH,
        -1);
    FAULT(
        cvl_seg_combine_permute_int(CVL_ADD, source, 5, index, 5, S(lengths, 3), S(I(2, 5), 2), ints, 7), CVL_LENGTH_MISMATCH,
        -1);
    FAULT(
        cvl_seg_combine_permute_int(CVL_DIV, source, 5, index, 5, S(I(2, -1, 4), 3), S(widths, 3), ints, 7), CVL_UNKNOWN_CALL,
        -1);
    FAULT(
        cvl_seg_combine_permute_int(CVL_ADD, source, 5, index, 5, S(I(2, -1, 4), 3), S(I(-1, 4, 4), 3), ints, 7),
        CVL_NEGATIVE_LENGTH, 1);
    FAULT(
        cvl_seg_combine_permute_int(CVL_ADD, source, 5, index, 5, S(lengths, 3), S(I(2, 6, -1), 3), ints, 7), CVL_NEGATIVE_LENGTH,
        2);
    FAULT(
        cvl_seg_combine_permute_bool(CVL_AND, f, 5, index, 5, S(lengths, 3), S(I(1, 2, 4), 3), bools, 7), CVL_INDEX_OUT_OF_RANGE,
        0);
    FAULT(cvl_seg_counts(index, 5, S(lengths, 3), S(I(2, 2, 3), 3), ints, 7), CVL_INDEX_OUT_OF_RANGE, 3);
    FAULT(cvl_seg_counts(index, 5, S(lengths, 3), S(widths, 3), ints, 6), CVL_LENGTH_MISMATCH, -1);
}

/* Integers whose sums may leave 32 bits on the way. The room holds 77 at each place before. */
static void combining_permutes_of_checked_sums(void) {
    const int32_t *source = I(INT32_MAX, 6, 7, -INT32_MAX), *index = I(2, 0, 2, 2), *lengths = I(2, 0, 2), *widths = I(2, 0, 3);
    const size_t many = (size_t)CVL_MOST_ELEMENTS + 1;
    INTS_OF_COPIES(1, cvl_combine_checked_int(source, 4, index, 4, ints, 3), 83, 77, 84);
    INTS(cvl_combine_checked_int(I(INT32_MAX - 77, INT32_MIN), 2, I(0, 1), 2, ints, 2), INT32_MAX, INT32_MIN + 77);
    INTS(cvl_combine_checked_int(NULL, 0, NULL, 0, ints, 2), 77, 77);
    FAULT(cvl_combine_checked_int(NULL, 0, NULL, 0, NULL, 0), CVL_DONE, -1);
    FAULT(cvl_combine_checked_int(I(INT32_MAX - 76, 1, INT32_MAX - 76), 3, I(2, 1, 1), 3, ints, 3), CVL_OVERFLOW, 1);
    FAULT(cvl_combine_checked_int(I(INT32_MIN, -78), 2, I(1, 1), 2, ints, 3), CVL_OVERFLOW, 1);
    FAULT(cvl_combine_checked_int(I(INT32_MAX, 1), 2, I(0, 3), 2, ints, 3), CVL_INDEX_OUT_OF_RANGE, 1);
    FAULT(cvl_combine_checked_int(source, 4, I(0, 9, 0), 3, ints, 2), CVL_LENGTH_MISMATCH, -1);
    FAULT(cvl_combine_checked_int(source, 4, index, 3, too_many_ints, many), CVL_TOO_LONG, -1);
    FAULT(cvl_combine_checked_int(source, 4, index, 4, (int32_t *)(uintptr_t)(source + 1), 3), CVL_OVERLAP, -1);
    INTS_OF_COPIES(
        1, cvl_seg_combine_checked_int(I(0, 6, 7, -INT32_MAX), 4, I(1, 0, 2, 2), 4, S(lengths, 3), S(widths, 3), ints, 5), 83, 77,
        77, 77, -INT32_MAX + 84);
    FAULT(
        cvl_seg_combine_checked_int(source, 4, I(1, 0, 2, 3), 4, S(lengths, 3), S(widths, 3), ints, 5), CVL_INDEX_OUT_OF_RANGE,
        3);
    FAULT(
        cvl_seg_combine_checked_int(source, 4, I(1, 0, 2, 2), 4, S(lengths, 3), S(widths, 3), ints, 4), CVL_LENGTH_MISMATCH, -1);
}

static void combining_permutes_into_sums(void) {
    static const char call[] = "cvl_combine_exact_sums";
    const int64_t half = INT64_C(1) << 62, before[] = {half - 1, -half, 77},
                  wanted[] = {half + INT32_MAX - 1, -half + INT32_MIN, 77};
    const int32_t *source = I(INT32_MAX, INT32_MIN), *index = I(0, 1), *lengths = I(1, 1), *widths = I(2, 1);
    int64_t sums[3];
    memcpy(sums, before, sizeof sums);
    tells(call, cvl_combine_exact_sums(source, 2, I(0, 3), 2, sums, 3), CVL_INDEX_OUT_OF_RANGE, 1);
    tells(call, cvl_combine_exact_sums(source, 2, index, 1, sums, 3), CVL_LENGTH_MISMATCH, -1);
    sums[1] = -half - 1;
    tells(call, cvl_combine_exact_sums(source, 2, I(0, 3), 2, sums, 3), CVL_OVERFLOW, 1);
    sums[1] = half;
    tells(call, cvl_combine_exact_sums(source, 2, index, 2, sums, 3), CVL_OVERFLOW, 1);
    sums[1] = -half;
    if (memcmp(sums, before, sizeof sums) != 0) fail(call, "a sum was written");
    refusing = 1;
    const CvlStatus status = cvl_combine_exact_sums(source, 2, index, 2, sums, 3);
    refusing = 0;
    tells(call, status, CVL_DONE, -1);
    if (memcmp(sums, wanted, sizeof sums) != 0) fail(call, "other sums");
    memcpy(sums, before, sizeof sums);
    tells(
        "cvl_seg_combine_exact_sums", cvl_seg_combine_exact_sums(source, 2, I(1, 0), 2, S(lengths, 2), S(widths, 2), sums, 3),
        CVL_DONE, -1);
    if (sums[0] != half - 1 || sums[1] != INT32_MAX - half || sums[2] != 77 + (int64_t)INT32_MIN)
        fail("cvl_seg_combine_exact_sums", "other sums");
    tells(
        "cvl_seg_combine_exact_sums", cvl_seg_combine_exact_sums(source, 2, I(1, 1), 2, S(lengths, 2), S(widths, 2), sums, 3),
        CVL_INDEX_OUT_OF_RANGE, 1);
}

static void orders_ranks_and_sorts(void) {
    const int32_t *keys = I(3, 1, 2, 1), *extremes = I(0, INT32_MIN, INT32_MAX, -1, 1);
    const size_t many = (size_t)CVL_MOST_ELEMENTS + 1;
    int32_t own[] = {3, 1, 2, 1};
    INTS(cvl_order(keys, 4, ints, 4), 1, 3, 2, 0);
    INTS(cvl_rank(keys, 4, ints, 4), 3, 0, 2, 1);
    INTS(cvl_sort(keys, 4, ints, 4), 1, 1, 2, 3);
    INTS(cvl_order(extremes, 5, ints, 5), 1, 3, 0, 4, 2);
    INTS(cvl_rank(extremes, 5, ints, 5), 2, 0, 4, 1, 3);
    INTS(cvl_sort(extremes, 5, ints, 5), INT32_MIN, -1, 0, 1, INT32_MAX);
    INTS(cvl_order(I(7, 7, 7), 3, ints, 3), 0, 1, 2);
    INTS(cvl_rank(I(7), 1, ints, 1), 0);
    FAULT(cvl_order(NULL, 0, NULL, 0), CVL_DONE, -1);
    FAULT(cvl_rank(NULL, 0, NULL, 0), CVL_DONE, -1);
    FAULT(cvl_sort(NULL, 0, NULL, 0), CVL_DONE, -1);
    tells("cvl_sort in place", cvl_sort(own, 4, own, 4), CVL_DONE, -1);
    if (memcmp(own, I(1, 1, 2, 3), sizeof own) != 0) fail("cvl_sort in place", "other keys");
    FAULT(cvl_order(keys, 4, ints, 3), CVL_LENGTH_MISMATCH, -1);
    FAULT(cvl_rank(keys, 4, ints, 5), CVL_LENGTH_MISMATCH, -1);
    FAULT(cvl_sort(keys, 4, ints, 3), CVL_LENGTH_MISMATCH, -1);
    FAULT(cvl_order(own, 4, own, 4), CVL_OVERLAP, -1);
    FAULT(cvl_rank(own, 4, own, 4), CVL_OVERLAP, -1);
    FAULT(cvl_sort(own, 3, own + 1, 3), CVL_OVERLAP, -1);
    FAULT(cvl_order(too_many_ints, many, ints, 4), CVL_TOO_LONG, -1);
    FAULT(cvl_rank(too_many_ints, many, ints, 4), CVL_TOO_LONG, -1);
    FAULT(cvl_sort(too_many_ints, many, ints, 4), CVL_TOO_LONG, -1);
}

static void orders_ranks_and_sorts_of_segments(void) {
    const int32_t *keys = I(3, 1, 9, 2, 7), *lengths = I(2, 0, 3);
    int32_t own[] = {3, 1, 9, 2, 7};
    INTS(cvl_seg_order(keys, 5, S(lengths, 3), ints, 5), 1, 0, 1, 2, 0);
    INTS(cvl_seg_rank(keys, 5, S(lengths, 3), ints, 5), 1, 0, 2, 0, 1);
    INTS(cvl_seg_sort(keys, 5, S(lengths, 3), ints, 5), 1, 3, 2, 7, 9);
    INTS(cvl_seg_order(I(4, 4, 4, -4), 4, S(I(2, 2), 2), ints, 4), 0, 1, 1, 0);
    FAULT(cvl_seg_order(NULL, 0, S(I(0, 0), 2), NULL, 0), CVL_DONE, -1);
    tells("cvl_seg_sort in place", cvl_seg_sort(own, 5, S(lengths, 3), own, 5), CVL_DONE, -1);
    if (memcmp(own, I(1, 3, 2, 7, 9), sizeof own) != 0) fail("cvl_seg_sort in place", "other keys");
    tells("cvl_seg_sort in place", cvl_seg_sort(own, 5, S(I(2, 2), 2), own, 5), CVL_LENGTH_MISMATCH, -1);
    FAULT(cvl_seg_order(keys, 5, S(I(2, 2), 2), ints, 5), CVL_LENGTH_MISMATCH, -1);
    FAULT(cvl_seg_rank(keys, 5, S(lengths, 3), ints, 4), CVL_LENGTH_MISMATCH, -1);
    FAULT(cvl_seg_sort(keys, 5, S(I(2, 4), 2), ints, 5), CVL_LENGTH_MISMATCH, -1);
    FAULT(cvl_seg_order(keys, 5, S(I(2, -1, 4), 3), ints, 4), CVL_NEGATIVE_LENGTH, 1);
    FAULT(cvl_seg_rank(keys, 5, S(I(2, 4, -1), 3), ints, 5), CVL_NEGATIVE_LENGTH, 2);
    FAULT(cvl_seg_sort(keys, 5, S(I(CVL_MOST_ELEMENTS, 1), 2), ints, 5), CVL_TOO_LONG, -1);
    FAULT(cvl_seg_sort(own, 5, S(own, 5), own, 5), CVL_OVERLAP, -1);
}

/* Keys and values are as these, and no integer behind them was written. */
static void are_sorted(
    const char *call, const int32_t *keys, const int32_t *values, const int32_t *wanted_keys, const int32_t *wanted_values,
    size_t n) {
    if (memcmp(keys, wanted_keys, n * sizeof *keys) != 0) fail(call, "other keys");
    if (memcmp(values, wanted_values, n * sizeof *values) != 0) fail(call, "other values");
}

static void sorts_by_key(void) {
    int32_t keys[] = {3, 1, 2, 1, 77}, values[] = {10, 20, 30, 40, 77};
    int32_t extremes[] = {0, INT32_MIN, INT32_MAX, -1, 1}, places[] = {0, 1, 2, 3, 4};
    const int32_t *lengths = I(2, 0, 3);
    int32_t of_segments[] = {3, 1, 9, 2, 2}, moved[] = {10, 20, 30, 40, 50};
    const size_t many = (size_t)CVL_MOST_ELEMENTS + 1;
    tells("cvl_sort_by_key", cvl_sort_by_key(keys, 4, values, 4), CVL_DONE, -1);
    are_sorted("cvl_sort_by_key", keys, values, I(1, 1, 2, 3, 77), I(20, 40, 30, 10, 77), 5);
    tells("cvl_sort_by_key", cvl_sort_by_key(extremes, 5, places, 5), CVL_DONE, -1);
    are_sorted("extremes by key", extremes, places, I(INT32_MIN, -1, 0, 1, INT32_MAX), I(1, 3, 0, 4, 2), 5);
    tells("cvl_seg_sort_by_key", cvl_seg_sort_by_key(S(lengths, 3), of_segments, 5, moved, 5), CVL_DONE, -1);
    are_sorted("cvl_seg_sort_by_key", of_segments, moved, I(1, 3, 2, 2, 9), I(20, 10, 40, 50, 30), 5);
    FAULT(cvl_sort_by_key(NULL, 0, NULL, 0), CVL_DONE, -1);
    FAULT(cvl_seg_sort_by_key(S(I(0, 0), 2), NULL, 0, NULL, 0), CVL_DONE, -1);
    FAULT(cvl_sort_by_key(keys, 4, values, 3), CVL_LENGTH_MISMATCH, -1);
    FAULT(cvl_sort_by_key(keys, 2, keys + 1, 2), CVL_OVERLAP, -1);
    FAULT(cvl_sort_by_key(keys, 4, keys, 4), CVL_OVERLAP, -1);
    FAULT(cvl_seg_sort_by_key(S(lengths, 3), keys, 5, values, 4), CVL_LENGTH_MISMATCH, -1);
    FAULT(cvl_seg_sort_by_key(S(I(2, 2), 2), keys, 5, values, 5), CVL_LENGTH_MISMATCH, -1);
    FAULT(cvl_seg_sort_by_key(S(I(2, -1, 4), 3), keys, 5, values, 5), CVL_NEGATIVE_LENGTH, 1);
    FAULT(cvl_seg_sort_by_key(S(keys, 4), keys, 4, values, 4), CVL_OVERLAP, -1);
    are_sorted("a sort by key with a fault", keys, values, I(1, 1, 2, 3, 77), I(20, 40, 30, 10, 77), 5);
    FAULT(cvl_sort_by_key(too_many_ints, many, values, 4), CVL_TOO_LONG, -1);
}

/* More keys than are sorted by insertion, so that each call asks for memory; where some is refused the room and the keys are as they were. */
static void sorts_without_memory(void) {
    enum { MANY = 60, LENGTHS = 2 };
    int32_t keys[MANY], sorted[MANY], room[MANY], before[MANY];
    const int32_t cut_up[LENGTHS] = {MANY - 5, 5};
    for (int32_t k = 0; k < MANY; k++) keys[k] = k * 7 % MANY, sorted[k] = k;
    memset(before, UNTOUCHED, sizeof before);
    for (int which = 0; which < 8; which++) {
        int32_t *const out = which < 6 ? room : keys;
        const int32_t *const left = which < 6 ? before : keys;
        int32_t kept[MANY];
        memcpy(kept, left, sizeof kept);
        for (int granted = 0; granted < 4; granted++) {
            memcpy(out, kept, sizeof kept);
            spared = granted;
            refusing = 1;
            const CvlStatus status = which == 0 ? cvl_order(keys, MANY, out, MANY)
                : which == 1                    ? cvl_rank(keys, MANY, out, MANY)
                : which == 2 || which == 6      ? cvl_sort(keys, MANY, out, MANY)
                : which == 3                    ? cvl_seg_order(keys, MANY, S(cut_up, LENGTHS), out, MANY)
                : which == 4                    ? cvl_seg_rank(keys, MANY, S(cut_up, LENGTHS), out, MANY)
                                                : cvl_seg_sort(keys, MANY, S(cut_up, LENGTHS), out, MANY);
            refusing = spared = 0;
            const bool sorts = which == 2 || which >= 5;
            tells("an order, a rank or a sort", status, granted < (sorts ? 2 : 3) ? CVL_NO_RESOURCES : CVL_DONE, -1);
            if (status.number != CVL_DONE && memcmp(out, kept, sizeof kept) != 0)
                fail("a sort without memory", "the room was written");
            if (status.number == CVL_DONE && (which == 2 || which == 6) && memcmp(out, sorted, sizeof sorted) != 0)
                fail("cvl_sort", "other keys");
        }
        for (int32_t k = 0; k < MANY; k++) keys[k] = k * 7 % MANY;
    }
}

/* The same of keys and their values: each request for memory is refused in turn. */
static void sorts_by_key_without_memory(void) {
    enum { MANY = 60, REQUESTS = 3 };
    int32_t keys[MANY], values[MANY], kept_keys[MANY], kept_values[MANY];
    for (int cut_up = 0; cut_up < 2; cut_up++) {
        for (int32_t k = 0; k < MANY; k++) kept_keys[k] = keys[k] = k * 7 % MANY, kept_values[k] = values[k] = k;
        for (int granted = 0; granted <= REQUESTS; granted++) {
            spared = granted;
            refusing = 1;
            const CvlStatus status = cut_up ? cvl_seg_sort_by_key(S(I(MANY), 1), keys, MANY, values, MANY)
                                            : cvl_sort_by_key(keys, MANY, values, MANY);
            refusing = spared = 0;
            tells("a sort by key", status, granted < REQUESTS ? CVL_NO_RESOURCES : CVL_DONE, -1);
            if (status.number != CVL_DONE) are_sorted("a sort by key without memory", keys, values, kept_keys, kept_values, MANY);
        }
        for (int32_t k = 0; k < MANY; k++) {
            if (keys[k] != k || kept_keys[values[k]] != k) fail("a sort by key", "another key, or another value beside it");
        }
    }
}

static void slices(void) {
    const int32_t *source = I(10, 20, 30, 40), *starts = I(2, 4, 1), *lengths = I(2, 0, 3), *negative = I(2, -1, 4);
    const bool *f = B(true, false, false, true);
    const size_t many = (size_t)CVL_MOST_ELEMENTS + 1;
    INTS(cvl_gather_segments_int(source, 4, starts, 3, S(lengths, 3), ints, 5), 30, 40, 20, 30, 40);
    INTS(cvl_gather_segments_int(source, 4, I(0, 0), 2, S(I(4, 1), 2), ints, 5), 10, 20, 30, 40, 10);
    INTS(cvl_gather_segments_int(source, 4, I(3, 2, 1, 0), 4, S(I(1, 1, 1, 1), 4), ints, 4), 40, 30, 20, 10);
    FAULT(cvl_gather_segments_int(NULL, 0, NULL, 0, S(NULL, 0), NULL, 0), CVL_DONE, -1);
    FAULT(cvl_gather_segments_int(NULL, 0, I(0, 0), 2, S(I(0, 0), 2), NULL, 0), CVL_DONE, -1);
    BOOLS(cvl_gather_segments_bool(f, 4, starts, 3, S(lengths, 3), bools, 5), false, true, false, false, true);
    BOOLS_OF_COPIES(
        1, cvl_gather_segments_bool(O(9, 0, 0, 1), 4, starts, 3, S(lengths, 3), bools, 5), false, true, false, false, true);
    FAULT(cvl_gather_segments_int(source, 4, I(2, 4, 2), 3, S(lengths, 3), ints, 5), CVL_INDEX_OUT_OF_RANGE, 2);
    FAULT(cvl_gather_segments_int(source, 4, I(2, 5, 2), 3, S(lengths, 3), ints, 5), CVL_INDEX_OUT_OF_RANGE, 1);
    FAULT(cvl_gather_segments_int(source, 4, I(-1, 5, 2), 3, S(lengths, 3), ints, 5), CVL_INDEX_OUT_OF_RANGE, 0);
    FAULT(cvl_gather_segments_int(source, 4, I(INT32_MAX, 0, 0), 3, S(lengths, 3), ints, 5), CVL_INDEX_OUT_OF_RANGE, 0);
    FAULT(cvl_gather_segments_int(source, 4, I(2, 4, 2), 3, S(lengths, 3), ints, 4), CVL_LENGTH_MISMATCH, -1);
    FAULT(cvl_gather_segments_int(source, 4, I(-1, 4, 2), 2, S(lengths, 3), ints, 5), CVL_LENGTH_MISMATCH, -1);
    FAULT(cvl_gather_segments_int(source, 4, I(9, 9, 9), 2, S(negative, 3), ints, 5), CVL_NEGATIVE_LENGTH, 1);
    FAULT(cvl_gather_segments_int(source, 4, starts, 3, S(I(INT32_MAX, 1, 0), 3), ints, 5), CVL_TOO_LONG, -1);
    FAULT(cvl_gather_segments_int(source, 4, too_many_ints, many, S(lengths, 3), ints, 5), CVL_TOO_LONG, -1);
    FAULT(cvl_gather_segments_int(source, 4, starts, 3, S(too_many_ints, many), ints, 5), CVL_TOO_LONG, -1);
    FAULT(cvl_gather_segments_bool(f, 4, I(2, 4, 2), 3, S(lengths, 3), bools, 5), CVL_INDEX_OUT_OF_RANGE, 2);
    FAULT(cvl_gather_segments_bool(O(2, 0, 0, 1), 4, I(2, 4, 2), 3, S(lengths, 3), bools, 4), CVL_LENGTH_MISMATCH, -1);
}

static void appends(void) {
    const int32_t *a = I(1, 2, 3), *b = I(7, 8, 9), *lengths = I(2, 0, 1), *others = I(1, 2, 0), *negative = I(1, -1, 3);
    const bool *f = B(true, false, true), *g = B(false, true, false);
    INTS(cvl_append_segments_int(a, 3, b, 3, S(lengths, 3), S(others, 3), ints, 6), 1, 2, 7, 8, 9, 3);
    INTS(cvl_append_segments_int(NULL, 0, b, 3, S(I(0, 0, 0), 3), S(others, 3), ints, 3), 7, 8, 9);
    FAULT(cvl_append_segments_int(NULL, 0, NULL, 0, S(NULL, 0), S(NULL, 0), NULL, 0), CVL_DONE, -1);
    BOOLS(cvl_append_segments_bool(f, 3, g, 3, S(lengths, 3), S(others, 3), bools, 6), true, false, false, true, false, true);
    BOOLS_OF_COPIES(
        2, cvl_append_segments_bool(O(2, 0, 1), 3, O(0, 9, 0), 3, S(lengths, 3), S(others, 3), bools, 6), true, false, false,
        true, false, true);
    FAULT(cvl_append_segments_int(a, 2, b, 3, S(lengths, 3), S(others, 3), ints, 5), CVL_LENGTH_MISMATCH, -1);
    FAULT(cvl_append_segments_int(a, 3, b, 2, S(lengths, 3), S(others, 3), ints, 5), CVL_LENGTH_MISMATCH, -1);
    FAULT(cvl_append_segments_int(a, 3, b, 3, S(lengths, 3), S(I(1, 2), 2), ints, 6), CVL_LENGTH_MISMATCH, -1);
    FAULT(cvl_append_segments_int(a, 3, b, 3, S(lengths, 3), S(others, 3), ints, 5), CVL_LENGTH_MISMATCH, -1);
    FAULT(cvl_append_segments_bool(O(2, 0, 1), 3, g, 3, S(lengths, 3), S(others, 3), bools, 5), CVL_LENGTH_MISMATCH, -1);
    FAULT(cvl_append_segments_int(a, 3, b, 3, S(negative, 3), S(I(-1, 1, 3), 3), ints, 6), CVL_NEGATIVE_LENGTH, 1);
    FAULT(cvl_append_segments_int(a, 3, b, 3, S(lengths, 3), S(I(4, 0, -1), 3), ints, 6), CVL_NEGATIVE_LENGTH, 2);
    FAULT(cvl_append_segments_int(a, 3, b, 3, S(lengths, 3), S(I(INT32_MAX, 1, 0), 3), ints, 6), CVL_TOO_LONG, -1);
}

static void merges(void) {
    const bool *f = B(true, false, false, true, false), *g = B(true, false), *h = B(true, true, false);
    const int32_t *a = I(1, 2), *b = I(7, 8, 9);
    const size_t many = (size_t)CVL_MOST_ELEMENTS + 1;
    INTS(cvl_merge_by_flags_int(f, 5, a, 2, b, 3, ints, 5), 1, 7, 8, 2, 9);
    INTS(cvl_merge_by_flags_int(B(true, true), 2, a, 2, NULL, 0, ints, 2), 1, 2);
    INTS(cvl_merge_by_flags_int(B(false, false, false), 3, NULL, 0, b, 3, ints, 3), 7, 8, 9);
    INTS_OF_COPIES(1, cvl_merge_by_flags_int(O(2, 0, 0, 1, 0), 5, a, 2, b, 3, ints, 5), 1, 7, 8, 2, 9);
    FAULT(cvl_merge_by_flags_int(NULL, 0, NULL, 0, NULL, 0, NULL, 0), CVL_DONE, -1);
    BOOLS(cvl_merge_by_flags_bool(f, 5, g, 2, h, 3, bools, 5), true, true, true, false, false);
    BOOLS_OF_COPIES(
        3, cvl_merge_by_flags_bool(O(2, 0, 0, 1, 0), 5, O(5, 0), 2, O(1, 9, 0), 3, bools, 5), true, true, true, false, false);
    FAULT(cvl_merge_by_flags_int(f, 5, a, 1, b, 3, ints, 5), CVL_LENGTH_MISMATCH, -1);
    FAULT(cvl_merge_by_flags_int(f, 5, a, 2, b, 2, ints, 5), CVL_LENGTH_MISMATCH, -1);
    FAULT(cvl_merge_by_flags_int(f, 5, b, 3, a, 2, ints, 5), CVL_LENGTH_MISMATCH, -1);
    FAULT(cvl_merge_by_flags_int(f, 5, a, 2, b, 3, ints, 4), CVL_LENGTH_MISMATCH, -1);
    FAULT(cvl_merge_by_flags_int(O(2, 0, 0, 1, 0), 5, a, 1, b, 3, ints, 5), CVL_LENGTH_MISMATCH, -1);
    FAULT(cvl_merge_by_flags_bool(f, 5, g, 2, h, 2, bools, 5), CVL_LENGTH_MISMATCH, -1);
    FAULT(cvl_merge_by_flags_int(too_many_bools, many, a, 2, b, 3, ints, 5), CVL_TOO_LONG, -1);
}

static void exact_sums(void) {
    const int32_t *a = I(INT32_MAX, INT32_MAX, 5, INT32_MIN, INT32_MIN), *lengths = I(2, 0, 1, 2);
    const int64_t sums[] = {4294967294, 0, 5, -4294967296};
    int64_t found[4] = {UNTOUCHED, UNTOUCHED, UNTOUCHED, UNTOUCHED};
    tells("cvl_seg_exact_sums", cvl_seg_exact_sums(a, 4, S(lengths, 4), found, 4), CVL_LENGTH_MISMATCH, -1);
    tells("cvl_seg_exact_sums", cvl_seg_exact_sums(a, 5, S(lengths, 4), found, 3), CVL_LENGTH_MISMATCH, -1);
    tells("cvl_seg_exact_sums", cvl_seg_exact_sums(a, 5, S(I(2, -1, 4), 3), found, 3), CVL_NEGATIVE_LENGTH, 1);
    tells("cvl_seg_exact_sums", cvl_seg_exact_sums(a, 5, S(I(INT32_MAX, 1), 2), found, 2), CVL_TOO_LONG, -1);
    if (found[0] != UNTOUCHED || found[3] != UNTOUCHED) fail("cvl_seg_exact_sums", "a sum was written");
    tells("cvl_seg_exact_sums", cvl_seg_exact_sums(a, 5, S(lengths, 4), found, 4), CVL_DONE, -1);
    if (memcmp(found, sums, sizeof sums) != 0) fail("cvl_seg_exact_sums", "other sums");
}

static void merges_of_segments(void) {
    const bool *f = B(true, false, false, true, true), *g = B(true, false, true), *h = B(true, false);
    const int32_t *a = I(1, 2, 3), *b = I(7, 8), *lengths = I(2, 0, 3), *of_a = I(1, 0, 2), *of_b = I(1, 0, 1),
                  *negative = I(3, -1, 3);
    INTS(cvl_seg_merge_by_flags_int(f, 5, a, 3, b, 2, S(lengths, 3), S(of_a, 3), S(of_b, 3), ints, 5), 1, 7, 8, 2, 3);
    INTS(cvl_seg_merge_by_flags_int(B(false, true), 2, a, 1, b, 1, S(I(1, 1), 2), S(I(0, 1), 2), S(I(1, 0), 2), ints, 2), 7, 1);
    INTS_OF_COPIES(
        1, cvl_seg_merge_by_flags_int(O(2, 0, 0, 9, 1), 5, a, 3, b, 2, S(lengths, 3), S(of_a, 3), S(of_b, 3), ints, 5), 1, 7, 8,
        2, 3);
    FAULT(cvl_seg_merge_by_flags_int(NULL, 0, NULL, 0, NULL, 0, S(NULL, 0), S(NULL, 0), S(NULL, 0), NULL, 0), CVL_DONE, -1);
    BOOLS(
        cvl_seg_merge_by_flags_bool(f, 5, g, 3, h, 2, S(lengths, 3), S(of_a, 3), S(of_b, 3), bools, 5), true, true, false, false,
        true);
    BOOLS_OF_COPIES(
        3,
        cvl_seg_merge_by_flags_bool(
            O(2, 0, 0, 9, 1), 5, O(5, 0, 1), 3, O(7, 0), 2, S(lengths, 3), S(of_a, 3), S(of_b, 3), bools, 5),
        true, true, false, false, true);
    FAULT(
        cvl_seg_merge_by_flags_int(f, 5, a, 3, b, 2, S(lengths, 3), S(I(2, 0, 1), 3), S(I(0, 0, 2), 3), ints, 5),
        CVL_LENGTH_MISMATCH, 0);
    FAULT(
        cvl_seg_merge_by_flags_int(f, 5, a, 3, b, 2, S(lengths, 3), S(I(1, 1, 1), 3), S(of_b, 3), ints, 5), CVL_LENGTH_MISMATCH,
        1);
    FAULT(
        cvl_seg_merge_by_flags_int(f, 5, a, 3, b, 3, S(lengths, 3), S(of_a, 3), S(I(1, 0, 2), 3), ints, 5), CVL_LENGTH_MISMATCH,
        2);
    FAULT(
        cvl_seg_merge_by_flags_int(f, 5, a, 3, b, 2, S(lengths, 3), S(I(2, 0, 1), 3), S(I(0, 0, 2), 3), ints, 4),
        CVL_LENGTH_MISMATCH, -1);
    FAULT(cvl_seg_merge_by_flags_int(f, 4, a, 3, b, 2, S(lengths, 3), S(of_a, 3), S(of_b, 3), ints, 4), CVL_LENGTH_MISMATCH, -1);
    FAULT(cvl_seg_merge_by_flags_int(f, 5, a, 2, b, 2, S(lengths, 3), S(of_a, 3), S(of_b, 3), ints, 5), CVL_LENGTH_MISMATCH, -1);
    FAULT(cvl_seg_merge_by_flags_int(f, 5, a, 3, b, 1, S(lengths, 3), S(of_a, 3), S(of_b, 3), ints, 5), CVL_LENGTH_MISMATCH, -1);
    FAULT(
        cvl_seg_merge_by_flags_int(f, 5, a, 3, b, 2, S(lengths, 3), S(I(1, 2), 2), S(of_b, 3), ints, 5), CVL_LENGTH_MISMATCH, -1);
    FAULT(
        cvl_seg_merge_by_flags_int(f, 5, a, 3, b, 2, S(lengths, 3), S(of_a, 3), S(I(1, 1), 2), ints, 5), CVL_LENGTH_MISMATCH, -1);
    FAULT(
        cvl_seg_merge_by_flags_int(f, 5, a, 3, b, 2, S(negative, 3), S(I(-1, 0, 0), 3), S(of_b, 3), ints, 5), CVL_NEGATIVE_LENGTH,
        1);
    FAULT(
        cvl_seg_merge_by_flags_int(f, 5, a, 3, b, 2, S(lengths, 3), S(I(4, 0, -1), 3), S(I(-1, 0, 0), 3), ints, 5),
        CVL_NEGATIVE_LENGTH, 2);
    FAULT(
        cvl_seg_merge_by_flags_int(f, 5, a, 3, b, 2, S(lengths, 3), S(of_a, 3), S(I(INT32_MAX, 1, 0), 3), ints, 5), CVL_TOO_LONG,
        -1);
    FAULT(
        cvl_seg_merge_by_flags_bool(O(2, 0, 0, 9, 1), 5, g, 3, h, 2, S(lengths, 3), S(I(2, 0, 1), 3), S(I(0, 0, 2), 3), bools, 5),
        CVL_LENGTH_MISMATCH, 0);
}

static void transposes(void) {
    const size_t many = (size_t)CVL_MOST_ELEMENTS + 1, half = (size_t)1 << 32;
    const int32_t *a = I(1, 2, 3, 4, 5, 6);
    const bool *f = B(true, false, false, true, true, true);
    INTS(cvl_transpose_int(a, 6, 2, 3, ints, 6), 1, 4, 2, 5, 3, 6);
    INTS(cvl_transpose_int(a, 6, 3, 2, ints, 6), 1, 3, 5, 2, 4, 6);
    INTS(cvl_transpose_int(a, 6, 6, 1, ints, 6), 1, 2, 3, 4, 5, 6);
    INTS(cvl_transpose_int(a, 6, 1, 6, ints, 6), 1, 2, 3, 4, 5, 6);
    FAULT(cvl_transpose_int(NULL, 0, 0, 7, NULL, 0), CVL_DONE, -1);
    FAULT(cvl_transpose_int(NULL, 0, SIZE_MAX, 0, NULL, 0), CVL_DONE, -1);
    BOOLS(cvl_transpose_bool(f, 6, 3, 2, bools, 6), true, false, true, false, true, true);
    BOOLS_OF_COPIES(1, cvl_transpose_bool(O(7, 0, 0, 9, 1, 255), 6, 3, 2, bools, 6), true, false, true, false, true, true);
    FAULT(cvl_transpose_int(a, 6, 2, 2, ints, 6), CVL_LENGTH_MISMATCH, -1);
    FAULT(cvl_transpose_int(a, 6, 0, 3, ints, 6), CVL_LENGTH_MISMATCH, -1);
    FAULT(cvl_transpose_int(a, 6, 2, 3, ints, 5), CVL_LENGTH_MISMATCH, -1);
    FAULT(cvl_transpose_int(NULL, 0, half, half, NULL, 0), CVL_LENGTH_MISMATCH, -1);
    FAULT(cvl_transpose_bool(O(7, 0, 0, 9, 1, 255), 6, 3, 3, bools, 6), CVL_LENGTH_MISMATCH, -1);
    FAULT(cvl_transpose_bool(O(7, 0, 0, 9, 1, 255), 6, 3, 2, bools, 5), CVL_LENGTH_MISMATCH, -1);
    FAULT(cvl_transpose_int(too_many_ints, many, many, 1, ints, 6), CVL_TOO_LONG, -1);
}

static void ranges_of_transposes(void) {
    const size_t many = (size_t)CVL_MOST_ELEMENTS + 1;
    const int32_t *a = I(1, 2, 3, 4, 5, 6);
    const bool *odd = O(7, 0, 0, 9, 1, 255);
    INTS(cvl_transpose_int_range(a, 6, 2, 3, 1, ints, 3), 4, 2, 5);
    INTS(cvl_transpose_int_range(a, 6, 2, 3, 0, ints, 6), 1, 4, 2, 5, 3, 6);
    INTS(cvl_transpose_int_range(a, 6, 6, 1, 4, ints, 2), 5, 6);
    INTS(cvl_transpose_int_range(a, 6, 1, 6, 2, ints, 1), 3);
    FAULT(cvl_transpose_int_range(a, 6, 2, 3, 6, NULL, 0), CVL_DONE, -1);
    FAULT(cvl_transpose_int_range(NULL, 0, 0, SIZE_MAX, 0, NULL, 0), CVL_DONE, -1);
    BOOLS_OF_COPIES(1, cvl_transpose_bool_range(odd, 6, 3, 2, 2, bools, 2), true, false);
    FAULT(cvl_transpose_int_range(a, 6, 2, 3, 4, ints, 3), CVL_LENGTH_MISMATCH, -1);
    FAULT(cvl_transpose_bool_range(odd, 6, 2, 3, 4, bools, 3), CVL_LENGTH_MISMATCH, -1);
    FAULT(cvl_transpose_int_range(a, 6, 2, 2, 0, ints, 1), CVL_LENGTH_MISMATCH, -1);
    FAULT(cvl_transpose_bool_range(odd, 6, 2, 2, 0, bools, 1), CVL_LENGTH_MISMATCH, -1);
    FAULT(cvl_transpose_int_range(a, 6, 2, 2, CVL_MOST_ELEMENTS, ints, 1), CVL_TOO_LONG, -1);
    FAULT(cvl_transpose_int_range(a, 6, 2, 3, SIZE_MAX, ints, 3), CVL_TOO_LONG, -1);
    FAULT(cvl_transpose_bool_range(odd, 6, 2, 2, SIZE_MAX, bools, 3), CVL_TOO_LONG, -1);
    FAULT(cvl_transpose_int_range(too_many_ints, many, many, 1, 0, ints, 6), CVL_TOO_LONG, -1);
}

/* More than a block of rows and of columns, which neither divides; and ranges of their transpose. */
static void transposes_of_blocks(void) {
    enum { MANY = 67, COLUMNS = 45 };
    static int32_t source[MANY * COLUMNS], out[MANY * COLUMNS], range[MANY * COLUMNS];
    for (int32_t k = 0; k < MANY * COLUMNS; k++) source[k] = k;
    FAULT(cvl_transpose_int(source, MANY * COLUMNS, MANY, COLUMNS, out, MANY * COLUMNS), CVL_DONE, -1);
    for (int32_t k = 0; k < MANY * COLUMNS; k++) {
        if (out[k] != k % MANY * COLUMNS + k / MANY) fail("cvl_transpose_int of blocks", "another integer");
    }
    for (size_t lowest = 0; lowest < MANY * COLUMNS; lowest += 31) {
        for (size_t n = 0; lowest + n <= MANY * COLUMNS; n += 41) {
            FAULT(cvl_transpose_int_range(source, MANY * COLUMNS, MANY, COLUMNS, lowest, range, n), CVL_DONE, -1);
            if (memcmp(range, out + lowest, n * sizeof *range) != 0) fail("cvl_transpose_int_range of blocks", "another integer");
        }
    }
}

/* Integers narrowed into the room for bytes, which is as before behind them, and at a fault as a whole. */
static void narrows(const int32_t *a, size_t n, size_t room, CvlStatus wanted, const uint8_t *right) {
    const char *const call = "cvl_bytes_from_ints";
    reset();
    tells(call, cvl_bytes_from_ints(a, n, (uint8_t *)bytes, room), wanted.number, wanted.place);
    if (wanted.number == CVL_DONE && n > 0 && memcmp(bytes, right, n) != 0) fail(call, "other bytes");
    leaves_bytes(call, wanted.number == CVL_DONE ? n : 0);
}

static void bytes_and_integers(void) {
    const size_t many = (size_t)CVL_MOST_ELEMENTS + 1;
    const uint8_t some[] = {0, 67, 127, 128, 255};
    const CvlStatus all = {CVL_DONE, -1}, first = {CVL_OVERFLOW, 0}, second = {CVL_OVERFLOW, 1};
    INTS(cvl_ints_from_bytes(some, 5, ints, 5), 0, 67, 127, 128, 255);
    FAULT(cvl_ints_from_bytes(NULL, 0, NULL, 0), CVL_DONE, -1);
    FAULT(cvl_ints_from_bytes(some, 5, ints, 4), CVL_LENGTH_MISMATCH, -1);
    FAULT(cvl_ints_from_bytes((const uint8_t *)too_many_bools, many, ints, 4), CVL_TOO_LONG, -1);
    narrows(I(0, 67, 127, 128, 255), 5, 5, all, some);
    narrows(NULL, 0, 0, all, NULL);
    narrows(I(1, 256, -1), 3, 3, second, NULL);
    narrows(I(1, -1, 256), 3, 3, second, NULL);
    narrows(I(INT32_MIN, 1), 2, 2, first, NULL);
    narrows(I(256, 1, 2), 3, 3, first, NULL);
    narrows(I(1, 2, 3), 3, 2, (CvlStatus){CVL_LENGTH_MISMATCH, -1}, NULL);
    narrows(too_many_ints, many, 2, (CvlStatus){CVL_TOO_LONG, -1}, NULL);
}

static void first_trues(void) {
    const bool *f = B(false, true, false, false, true);
    const int32_t *lengths = I(2, 1, 0, 2);
    const size_t many = (size_t)CVL_MOST_ELEMENTS + 1;
    INTS(cvl_first_true(f, 5, ints), 1);
    INTS(cvl_first_true(f + 2, 2, ints), -1);
    INTS(cvl_first_true(NULL, 0, ints), -1);
    INTS(cvl_first_true(O(0, 0, 7, 1), 4, ints), 2);
    FAULT(cvl_first_true(too_many_bools, many, ints), CVL_TOO_LONG, -1);
    INTS(cvl_seg_first_true(f, 5, S(lengths, 4), ints, 4), 1, -1, -1, 1);
    INTS(cvl_seg_first_true(O(0, 2, 0, 0, 1), 5, S(lengths, 4), ints, 4), 1, -1, -1, 1);
    FAULT(cvl_seg_first_true(f, 4, S(lengths, 4), ints, 4), CVL_LENGTH_MISMATCH, -1);
    FAULT(cvl_seg_first_true(f, 5, S(lengths, 4), ints, 3), CVL_LENGTH_MISMATCH, -1);
    FAULT(cvl_seg_first_true(f, 5, S(I(2, -1, 4), 3), ints, 3), CVL_NEGATIVE_LENGTH, 1);
    FAULT(cvl_seg_first_true(f, 5, S(I(INT32_MAX, 1), 2), ints, 2), CVL_TOO_LONG, -1);
}

static void runs(void) {
    const int32_t *keys = I(3, 3, 5, 5, 5, 2), *lengths = I(1, 0, 3, 2);
    const bool *f = B(true, true, false, true);
    const size_t many = (size_t)CVL_MOST_ELEMENTS + 1;
    COUNTED_INTS(cvl_run_lengths_int(keys, 6, ints, ROOM, &total), 2, 3, 1);
    COUNTED_INTS(cvl_run_lengths_int(keys, 6, ints, 3, &total), 2, 3, 1);
    COUNTED_INTS(cvl_run_starts_int(keys, 6, ints, ROOM, &total), 0, 2, 5);
    COUNTED_INTS(cvl_run_starts_int(keys, 6, ints, 3, &total), 0, 2, 5);
    COUNTED_INTS(cvl_run_lengths_int(keys + 2, 3, ints, 1, &total), 3);
    COUNTED_INTS(cvl_run_lengths_int(I(INT32_MIN, INT32_MAX, INT32_MAX), 3, ints, ROOM, &total), 1, 2);
    COUNTED_INTS(cvl_run_starts_int(keys + 5, 1, ints, 1, &total), 0);
    COUNTED_INTS(cvl_run_lengths_bool(f, 4, ints, ROOM, &total), 2, 1, 1);
    COUNTED_INTS(cvl_run_lengths_bool(O(7, 1, 0, 2), 4, ints, 3, &total), 2, 1, 1);
    COUNTED_INTS(cvl_run_starts_bool(O(7, 1, 0, 2), 4, ints, ROOM, &total), 0, 2, 3);
    reset();
    counts("runs of no element", cvl_run_lengths_int(NULL, 0, NULL, 0, &total), CVL_DONE, 0);
    leaves("runs of no element", 0, 0);
    TOO_SHORT(cvl_run_lengths_int(keys, 6, ints, 2, &total), 3);
    TOO_SHORT(cvl_run_starts_int(keys, 6, ints, 0, &total), 3);
    TOO_SHORT(cvl_run_starts_bool(O(7, 1, 0, 2), 4, ints, 2, &total), 3);
    COUNTED_INTS(cvl_seg_run_lengths_int(keys, 6, S(lengths, 4), ints, ROOM, &total), 1, 1, 2, 1, 1);
    COUNTED_INTS(cvl_seg_run_lengths_int(keys, 6, S(lengths, 4), ints, 5, &total), 1, 1, 2, 1, 1);
    COUNTED_INTS(cvl_seg_run_starts_int(keys, 6, S(lengths, 4), ints, ROOM, &total), 0, 1, 2, 4, 5);
    COUNTED_INTS(cvl_seg_run_lengths_bool(O(7, 1, 0, 2), 4, S(I(1, 3), 2), ints, ROOM, &total), 1, 1, 1, 1);
    COUNTED_INTS(cvl_seg_run_starts_bool(f, 4, S(I(0, 2, 2), 3), ints, ROOM, &total), 0, 2, 3);
    TOO_SHORT(cvl_seg_run_lengths_int(keys, 6, S(lengths, 4), ints, 4, &total), 5);
    TOO_SHORT(cvl_seg_run_starts_bool(f, 4, S(I(0, 2, 2), 3), ints, 2, &total), 3);
    INTS(cvl_seg_run_counts_int(keys, 6, S(lengths, 4), ints, 4), 1, 0, 2, 2);
    INTS(cvl_seg_run_counts_bool(O(7, 1, 0, 2), 4, S(I(2, 2), 2), ints, 2), 1, 2);
    FAULT(cvl_run_lengths_int(too_many_ints, many, ints, ROOM, &total), CVL_TOO_LONG, -1);
    FAULT(cvl_run_starts_bool(too_many_bools, many, ints, ROOM, &total), CVL_TOO_LONG, -1);
    FAULT(cvl_seg_run_lengths_int(keys, 5, S(lengths, 4), ints, ROOM, &total), CVL_LENGTH_MISMATCH, -1);
    FAULT(cvl_seg_run_starts_int(keys, 6, S(I(1, -1), 2), ints, ROOM, &total), CVL_NEGATIVE_LENGTH, 1);
    FAULT(cvl_seg_run_counts_int(keys, 6, S(lengths, 4), ints, 3), CVL_LENGTH_MISMATCH, -1);
    FAULT(cvl_seg_run_counts_bool(f, 4, S(I(INT32_MAX, 1), 2), ints, 2), CVL_TOO_LONG, -1);
}

static void permutes_of_wrong_segments(void) {
    const int32_t *five = I(1, 2, 3, 4, 5), *lengths = I(2, 0, 3), *turn = I(1, 0, 2, 0, 1), *negative = I(2, 4, -1);
    const bool *flags = B(false, true, true, false, true);
    const size_t many = (size_t)CVL_MOST_ELEMENTS + 1;
    FAULT(smp_pez(five, turn, S(negative, 3), ints, 5), CVL_NEGATIVE_LENGTH, 2);
    FAULT(smp_pez(five, turn, S(lengths, 2), ints, 5), CVL_LENGTH_MISMATCH, -1);
    FAULT(smp_peb(flags, turn, S(I(2, 1, 3), 3), bools, 5), CVL_LENGTH_MISMATCH, -1);
    FAULT(cvl_seg_permute_int(five, 5, turn, 4, S(lengths, 3), ints, 5), CVL_LENGTH_MISMATCH, -1);
    FAULT(cvl_seg_permute_int(five, 5, turn, 5, S(lengths, 3), ints, 4), CVL_LENGTH_MISMATCH, -1);
    FAULT(cvl_seg_permute_bool(flags, 5, turn, 5, S(lengths, 3), bools, 6), CVL_LENGTH_MISMATCH, -1);
    FAULT(cvl_seg_permute_int(five, 5, too_many_ints, many, S(lengths, 3), ints, 5), CVL_TOO_LONG, -1);
    FAULT(cvl_seg_permute_bool(flags, 5, too_many_ints, many, S(negative, 3), bools, 5), CVL_NEGATIVE_LENGTH, 2);
    FAULT(cvl_seg_permute_bool(flags, 5, turn, 5, S(too_many_ints, many), bools, 5), CVL_TOO_LONG, -1);
    FAULT(sel_pez(five, turn, flags, 5, S(negative, 3), ints, 3), CVL_NEGATIVE_LENGTH, 2);
    FAULT(sel_peb(flags, turn, flags, 5, S(lengths, 2), bools, 3), CVL_LENGTH_MISMATCH, -1);
    FAULT(cvl_seg_select_permute_int(five, 5, turn, 5, flags, 4, S(lengths, 3), ints, 3), CVL_LENGTH_MISMATCH, -1);
    FAULT(cvl_seg_select_permute_int(five, 5, I(9, 0, 1, 9, 0), 5, flags, 5, S(lengths, 3), ints, 5), CVL_LENGTH_MISMATCH, -1);
    FAULT(cvl_seg_select_permute_bool(flags, 5, I(9, 0, 1, 9, 0), 5, flags, 5, S(lengths, 3), bools, 2), CVL_LENGTH_MISMATCH, -1);
    FAULT(cvl_seg_select_permute_int(five, 5, too_many_ints, many, flags, 5, S(lengths, 3), ints, 3), CVL_TOO_LONG, -1);
    FAULT(cvl_seg_select_permute_bool(flags, 5, too_many_ints, many, flags, 5, S(lengths, 3), bools, 3), CVL_TOO_LONG, -1);
    FAULT(def_pez(five, turn, 5, five, S(lengths, 3), S(negative, 3), ints, 5), CVL_NEGATIVE_LENGTH, 2);
    FAULT(def_peb(flags, turn, 5, flags, S(negative, 3), S(I(-1, 0, 0), 3), bools, 5), CVL_NEGATIVE_LENGTH, 2);
    FAULT(cvl_seg_default_permute_int(five, 5, turn, 5, five, 5, S(lengths, 3), S(I(2, 3), 2), ints, 5), CVL_LENGTH_MISMATCH, -1);
    FAULT(cvl_seg_default_permute_int(five, 5, turn, 5, five, 4, S(lengths, 3), S(lengths, 3), ints, 4), CVL_LENGTH_MISMATCH, -1);
    FAULT(
        cvl_seg_default_permute_bool(flags, 5, turn, 5, flags, 5, S(lengths, 3), S(lengths, 3), bools, 4), CVL_LENGTH_MISMATCH,
        -1);
    FAULT(
        cvl_seg_default_permute_int(five, 5, too_many_ints, many, five, 5, S(lengths, 3), S(lengths, 3), ints, 5), CVL_TOO_LONG,
        -1);
    FAULT(
        cvl_seg_default_permute_bool(flags, 5, too_many_ints, many, flags, 5, S(lengths, 3), S(lengths, 3), bools, 5),
        CVL_TOO_LONG, -1);
    FAULT(bck_pez(five, 5, turn, S(lengths, 3), S(negative, 3), ints, 5), CVL_NEGATIVE_LENGTH, 2);
    FAULT(bck_peb(flags, 5, turn, S(lengths, 3), S(I(2, 1, 3), 3), bools, 5), CVL_LENGTH_MISMATCH, -1);
    FAULT(cvl_seg_back_permute_int(five, 5, turn, 5, S(lengths, 3), S(I(2, 3), 2), ints, 5), CVL_LENGTH_MISMATCH, -1);
    FAULT(cvl_seg_back_permute_int(five, 4, turn, 5, S(lengths, 3), S(lengths, 3), ints, 5), CVL_LENGTH_MISMATCH, -1);
    FAULT(cvl_seg_back_permute_bool(flags, 5, turn, 5, S(lengths, 3), S(lengths, 3), bools, 6), CVL_LENGTH_MISMATCH, -1);
    FAULT(cvl_seg_back_permute_int(five, 5, too_many_ints, many, S(lengths, 3), S(lengths, 3), ints, 5), CVL_TOO_LONG, -1);
    FAULT(cvl_seg_back_permute_bool(flags, 5, too_many_ints, many, S(lengths, 3), S(lengths, 3), bools, 5), CVL_TOO_LONG, -1);
}

/* The integers of a text. */
static CvlStatus read_ints(const char *text, size_t room) { return cvl_read_ints(text, strlen(text), ints, room, &total); }

static char many_words[2 * (CVL_MOST_OF_TEXT + 1)];

static void texts(void) {
    const int32_t *a = I(0, -3, 4);
    const bool *f = B(true, false);
    const size_t most = CVL_MOST_OF_TEXT, many = CVL_MOST_OF_TEXT + 1, too_many = (size_t)CVL_MOST_ELEMENTS + 1;
    FRONT_INTS(read_ints("5 -1\n007 -0", ROOM), 5, -1, 7, 0);
    FRONT_INTS(read_ints("\t-2147483648\r\n2147483647 ", 2), INT32_MIN, 2147483647);
    FRONT_INTS(cvl_read_ints("12345", 3, ints, ROOM, &total), 123);
    TOO_SHORT(read_ints("3 1 4", 2), 3);
    TOO_SHORT(read_ints("3 1 4", 0), 3);
    FAULT(read_ints("2147483648", ROOM), CVL_BAD_INPUT, 0);
    FAULT(read_ints("0 1 -2147483649", ROOM), CVL_BAD_INPUT, 2);
    FAULT(read_ints("1 +2 3", ROOM), CVL_BAD_INPUT, 1);
    FAULT(read_ints("4 - 5", 0), CVL_BAD_INPUT, 1);
    FAULT(read_ints("[1 2]", ROOM), CVL_BAD_INPUT, 0);
    FAULT(cvl_read_ints("1 2\0003", 4, ints, ROOM, &total), CVL_BAD_INPUT, 1);
    memset(many_words, ' ', sizeof many_words);
    for (size_t k = 0; k < most; k++) many_words[2 * k] = '7';
    TOO_SHORT(cvl_read_ints(many_words, 2 * most, ints, ROOM, &total), most);
    many_words[2 * most - 1] = 'x';
    FAULT(cvl_read_ints(many_words, 2 * most, ints, ROOM, &total), CVL_BAD_INPUT, CVL_MOST_OF_TEXT - 1);
    many_words[2 * most] = '7';
    many_words[2 * most - 1] = ' ';
    many_words[0] = 'x';
    FAULT(cvl_read_ints(many_words, 2 * many, ints, ROOM, &total), CVL_BAD_INPUT, 0);
    TEXT(cvl_write_ints(a, 3, bytes, TEXT_ROOM, &total), "[0 -3 4]");
    TEXT(cvl_write_ints(a, 3, bytes, 8, &total), "[0 -3 4]");
    TEXT(cvl_write_ints(I(INT32_MIN, 2147483647), 2, bytes, TEXT_ROOM, &total), "[-2147483648 2147483647]");
    TEXT(cvl_write_ints(a, 0, bytes, TEXT_ROOM, &total), "[]");
    TEXT(cvl_write_ints(a, 0, bytes, 2, &total), "[]");
    TEXT(cvl_write_bools(f, 2, bytes, TEXT_ROOM, &total), "[T F]");
    TEXT(cvl_write_bools(f, 0, bytes, 2, &total), "[]");
    TOO_SHORT(cvl_write_ints(a, 3, bytes, 7, &total), 8);
    TOO_SHORT(cvl_write_ints(a, 0, bytes, 1, &total), 2);
    TOO_SHORT(cvl_write_bools(f, 2, bytes, 0, &total), 5);
    TOO_SHORT(cvl_write_bools(too_many_bools, most, bytes, TEXT_ROOM, &total), 2 * most + 1);
    TOO_SHORT(cvl_write_bools(too_many_bools, many, bytes, TEXT_ROOM, &total), 2 * many + 1);
    FAULT(cvl_write_ints(too_many_ints, too_many, bytes, TEXT_ROOM, &total), CVL_TOO_LONG, -1);
    FAULT(cvl_write_bools(too_many_bools, too_many, bytes, TEXT_ROOM, &total), CVL_TOO_LONG, -1);
}

/* No words, and the text of many integers read again. */
static void texts_of_any_length(void) {
    static int32_t numbers[3000], read[3000];
    static char text[3000 * 12];
    size_t length = 0;
    reset();
    tells("no words", read_ints(" \t\r\n", ROOM), CVL_DONE, -1);
    if (total != 0) fail("no words", "another count");
    leaves("no words", 0, 0);
    reset();
    tells("an empty text", read_ints("", 0), CVL_DONE, -1);
    if (total != 0) fail("an empty text", "another count");
    for (int32_t k = 0; k < 3000; k++) numbers[k] = (k - 1500) * (k * 477 + 1);
    tells("many integers", cvl_write_ints(numbers, 3000, text, sizeof text, &length), CVL_DONE, -1);
    tells("their text", cvl_read_ints(text + 1, length - 2, read, 3000, &total), CVL_DONE, -1);
    if (total != 3000 || memcmp(read, numbers, sizeof numbers) != 0) fail("their text", "other integers");
}

/* Each call on segments without a descriptor, of which there is none here. */
static void without_a_descriptor(const CvlSegments *none) {
    const int32_t *a = I(3, 1, 4, 1, 5), *index = I(0, 0, 0, 0, 0);
    const bool *f = B(true, false, true, false, true);
    FAULT(cvl_segments_total(none, &total), CVL_NO_DESCRIPTOR, -1);
    FAULT(cvl_segments_offsets(none, ints, 1), CVL_NO_DESCRIPTOR, -1);
    FAULT(cvl_segments_numbers(none, ints, 5), CVL_NO_DESCRIPTOR, -1);
    FAULT(cvl_segments_checked_scan(a, 5, none, ints, 5), CVL_NO_DESCRIPTOR, -1);
    FAULT(cvl_segments_checked_reduce(a, 5, none, ints, 3), CVL_NO_DESCRIPTOR, -1);
    FAULT(cvl_segments_int_scan(CVL_SUB, a, 5, none, ints, 5), CVL_NO_DESCRIPTOR, -1);
    FAULT(cvl_segments_int_reduce(CVL_ADD, a, 5, none, ints, 3), CVL_NO_DESCRIPTOR, -1);
    FAULT(cvl_segments_bool_scan(CVL_AND, f, 5, none, bools, 5), CVL_NO_DESCRIPTOR, -1);
    FAULT(cvl_segments_bool_reduce(CVL_AND, f, 5, none, bools, 3), CVL_NO_DESCRIPTOR, -1);
    FAULT(cvl_segments_pack_int(a, 5, f, 5, none, ints, 5, &total), CVL_NO_DESCRIPTOR, -1);
    FAULT(cvl_segments_pack_bool(f, 5, f, 5, none, bools, 5, &total), CVL_NO_DESCRIPTOR, -1);
    FAULT(cvl_segments_packed_lengths(f, 5, none, ints, 3), CVL_NO_DESCRIPTOR, -1);
    FAULT(cvl_segments_count(f, 5, none, ints, 3), CVL_NO_DESCRIPTOR, -1);
    FAULT(cvl_segments_extract_int(a, 5, index, 3, none, ints, 3), CVL_NO_DESCRIPTOR, -1);
    FAULT(cvl_segments_extract_bool(f, 5, index, 3, none, bools, 3), CVL_NO_DESCRIPTOR, -1);
    FAULT(cvl_segments_replace_int(a, 5, index, 3, a, 3, none, ints, 5), CVL_NO_DESCRIPTOR, -1);
    FAULT(cvl_segments_replace_bool(f, 5, index, 3, f, 3, none, bools, 5), CVL_NO_DESCRIPTOR, -1);
    FAULT(cvl_segments_distribute_int(a, 3, none, ints, 5), CVL_NO_DESCRIPTOR, -1);
    FAULT(cvl_segments_distribute_bool(f, 3, none, bools, 5), CVL_NO_DESCRIPTOR, -1);
    FAULT(cvl_segments_index(a, 3, a, 3, none, ints, 5), CVL_NO_DESCRIPTOR, -1);
    FAULT(cvl_segments_permute_int(a, 5, index, 5, none, ints, 5), CVL_NO_DESCRIPTOR, -1);
    FAULT(cvl_segments_permute_bool(f, 5, index, 5, none, bools, 5), CVL_NO_DESCRIPTOR, -1);
    FAULT(cvl_segments_select_permute_int(a, 5, index, 5, f, 5, none, ints, 3), CVL_NO_DESCRIPTOR, -1);
    FAULT(cvl_segments_select_permute_bool(f, 5, index, 5, f, 5, none, bools, 3), CVL_NO_DESCRIPTOR, -1);
    FAULT(cvl_segments_write_ints(a, 5, none, bytes, TEXT_ROOM, &total), CVL_NO_DESCRIPTOR, -1);
    FAULT(cvl_segments_write_bools(f, 5, none, bytes, TEXT_ROOM, &total), CVL_NO_DESCRIPTOR, -1);
}

/* Calls on two descriptors, of which one is none. */
static void without_one_of_two(const CvlSegments *segments, const CvlSegments *others) {
    const int32_t *a = I(3, 1, 4, 1, 5), *index = I(0, 0, 0, 0, 0);
    const bool *f = B(true, false, true, false, true);
    FAULT(cvl_segments_default_permute_int(a, 5, index, 5, a, 5, segments, others, ints, 5), CVL_NO_DESCRIPTOR, -1);
    FAULT(cvl_segments_default_permute_bool(f, 5, index, 5, f, 5, segments, others, bools, 5), CVL_NO_DESCRIPTOR, -1);
    FAULT(cvl_segments_back_permute_int(a, 5, index, 5, segments, others, ints, 5), CVL_NO_DESCRIPTOR, -1);
    FAULT(cvl_segments_back_permute_bool(f, 5, index, 5, segments, others, bools, 5), CVL_NO_DESCRIPTOR, -1);
}

/* Each call on segments on one descriptor, which stays as it is. */
static void with_a_descriptor(const CvlSegments *d, const CvlSegments *wide, const CvlSegments *narrow) {
    const int32_t *a = I(3, 1, 4, 1, 5), *up = I(1, 2, 3, 4, 5);
    const bool *f = B(true, false, true, false, true), *flags = B(false, true, true, false, true);
    counts("cvl_segments_total", (reset(), cvl_segments_total(d, &total)), CVL_DONE, 5);
    INTS(cvl_segments_offsets(d, ints, 4), 0, 2, 2, 5);
    INTS(cvl_segments_numbers(d, ints, 5), 0, 0, 2, 2, 2);
    FAULT(cvl_segments_offsets(d, ints, 3), CVL_LENGTH_MISMATCH, -1);
    FAULT(cvl_segments_numbers(d, ints, 4), CVL_LENGTH_MISMATCH, -1);
    INTS(cvl_segments_checked_scan(a, 5, d, ints, 5), 0, 3, 0, 4, 5);
    INTS(cvl_segments_checked_reduce(a, 5, d, ints, 3), 4, 0, 10);
    INTS(cvl_segments_int_scan(CVL_MUL, a, 5, d, ints, 5), 1, 3, 1, 4, 4);
    INTS(cvl_segments_int_reduce(CVL_MAX, a, 5, d, ints, 3), 3, INT32_MIN, 5);
    BOOLS(cvl_segments_bool_scan(CVL_IOR, f, 5, d, bools, 5), false, true, false, true, true);
    BOOLS(cvl_segments_bool_reduce(CVL_AND, f, 5, d, bools, 3), false, true, false);
    COUNTED_INTS(cvl_segments_pack_int(up, 5, flags, 5, d, ints, 5, &total), 2, 3, 5);
    COUNTED_BOOLS(cvl_segments_pack_bool(f, 5, flags, 5, d, bools, 5, &total), false, true, true);
    INTS(cvl_segments_packed_lengths(flags, 5, d, ints, 3), 1, 0, 2);
    INTS(cvl_segments_count(flags, 5, d, ints, 3), 1, 0, 2);
    FAULT(cvl_segments_extract_int(up, 5, I(0, 0, 0), 3, d, ints, 3), CVL_INDEX_OUT_OF_RANGE, 1);
    INTS(cvl_segments_extract_int(up, 5, I(1, 2), 2, narrow, ints, 2), 2, 5);
    BOOLS(cvl_segments_extract_bool(f, 5, I(1, 2), 2, narrow, bools, 2), false, true);
    INTS(cvl_segments_replace_int(up, 5, I(0, 1), 2, I(8, 9), 2, narrow, ints, 5), 8, 2, 3, 9, 5);
    BOOLS(cvl_segments_replace_bool(f, 5, I(1, 2), 2, B(true, false), 2, narrow, bools, 5), true, true, true, false, false);
    INTS(cvl_segments_distribute_int(I(7, 8, 9), 3, d, ints, 5), 7, 7, 9, 9, 9);
    BOOLS(cvl_segments_distribute_bool(B(true, true, false), 3, d, bools, 5), true, true, false, false, false);
    INTS(cvl_segments_index(I(0, 5, 10), 3, I(1, 1, -2), 3, d, ints, 5), 0, 1, 10, 8, 6);
    INTS(cvl_segments_permute_int(up, 5, I(1, 0, 2, 0, 1), 5, d, ints, 5), 2, 1, 4, 5, 3);
    BOOLS(cvl_segments_permute_bool(f, 5, I(1, 0, 2, 0, 1), 5, d, bools, 5), false, true, false, true, true);
    INTS(cvl_segments_select_permute_int(up, 5, I(9, 0, 1, 9, 0), 5, flags, 5, d, ints, 3), 2, 5, 3);
    BOOLS(cvl_segments_select_permute_bool(f, 5, I(9, 0, 1, 9, 0), 5, flags, 5, d, bools, 3), false, true, true);
    INTS(
        cvl_segments_default_permute_int(up, 5, I(2, 0, 0, 1, 2), 5, I(0, 0, 0, 9, 0, 0, 0), 7, d, wide, ints, 7), 2, 0, 1, 9, 3,
        4, 5);
    BOOLS(
        cvl_segments_default_permute_bool(f, 5, I(2, 0, 0, 1, 2), 5, B(0, 0, 0, 1, 0, 0, 0), 7, d, wide, bools, 7), false, false,
        true, true, true, false, true);
    INTS(cvl_segments_back_permute_int(up, 5, I(0, 1, 1, 2, 1, 0, 2), 7, narrow, narrow + 1, ints, 7), 1, 2, 2, 5, 4, 3, 5);
    BOOLS(
        cvl_segments_back_permute_bool(f, 5, I(0, 1, 1, 2, 1, 0, 2), 7, narrow, narrow + 1, bools, 7), true, false, false, true,
        false, true, true);
    TEXT(cvl_segments_write_ints(a, 5, d, bytes, TEXT_ROOM, &total), "[[3 1] [] [4 1 5]]");
    TEXT(cvl_segments_write_bools(f, 5, d, bytes, TEXT_ROOM, &total), "[[T F] [] [T F T]]");
    FAULT(cvl_segments_int_scan(CVL_SUB, a, 5, d, ints, 5), CVL_UNKNOWN_CALL, -1);
    FAULT(cvl_segments_int_scan(CVL_ADD, a, 5, d, ints, 4), CVL_LENGTH_MISMATCH, -1);
    FAULT(cvl_segments_bool_scan(CVL_AND, f, 4, d, bools, 5), CVL_LENGTH_MISMATCH, -1);
    FAULT(cvl_segments_checked_scan(I(1, 2, 2147483647, 1, 1), 5, d, ints, 5), CVL_OVERFLOW, 4);
}

/* Descriptors of segments that start at offsets. */
static void descriptors_of_offsets(void) {
    const int32_t *a = I(3, 1, 4, 1, 5);
    int32_t some[3] = {7, 7, 7};
    CvlSegments made = CVL_NO_SEGMENTS;
    INTS(cvl_segments_from_offsets(I(0, 2, 2, 5), 4, ints, 3, &made), 2, 0, 3);
    FAULT(cvl_segments_from_offsets(I(0, 2, 2, 5), 4, some, 3, &made), CVL_DONE, -1);
    INTS(cvl_segments_int_reduce(CVL_ADD, a, 5, &made, ints, 3), 4, 0, 10);
    /* where the last offset is not the number of elements, the call on these tells it */
    FAULT(cvl_segments_int_reduce(CVL_ADD, a, 4, &made, ints, 3), CVL_LENGTH_MISMATCH, -1);
    FAULT(cvl_segments_from_offsets(I(0, 3, 2, 1), 4, some, 3, &made), CVL_NEGATIVE_LENGTH, 1);
    without_a_descriptor(&made);
    FAULT(cvl_segments_from_offsets(I(0, INT32_MIN), 2, some, 1, &made), CVL_NEGATIVE_LENGTH, 0);
    FAULT(cvl_segments_from_offsets(I(1, 5, 3), 3, some, 2, &made), CVL_LENGTH_MISMATCH, -1);
    FAULT(cvl_sparse_product_by_offsets(I(1, 5, 3), 3, a, 5, a, 5, a, 5, ints, 2), CVL_LENGTH_MISMATCH, -1);
    FAULT(cvl_segments_from_offsets(I(INT32_MIN, INT32_MAX), 2, some, 1, &made), CVL_LENGTH_MISMATCH, -1);
    FAULT(cvl_segments_from_offsets(I(1, 2), 2, some, 1, &made), CVL_LENGTH_MISMATCH, -1);
    FAULT(cvl_segments_from_offsets(a, 0, some, 0, &made), CVL_LENGTH_MISMATCH, -1);
    FAULT(cvl_segments_from_offsets(I(0, 2, 2, 5), 4, some, 2, &made), CVL_LENGTH_MISMATCH, -1);
    FAULT(cvl_segments_from_offsets(too_many_ints, (size_t)CVL_MOST_ELEMENTS + 2, some, 3, &made), CVL_TOO_LONG, -1);
    FAULT(cvl_segments_from_offsets(I(0, 2, 2, 5), 4, some, 3, NULL), CVL_NO_DESCRIPTOR, -1);
    FAULT(cvl_segments_from_offsets(I(1, 2), 2, some, 1, NULL), CVL_LENGTH_MISMATCH, -1);
    INTS(cvl_segments_from_offsets(I(0, CVL_MOST_ELEMENTS), 2, ints, 1, &made), CVL_MOST_ELEMENTS);
    FAULT(cvl_segments_from_offsets(I(0), 1, NULL, 0, &made), CVL_DONE, -1);
    INTS(cvl_segments_offsets(&made, ints, 1), 0);
    FAULT(cvl_segments_numbers(&made, NULL, 0), CVL_DONE, -1);
    if (memcmp(some, I(2, 0, 3), sizeof some) != 0) fail("cvl_segments_from_offsets", "after a fault lengths were written");
    refusing = 1;
    FAULT(cvl_segments_from_offsets(I(0, 2, 2, 5), 4, some, 3, &made), CVL_DONE, -1);
    tells("offsets without memory", cvl_segments_offsets(&made, ints, 4), CVL_DONE, -1);
    FAULT(cvl_segments_numbers(&made, ints, 5), CVL_NO_RESOURCES, -1);
    refusing = 0;
    FAULT(cvl_segments_free(&made), CVL_DONE, -1);
}

static void made_descriptors(void) {
    /* named, since a descriptor is used for longer than a literal lives in a row */
    int32_t lengths[] = {2, 0, 3};
    const int32_t widths[] = {3, 1, 3}, fronts[] = {2, 3}, backs[] = {3, 4};
    const int32_t *a = I(3, 1, 4, 1, 5);
    CvlSegments made = CVL_NO_SEGMENTS, wide = CVL_NO_SEGMENTS, narrow[] = {CVL_NO_SEGMENTS, CVL_NO_SEGMENTS}, copy;
    without_a_descriptor(&made);
    without_a_descriptor(NULL);
    FAULT(cvl_segments_free(&made), CVL_DONE, -1);
    FAULT(cvl_segments_free(NULL), CVL_DONE, -1);
    FAULT(cvl_segments_new(S(lengths, 3), NULL), CVL_NO_DESCRIPTOR, -1);
    FAULT(cvl_segments_new(S(I(1, -1), 2), NULL), CVL_NEGATIVE_LENGTH, 1);
    FAULT(cvl_segments_new(S(lengths, 3), &made), CVL_DONE, -1);
    FAULT(cvl_segments_new(S(widths, 3), &wide), CVL_DONE, -1);
    FAULT(cvl_segments_new(S(fronts, 2), &narrow[0]), CVL_DONE, -1);
    FAULT(cvl_segments_new(S(backs, 2), &narrow[1]), CVL_DONE, -1);
    /* an overlap leaves a descriptor as it was */
    FAULT(cvl_segments_new(S((const int32_t *)(const void *)&made, 1), &made), CVL_OVERLAP, -1);
    FAULT(cvl_segments_from_offsets(I(0, 2), 2, (int32_t *)(void *)&made, 1, &made), CVL_OVERLAP, -1);
    copy = made;
    with_a_descriptor(&made, &wide, narrow);
    with_a_descriptor(&copy, &wide, narrow);
    refusing = 1;
    FAULT(cvl_segments_new(S(lengths, 3), &made), CVL_DONE, -1);
    refusing = 0;
    /* lengths that are changed are those of the call, and wrong ones are told */
    lengths[1] = 1;
    FAULT(cvl_segments_int_scan(CVL_ADD, a, 5, &made, ints, 5), CVL_LENGTH_MISMATCH, -1);
    lengths[2] = 2;
    INTS(cvl_segments_int_reduce(CVL_ADD, a, 5, &made, ints, 3), 4, 4, 6);
    lengths[1] = -1;
    FAULT(cvl_segments_int_scan(CVL_ADD, a, 5, &made, ints, 5), CVL_NEGATIVE_LENGTH, 1);
    FAULT(cvl_segments_permute_int(a, 5, a, 5, &made, ints, 5), CVL_NEGATIVE_LENGTH, 1);
    lengths[1] = CVL_MOST_ELEMENTS;
    FAULT(cvl_segments_count(B(true, true, true, true, true), 5, &made, ints, 3), CVL_TOO_LONG, -1);
    FAULT(cvl_segments_new(S(lengths, 3), &made), CVL_TOO_LONG, -1);
    without_a_descriptor(&made);
    FAULT(cvl_segments_new(S(I(1, -1), 2), &made), CVL_NEGATIVE_LENGTH, 1);
    FAULT(cvl_segments_new(S(too_many_ints, (size_t)CVL_MOST_ELEMENTS + 1), &made), CVL_TOO_LONG, -1);
    without_one_of_two(&made, &wide);
    without_one_of_two(&wide, &made);
    without_one_of_two(&wide, NULL);
    without_one_of_two(NULL, &wide);
    FAULT(cvl_segments_new(S(a, 0), &made), CVL_DONE, -1);
    reset();
    counts("no segments", cvl_segments_total(&made, &total), CVL_DONE, 0);
    FAULT(cvl_segments_free(&made), CVL_DONE, -1);
    FAULT(cvl_segments_free(&made), CVL_DONE, -1);
    without_a_descriptor(&made);
    without_a_descriptor(&(CvlSegments){a, 0, false});
}

/* A nested text, read into rooms of these lengths. */
static CvlStatus read_nest(const char *text, size_t room, size_t lists_room) {
    return cvl_seg_read_ints(text, strlen(text), ints, room, &total, lists, lists_room, &list_count);
}

static void leaves_lists(const char *text, size_t first) {
    for (size_t k = first; k < ROOM; k++) {
        if (lists[k] != UNTOUCHED) fail(text, "a length was written");
    }
}

/* The text has these integers and lengths, in rooms that are just long enough and in longer ones; and without memory none. */
static void reads_nest(const char *text, const int32_t *numbers, size_t count, const int32_t *lengths, size_t segments) {
    for (int spare = 0; spare < 2; spare++) {
        reset();
        tells(text, read_nest(text, count + spare, segments + spare), CVL_DONE, -1);
        if (total != count || list_count != segments) fail(text, "other counts");
        holds_ints(text, numbers, count);
        if (memcmp(lists, lengths, segments * sizeof *lengths) != 0) fail(text, "other lengths");
        leaves_lists(text, segments);
    }
    NO_MEMORY(read_nest(text, ROOM, ROOM));
    leaves_lists(text, 0);
    if (total != UNTOUCHED || list_count != UNTOUCHED) fail(text, "a count was written");
}

static void nest_too_short(const char *text, size_t room, size_t lists_room, size_t count, size_t segments) {
    TOO_SHORT(read_nest(text, room, lists_room), count);
    leaves_lists(text, 0);
    if (list_count != segments) fail(text, "another number of lengths is needed");
}

static void nest_fault(const char *text, int64_t place) {
    FAULT(read_nest(text, ROOM, ROOM), CVL_BAD_INPUT, place);
    leaves_lists(text, 0);
    if (list_count != UNTOUCHED) fail(text, "the number of lengths was written");
}

static void nested_texts(void) {
    const int32_t *a = I(5, 1, 7), *lengths = I(0, 2, 1);
    const bool *f = B(true, false);
    const size_t many = (size_t)CVL_MOST_OF_TEXT + 1, too_many = (size_t)CVL_MOST_ELEMENTS + 1;
    reads_nest("[[1 2] [] [3]]", I(1, 2, 3), 3, I(2, 0, 1), 3);
    reads_nest("[[5][1]]", I(5, 1), 2, I(1, 1), 2);
    reads_nest(" [[-2147483648\n2147483647]\t] ", I(INT32_MIN, 2147483647), 2, I(2), 1);
    reads_nest("[]", a, 0, a, 0);
    reads_nest("[[] []]", a, 0, I(0, 0), 2);
    nest_too_short("[[1 2] [] [3]]", 2, 3, 3, 3);
    nest_too_short("[[1 2] [] [3]]", 3, 2, 3, 3);
    nest_too_short("[[1 2] []]", 0, 0, 2, 2);
    nest_fault("[[1 2] [] 3]", 7);
    nest_fault("[[1 2]", 5);
    nest_fault("[[1]] 2", 5);
    nest_fault("[[2147483648]]", 2);
    nest_fault("[[+1]]", 2);
    nest_fault("1 2", 0);
    nest_fault("", 0);
    memset(many_words, '[', sizeof many_words);
    FAULT(cvl_seg_read_ints(many_words, many + 1, ints, ROOM, &total, lists, ROOM, &list_count), CVL_TOO_LONG, -1);
    FAULT(cvl_seg_read_ints(many_words, many, ints, ROOM, &total, lists, ROOM, &list_count), CVL_BAD_INPUT, 2);
    TEXT(cvl_seg_write_ints(a, 3, S(lengths, 3), bytes, TEXT_ROOM, &total), "[[] [5 1] [7]]");
    TEXT(cvl_seg_write_ints(a, 3, S(lengths, 3), bytes, 14, &total), "[[] [5 1] [7]]");
    TEXT(cvl_seg_write_ints(I(INT32_MIN), 1, S(I(1), 1), bytes, TEXT_ROOM, &total), "[[-2147483648]]");
    TEXT(cvl_seg_write_ints(a, 0, S(lengths, 0), bytes, TEXT_ROOM, &total), "[]");
    TEXT(cvl_seg_write_ints(a, 0, S(lengths, 0), bytes, 2, &total), "[]");
    TEXT(cvl_seg_write_ints(a, 0, S(I(0, 0), 2), bytes, TEXT_ROOM, &total), "[[] []]");
    TEXT(cvl_seg_write_bools(f, 2, S(I(1, 1), 2), bytes, TEXT_ROOM, &total), "[[T] [F]]");
    TOO_SHORT(cvl_seg_write_ints(a, 3, S(lengths, 3), bytes, 13, &total), 14);
    TOO_SHORT(cvl_seg_write_bools(f, 2, S(I(1, 1), 2), bytes, 0, &total), 9);
    FAULT(cvl_seg_write_ints(a, 3, S(I(1, 1), 2), bytes, TEXT_ROOM, &total), CVL_LENGTH_MISMATCH, -1);
    FAULT(cvl_seg_write_ints(a, 3, S(I(4, -1), 2), bytes, TEXT_ROOM, &total), CVL_NEGATIVE_LENGTH, 1);
    FAULT(cvl_seg_write_ints(a, 3, S(too_many_ints, too_many), bytes, TEXT_ROOM, &total), CVL_TOO_LONG, -1);
    FAULT(cvl_seg_write_bools(f, 2, S(I(2, -2), 2), bytes, TEXT_ROOM, &total), CVL_NEGATIVE_LENGTH, 1);
    FAULT(
        cvl_seg_write_bools(too_many_bools, too_many, S(I(CVL_MOST_ELEMENTS, 1), 2), bytes, TEXT_ROOM, &total), CVL_TOO_LONG, -1);
    TOO_SHORT(cvl_seg_write_bools(too_many_bools, many, S(I(CVL_MOST_OF_TEXT, 1), 2), bytes, TEXT_ROOM, &total), 2 * many + 5);
}

/*
 * Each call that takes memory once more, on 4,194,304 elements, the most of a nested text, and over a million segments, beyond each length at which its
 * body changes its way. A row says for each place of the result where its element stands; the call is read against that.
 */
enum { MOST = CVL_MOST_OF_TEXT, LONG_SEGMENT = 5000, SHORTER_SEGMENT = 40, LONG_TEXT = 16 * MOST };

static int32_t long_ints[MOST + 1], other_ints[MOST + 1], int_room[MOST + 1];
static bool long_bools[MOST], other_bools[MOST], bool_room[MOST], taking_part[MOST];
static int32_t long_index[MOST], long_lengths[MOST], half_lengths[MOST], length_room[MOST];
static char long_text[LONG_TEXT], text_room[LONG_TEXT];
static size_t long_segments, text_length;

/* For each place of a result the place of its element in the vector, or -1 - k where it is at place k of the other vector. */
static int32_t from[MOST];

/* The vectors, and the lengths of a long segment, a shorter one, and some of 1 to 3 elements for all others. */
static void make_long_vectors(void) {
    size_t left = MOST;
    for (int32_t k = 0; k < MOST; k++) {
        long_ints[k] = k * 509 - 1000000000;
        other_ints[k] = -k;
        long_bools[k] = k % 3 == 0;
        other_bools[k] = k % 5 == 0;
        taking_part[k] = k % 4 != 1;
    }
    for (size_t s = 0; left > 0; s++) {
        size_t length = s == 0 ? LONG_SEGMENT : s == 1 ? SHORTER_SEGMENT : 1 + s % 3;
        if (length > left) length = left;
        long_lengths[s] = (int32_t)length;
        half_lengths[s] = (int32_t)(length / 2);
        left -= length;
        long_segments = s + 1;
    }
}

/* The call is done, and the room has so many elements, each from where it should be. */
#define LONG_ROW(call, vector, others, room, count)                                   \
    do {                                                                              \
        memset(room, 0, sizeof room);                                                 \
        calls++;                                                                      \
        tells(#call, call, CVL_DONE, -1);                                             \
        for (size_t k = 0; k < (count); k++) {                                        \
            if (room[k] != (from[k] >= 0 ? vector[from[k]] : others[-1 - from[k]])) { \
                fail(#call, "another element in a long row");                         \
                break;                                                                \
            }                                                                         \
        }                                                                             \
    } while (0)
#define LONG_INTS(call, count) LONG_ROW(call, long_ints, other_ints, int_room, count)
#define LONG_BOOLS(call, count) LONG_ROW(call, long_bools, other_bools, bool_room, count)

static void long_permutes(void) {
    const int32_t *a = long_ints, *b = other_ints, *index = long_index;
    const bool *f = long_bools, *g = other_bools, *flags = taking_part;
    const size_t n = MOST, half = MOST / 2;
    size_t taken = 0, left;
    for (uint32_t k = 0; k < MOST; k++) {
        uint32_t to = k * 2654435761u % MOST;
        long_index[k] = (int32_t)to;
        from[to] = (int32_t)k;
    }
    LONG_INTS(cvl_permute_int(a, n, index, n, int_room, n), n);
    LONG_BOOLS(cvl_permute_bool(f, n, index, n, bool_room, n), n);
    for (int32_t k = 0; k < MOST; k++) taken += flags[k];
    left = taken;
    for (int32_t k = 0; k < MOST; k++) {
        long_index[k] = -1;
        if (!flags[k]) continue;
        left--;
        long_index[k] = (int32_t)left;
        from[left] = k;
    }
    LONG_INTS(cvl_select_permute_int(a, n, index, n, flags, n, int_room, taken), taken);
    LONG_BOOLS(cvl_select_permute_bool(f, n, index, n, flags, n, bool_room, taken), taken);
    for (int32_t k = 0; k < MOST / 2; k++) {
        long_index[k] = 2 * k + 1;
        from[2 * k] = -1 - 2 * k;
        from[2 * k + 1] = k;
    }
    LONG_INTS(cvl_default_permute_int(a, half, index, half, b, n, int_room, n), n);
    LONG_BOOLS(cvl_default_permute_bool(f, half, index, half, g, n, bool_room, n), n);
    for (int32_t k = 0; k < MOST; k++) from[k] = k;
    from[MOST - 1] = -1;
    LONG_INTS(cvl_replace_int(a, n, MOST - 1, b[0], int_room, n), n);
    LONG_BOOLS(cvl_replace_bool(f, n, MOST - 1, g[0], bool_room, n), n);
}

static void long_permutes_of_segments(void) {
    const int32_t *a = long_ints, *b = other_ints, *index = long_index, *d = long_lengths, *e = half_lengths;
    const bool *f = long_bools, *g = other_bools, *flags = taking_part;
    const size_t n = MOST, segments = long_segments;
    int32_t start = 0, taken = 0, half = 0;
    for (size_t s = 0; s < segments; start += d[s++]) {
        for (int32_t j = 0; j < d[s]; j++) {
            long_index[start + j] = d[s] - 1 - j;
            from[start + d[s] - 1 - j] = start + j;
        }
    }
    LONG_INTS(cvl_seg_permute_int(a, n, index, n, S(d, segments), int_room, n), n);
    LONG_BOOLS(cvl_seg_permute_bool(f, n, index, n, S(d, segments), bool_room, n), n);
    LONG_INTS(cvl_seg_back_permute_int(a, n, index, n, S(d, segments), S(d, segments), int_room, n), n);
    LONG_BOOLS(cvl_seg_back_permute_bool(f, n, index, n, S(d, segments), S(d, segments), bool_room, n), n);
    start = 0;
    for (size_t s = 0; s < segments; start += d[s++]) {
        int32_t first = taken, left;
        for (int32_t j = 0; j < d[s]; j++) taken += flags[start + j];
        left = taken - first;
        for (int32_t j = 0; j < d[s]; j++) {
            long_index[start + j] = -1;
            if (!flags[start + j]) continue;
            left--;
            long_index[start + j] = left;
            from[first + left] = start + j;
        }
    }
    LONG_INTS(cvl_seg_select_permute_int(a, n, index, n, flags, n, S(d, segments), int_room, taken), (size_t)taken);
    LONG_BOOLS(cvl_seg_select_permute_bool(f, n, index, n, flags, n, S(d, segments), bool_room, taken), (size_t)taken);
    start = 0;
    for (size_t s = 0; s < segments; start += d[s++]) {
        for (int32_t j = 0; j < d[s]; j++) from[start + j] = -1 - (start + j);
        for (int32_t j = 0; j < e[s]; j++) {
            long_index[half] = 2 * j + 1;
            from[start + 2 * j + 1] = half++;
        }
    }
    LONG_INTS(cvl_seg_default_permute_int(a, half, index, half, b, n, S(e, segments), S(d, segments), int_room, n), n);
    LONG_BOOLS(cvl_seg_default_permute_bool(f, half, index, half, g, n, S(e, segments), S(d, segments), bool_room, n), n);
}

static void long_calls_of_segments(void) {
    const int32_t *a = long_ints, *b = other_ints, *index = long_index, *d = long_lengths;
    const bool *f = long_bools, *g = other_bools;
    const size_t n = MOST, segments = long_segments;
    int32_t start = 0;
    for (size_t s = 0; s < segments; start += d[s++]) {
        long_index[s] = d[s] - 1;
        from[s] = start + d[s] - 1;
    }
    LONG_INTS(cvl_seg_extract_int(a, n, index, segments, S(d, segments), int_room, segments), segments);
    LONG_BOOLS(cvl_seg_extract_bool(f, n, index, segments, S(d, segments), bool_room, segments), segments);
    for (int32_t k = 0; k < MOST; k++) from[k] = k;
    start = 0;
    for (size_t s = 0; s < segments; start += d[s++]) from[start + d[s] - 1] = -1 - (int32_t)s;
    LONG_INTS(cvl_seg_replace_int(a, n, index, segments, b, segments, S(d, segments), int_room, n), n);
    LONG_BOOLS(cvl_seg_replace_bool(f, n, index, segments, g, segments, S(d, segments), bool_room, n), n);
    start = 0;
    for (size_t s = 0; s < segments; start += d[s++]) {
        for (int32_t j = 0; j < d[s]; j++) from[start + j] = (int32_t)s;
    }
    LONG_INTS(cvl_seg_distribute_int(a, segments, S(d, segments), int_room, n), n);
    LONG_BOOLS(cvl_seg_distribute_bool(f, segments, S(d, segments), bool_room, n), n);
}

/* The numbers of segments whose inits and strides give 0, -1, -2 and so on, and sums of segments that give these. */
static void long_numbers_of_segments(void) {
    const int32_t *d = long_lengths;
    const size_t n = MOST, segments = long_segments;
    int32_t start = 0;
    for (int32_t k = 0; k < MOST; k++) from[k] = -1 - k;
    for (size_t s = 0; s < segments; start += d[s++]) {
        long_index[s] = -start;
        length_room[s] = -1;
    }
    LONG_INTS(cvl_seg_index(long_index, segments, length_room, segments, S(d, segments), int_room, n), n);
    start = 0;
    for (size_t s = 0; s < segments; start += d[s++]) {
        for (int32_t j = 1; j < d[s]; j++) long_index[start + j] = j % 2 == 1 ? 1 : -1;
        long_index[start] = -(int32_t)s - (d[s] % 2 == 0);
    }
    LONG_INTS(cvl_seg_checked_reduce(long_index, n, S(d, segments), int_room, segments), segments);
}

/* Scans in place, of many short segments by one loop and of a long one among them by its own, are those into another array. */
static void long_scans_in_place(void) {
    static const uint32_t operators[] = {CVL_ADD, CVL_MUL, CVL_MAX, CVL_MIN, CVL_AND, CVL_IOR, CVL_XOR};
    static int32_t ints[MOST];
    static bool bools[MOST];
    const CvlLengths d = S(long_lengths, long_segments);
    const size_t n = MOST;
    for (size_t k = 0; k < sizeof operators / sizeof *operators; k++) {
        const uint32_t op = operators[k];
        memcpy(ints, long_ints, sizeof ints);
        tells("a scan into an array", cvl_seg_int_scan(op, long_ints, n, d, int_room, n), CVL_DONE, -1);
        tells("a scan in place", cvl_seg_int_scan(op, ints, n, d, ints, n), CVL_DONE, -1);
        if (memcmp(ints, int_room, sizeof ints) != 0) fail("a scan in place", "other integers");
        calls += 2;
        if (op != CVL_AND && op != CVL_IOR && op != CVL_XOR) continue;
        memcpy(bools, long_bools, sizeof bools);
        tells("a scan of booleans", cvl_seg_bool_scan(op, long_bools, n, d, bool_room, n), CVL_DONE, -1);
        tells("a scan of booleans in place", cvl_seg_bool_scan(op, bools, n, d, bools, n), CVL_DONE, -1);
        if (memcmp(bools, bool_room, sizeof bools) != 0) fail("a scan of booleans in place", "other booleans");
        calls += 2;
    }
}

/* Appends the decimal of a number to the long text. */
static void put_decimal(int32_t number) {
    char digits[10];
    int count = 0;
    int64_t left = number < 0 ? -(int64_t)number : number;
    do digits[count++] = (char)('0' + left % 10);
    while ((left /= 10) > 0);
    if (number < 0) long_text[text_length++] = '-';
    while (count > 0) long_text[text_length++] = digits[--count];
}

/* Appends the text of so many integers, or booleans, from a place on. */
static void put_vector(int are_ints, int32_t start, int32_t count) {
    long_text[text_length++] = '[';
    for (int32_t k = start; k < start + count; k++) {
        if (k > start) long_text[text_length++] = ' ';
        if (are_ints) {
            put_decimal(long_ints[k]);
        } else {
            long_text[text_length++] = long_bools[k] ? 'T' : 'F';
        }
    }
    long_text[text_length++] = ']';
}

static void put_nest(int are_ints) {
    int32_t start = 0;
    text_length = 0;
    long_text[text_length++] = '[';
    for (size_t s = 0; s < long_segments; start += long_lengths[s++]) {
        if (s > 0) long_text[text_length++] = ' ';
        put_vector(are_ints, start, long_lengths[s]);
    }
    long_text[text_length++] = ']';
}

/* The call writes the long text. */
#define LONG_WRITE(call)                                                                                              \
    do {                                                                                                              \
        reset();                                                                                                      \
        tells(#call, call, CVL_DONE, -1);                                                                             \
        if (total != text_length || memcmp(text_room, long_text, text_length) != 0) fail(#call, "another long text"); \
    } while (0)

static void long_texts(void) {
    text_length = 0;
    put_vector(0, 0, MOST);
    LONG_WRITE(cvl_write_bools(long_bools, MOST, text_room, LONG_TEXT, &total));
    put_nest(0);
    LONG_WRITE(cvl_seg_write_bools(long_bools, MOST, S(long_lengths, long_segments), text_room, LONG_TEXT, &total));
    for (int32_t k = 0; k < MOST; k++) from[k] = k;
    text_length = 0;
    put_vector(1, 0, MOST);
    LONG_WRITE(cvl_write_ints(long_ints, MOST, text_room, LONG_TEXT, &total));
    LONG_INTS(cvl_read_ints(long_text + 1, text_length - 2, int_room, MOST, &total), MOST);
    put_nest(1);
    LONG_WRITE(cvl_seg_write_ints(long_ints, MOST, S(long_lengths, long_segments), text_room, LONG_TEXT, &total));
    LONG_INTS(cvl_seg_read_ints(long_text, text_length, int_room, MOST, &total, length_room, MOST, &list_count), MOST);
    if (total != MOST || list_count != long_segments) fail("a long nested text", "other counts");
    if (memcmp(length_room, long_lengths, long_segments * sizeof *long_lengths) != 0) fail("a long nested text", "other lengths");
}

static void long_rows(void) {
    make_long_vectors();
    long_permutes();
    long_permutes_of_segments();
    long_calls_of_segments();
    long_numbers_of_segments();
    long_scans_in_place();
    long_texts();
}

/* Booleans of any bytes, where they lie. */
static void odd_booleans(void) {
    const bool *f = O(2, 255, 0, 0), *g = O(128, 0, 1, 0), *flags = O(0, 2, 255, 0, 128);
    const int32_t *lengths = I(2, 0, 3);
    unsigned char made[] = {0, 1, 2, 255};
    BOOLS(and_wub(f, g, bools, 4), true, false, false, false);
    BOOLS(ior_wub(f, g, bools, 4), true, true, true, false);
    BOOLS(xor_wub(f, g, bools, 4), false, true, true, false);
    BOOLS(not_wub(O(0, 3, 255), bools, 3), true, false, false);
    BOOLS(cpy_wub(O(0, 3, 255), bools, 3), false, true, true);
    INTS(int_wub(O(0, 3, 255), ints, 3), 0, 1, 1);
    INTS(sel_wuz(O(2, 0, 0), I(5, 0, 5), I(1, 1, 1), ints, 3), 5, 1, 1);
    BOOLS(sel_wub(O(4, 0, 8), O(16, 0, 0), O(0, 0, 32), bools, 3), true, false, false);
    BOOLS(and_rub(O(1, 2, 4), 3, bools), true);
    BOOLS(xor_rub(O(1, 2, 4), 3, bools), true);
    INTS(cnt_lub(flags, 5, ints), 3);
    BOOLS(ext_vub(O(0, 64), 2, 1, bools), true);
    BOOLS(ext_veb(O(0, 2, 4), 3, I(0, 1), S(I(1, 2), 2), bools), false, true);
    BOOLS(rep_vub(O(3, 0, 5, 0, 0), 1, true, bools, 5), true, true, true, false, false);
    BOOLS(rep_vub(O(3, 0, 5), 2, false, bools, 3), true, false, false);
    BOOLS(ior_reb(flags, 5, S(lengths, 3), bools), true, false, true);
    INTS(cnt_leb(flags, 5, S(lengths, 3), ints), 1, 0, 2);
    INTS(pck_fov(flags, 5, S(lengths, 3), ints), 1, 0, 2);
    if (!cvl_are_flags(B(true, false), 2) || !cvl_are_flags(NULL, 0) || cvl_are_flags(O(1, 0, 2), 3))
        fail("cvl_are_flags", "another answer");
    cvl_make_flags((bool *)made, 4);
    if (memcmp(made, B(false, true, true, true), 4) != 0) fail("cvl_make_flags", "other booleans");
}

/* Indices of 64 bits: those outside 32 bits become -1, and the rest stay. */
static void narrow_indices(void) {
    const int64_t index[] = {
        3, 0, -1, INT32_MAX, INT32_MIN, (int64_t)INT32_MAX + 1, (int64_t)INT32_MIN - 1, (int64_t)1 << 32, INT64_MAX, INT64_MIN};
    enum { COUNT = sizeof index / sizeof *index };
    const int32_t wanted[COUNT] = {3, 0, -1, INT32_MAX, INT32_MIN, -1, -1, -1, -1, -1};
    int64_t both[COUNT];
    int32_t found[COUNT + 1] = {[COUNT] = 7}, before[COUNT + 1];
    CvlStatus status = cvl_narrow_index(index, COUNT, found, COUNT);
    if (status.number != CVL_DONE || memcmp(found, wanted, sizeof wanted) != 0 || found[COUNT] != 7)
        fail("cvl_narrow_index", "other indices");
    memcpy(before, found, sizeof found);
    for (size_t count = 0; count <= COUNT + 1; count++) {
        status = cvl_narrow_index(index, COUNT, found, count);
        if (count != COUNT && (status.number != CVL_LENGTH_MISMATCH || status.place != -1))
            fail("cvl_narrow_index", "a room of another length");
    }
    status = cvl_narrow_index(NULL, 0, NULL, 0);
    if (status.number != CVL_DONE || memcmp(before, found, sizeof found) != 0) fail("cvl_narrow_index", "no indices");
    memcpy(both, index, sizeof index);
    for (size_t from = 0; from < COUNT; from++) {
        status = cvl_narrow_index(both, COUNT, (int32_t *)both + from, COUNT);
        if (status.number != CVL_OVERLAP || memcmp(both, index, sizeof index) != 0)
            fail("cvl_narrow_index", "a room in the same memory");
    }
    /* as a call takes them, with the fault where it stands */
    if (cvl_bck_puz(wanted, COUNT, found, before, 2).number != CVL_DONE) fail("cvl_narrow_index", "places in range");
    status = cvl_bck_puz(wanted, COUNT, found, before, COUNT);
    if (status.number != CVL_INDEX_OUT_OF_RANGE || status.place != 2) fail("cvl_narrow_index", "another fault");
}

/* What is said of a fault, in rooms of any size. */
static void explains(CvlStatus status, const char *wanted) {
    char text[256], shorter[256];
    const size_t length = cvl_explain(status, text, sizeof text);
    if (length != strlen(wanted) || strcmp(text, wanted) != 0) fail(wanted, text);
    for (size_t size = 0; size <= length + 2; size++) {
        memset(shorter, 7, sizeof shorter);
        const size_t written = size > length ? length + 1 : size;
        if (cvl_explain(status, size == 0 ? NULL : shorter, size) != length) fail(wanted, "another length");
        if (size != 0 && (memcmp(shorter, text, written - 1) != 0 || shorter[written - 1] != 0))
            fail(wanted, "another text in a shorter room");
        if (shorter[written] != 7) fail(wanted, "more is written than there is room for");
    }
}

static void *explains_elsewhere(void *status) {
    explains(*(const CvlStatus *)status, "fault 8 DivideByZero at 1");
    return NULL;
}

static void explained(void) {
    int32_t six[6], index[] = {0, 2, 2}, lengths[] = {2, -1}, *const same = index;
    bool flags[3];
    size_t count;
    CvlSegments rows = CVL_NO_SEGMENTS;
    CvlStatus status = cvl_div_wuz(I(7, 7), I(2, 0), six, 2);
    pthread_t other;
    explains(status, "fault 8 DivideByZero at 1: b[1] is 0");
    if (pthread_create(&other, NULL, explains_elsewhere, &status) != 0 || pthread_join(other, NULL) != 0)
        fail("cvl_explain", "no thread");
    explains(cvl_lsh_wuz(I(1, 1), I(0, 32), six, 2), "fault 9 ShiftOutOfRange at 1: b[1] is 32");
    explains(cvl_bck_puz(I(7, 8), 2, index, six, 3), "fault 10 IndexOutOfRange at 1: index[1] is 2, and source has 2 elements");
    explains(cvl_smp_puz(I(7, 8, 9), index, six, 3), "fault 11 IndexRepeated at 2: index[2] is 2");
    explains(cvl_smp_pez(I(7, 8, 9), index, S(I(1, 2), 2), six, 3), "fault 10 IndexOutOfRange at 1: index[1] is 2");
    explains(cvl_counts(index, 3, six, 2), "fault 10 IndexOutOfRange at 1: index[1] is 2, and out has 2 elements");
    explains(
        cvl_ext_vuz(I(7, 8), 2, (int64_t)1 << 40, six),
        "fault 10 IndexOutOfRange at 0: index is 1099511627776, and vector has 2 elements");
    explains(
        cvl_gather_segments_int(I(7, 8), 2, I(0, 1), 2, S(I(1, 2), 2), six, 3), "fault 10 IndexOutOfRange at 1: starts[1] is 1");
    explains(cvl_bytes_from_ints(I(1, 256), 2, (uint8_t *)six, 2), "fault 18 Overflow at 1: a[1] is 256");
    explains(cvl_tot_suz(I(INT32_MAX, 1, 1), six, 3), "fault 18 Overflow at 2");
    explains(cvl_add_rez(I(1, 2), 2, S(lengths, 2), six), "fault 12 NegativeLength at 1: lengths[1] is -1");
    explains(cvl_dis_vuz(1, -3, six), "fault 12 NegativeLength: count is -3");
    explains(cvl_int2(CVL_ADD, I(1, 2), 2, I(1), 1, six, 2), "fault 7 LengthMismatch: b has 1 elements, and a has 2");
    explains(cvl_int_scan(CVL_ADD, I(1, 2), 2, six, 1), "fault 7 LengthMismatch: out has 1 elements, and a has 2");
    explains(cvl_add_rez(I(1, 2), 2, S(I(1, 2), 2), six), "fault 7 LengthMismatch: lengths add up to 3, and a has 2 elements");
    explains(
        cvl_append_segments_int(I(1), 1, I(2), 1, S(I(1), 1), S(I(1), 1), six, 3),
        "fault 7 LengthMismatch: out has 3 elements, and has to have 2");
    explains(
        cvl_pack_int(I(1, 2), 2, B(true, true), 2, six, 1, &count),
        "fault 7 LengthMismatch: out has 1 elements, and has to have 2");
    explains(cvl_distribute_int(1, 3, six, 2), "fault 7 LengthMismatch: out has 2 elements, and has to have 3");
    explains(cvl_smp_puz(I(7, 8, 9), index, same, 3), "fault 102 Overlap: out and index share memory");
    explains(cvl_int2(99, I(1), 1, I(1), 1, six, 1), "fault 2 UnknownCall");
    explains(cvl_les_wuz(I(1, 2), I(2, 1), flags, 2), "");
    /* of a status that no call returned, and of functions beside the calls, there is no more than the name */
    explains((CvlStatus){CVL_NO_RESOURCES, -1}, "fault 100 NoResources");
    explains(cvl_segments_new(S(lengths, 2), &rows), "fault 12 NegativeLength at 1: lengths[1] is -1");
    explains(cvl_segments_from_offsets(I(0, 2, 1), 3, six, 2, &rows), "fault 12 NegativeLength at 1");
    explains(cvl_segments_int_scan(CVL_ADD, I(1), 1, &rows, six, 1), "fault 101 NoDescriptor");
    explains(cvl_narrow_index((const int64_t[]){1}, 1, six, 2), "fault 7 LengthMismatch");
    /* by the threads of the process, too */
    if (cvl_set_threads(2) != 0) fail("cvl_explain", "no threads");
    explains(cvl_div_wuz(I(7, 7), I(2, 0), six, 2), "fault 8 DivideByZero at 1: b[1] is 0");
    if (cvl_set_threads(1) != 0) fail("cvl_explain", "one thread");
}

/* Functions that take a boolean by value, as another language calls them, with a byte. */
typedef CvlStatus (*Distributes)(unsigned char value, int64_t count, bool *out);
typedef CvlStatus (*Replaces)(const bool *vector, int64_t index, unsigned char value, bool *out, size_t n);
typedef CvlStatus (*Scans)(uint32_t op, unsigned char before, const bool *a, size_t a_len, bool *out, size_t out_len);
typedef void (*Function)(void);

static void odd_booleans_by_value(void) {
    const Distributes distribute = (Distributes)(Function)cvl_dis_vub;
    const Replaces replace = (Replaces)(Function)cvl_rep_vub;
    const Scans scan = (Scans)(Function)cvl_bool_scan_after;
    for (int value = 1; value < 256; value += value == 1 ? 1 : 126) {
        BOOLS(distribute((unsigned char)value, 3, bools), true, true, true);
        BOOLS(replace(B(false, false, false), 1, (unsigned char)value, bools, 3), false, true, false);
        BOOLS(scan(CVL_AND, (unsigned char)value, B(true, false, true), 3, bools, 3), true, true, false);
    }
    BOOLS(distribute(0, 3, bools), false, false, false);
}

/* Booleans of any bytes, of which a copy is taken. */
static void copied_booleans(void) {
    const bool *f = O(0, 2, 255, 0, 128), *values = O(3, 0, 5, 0, 0);
    const int32_t *a = I(1, 2, 3, 4, 5), *lengths = I(2, 0, 3), *back = I(4, 3, 2, 1, 0), *each = I(1, 0, 2, 1, 0);
    BOOLS_OF_COPIES(1, and_sub(O(2, 0, 2), bools, 3), true, true, false);
    BOOLS_OF_COPIES(1, cvl_bool_scan_after(CVL_XOR, true, O(2, 0, 2), 3, bools, 3), true, false, false);
    BOOLS_OF_COPIES(1, ior_seb(f, S(lengths, 3), bools, 5), false, false, false, true, true);
    BOOLS_OF_COPIES(2, rep_veb(values, I(0, 1), O(0, 9), S(I(2, 3), 2), bools, 5), false, false, true, true, false);
    BOOLS_OF_COPIES(1, dis_veb(O(0, 9), S(I(1, 2), 2), bools, 3), false, true, true);
    COUNTED_INTS(pck_luz(a, f, 5, ints, ROOM, &total), 2, 3, 5);
    COPIES(pck_luz(a, f, 5, ints, ROOM, &total), 1);
    COUNTED_BOOLS(pck_lub(values, f, 5, bools, ROOM, &total), false, true, false);
    COPIES(pck_lub(values, f, 5, bools, ROOM, &total), 2);
    COUNTED_INTS(pck_lez(a, f, 5, S(lengths, 3), ints, ROOM, &total), 2, 3, 5);
    COPIES(pck_lez(a, f, 5, S(lengths, 3), ints, ROOM, &total), 1);
    COUNTED_BOOLS(pck_leb(values, f, 5, S(lengths, 3), bools, ROOM, &total), false, true, false);
    COPIES(pck_leb(values, f, 5, S(lengths, 3), bools, ROOM, &total), 2);
    BOOLS_OF_COPIES(1, smp_pub(values, back, bools, 5), false, false, true, false, true);
    INTS_OF_COPIES(1, sel_puz(a, I(9, 2, 1, 9, 0), f, 5, ints, 3), 5, 3, 2);
    BOOLS_OF_COPIES(2, sel_pub(values, I(9, 2, 1, 9, 0), f, 5, bools, 3), false, true, false);
    BOOLS_OF_COPIES(2, def_pub(O(2, 0), I(3, 1), 2, O(0, 3, 3, 0), bools, 4), false, false, true, true);
    BOOLS_OF_COPIES(1, bck_pub(values, 5, I(2, 1, 0), bools, 3), true, false, true);
    BOOLS_OF_COPIES(1, smp_peb(values, each, S(lengths, 3), bools, 5), false, true, false, false, true);
    INTS_OF_COPIES(1, sel_pez(a, I(9, 0, 1, 9, 0), f, 5, S(lengths, 3), ints, 3), 2, 5, 3);
    BOOLS_OF_COPIES(2, sel_peb(values, I(9, 0, 1, 9, 0), f, 5, S(lengths, 3), bools, 3), false, false, true);
    BOOLS_OF_COPIES(
        2, def_peb(O(2, 0), I(1, 0), 2, O(0, 0, 3, 3), S(I(1, 1), 2), S(I(2, 2), 2), bools, 4), false, true, false, true);
    BOOLS_OF_COPIES(1, bck_peb(values, 5, I(1, 0, 0), S(lengths, 3), S(I(2, 0, 1), 3), bools, 3), false, true, true);
    TEXT(cvl_write_bools(O(2, 0), 2, bytes, TEXT_ROOM, &total), "[T F]");
    COPIES(cvl_write_bools(O(2, 0), 2, bytes, TEXT_ROOM, &total), 1);
    TEXT(cvl_seg_write_bools(O(2, 0), 2, S(I(1, 1), 2), bytes, TEXT_ROOM, &total), "[[T] [F]]");
    COPIES(cvl_seg_write_bools(O(2, 0), 2, S(I(1, 1), 2), bytes, TEXT_ROOM, &total), 1);
}

/* Calls on more elements than a nested text may have, without a fault and with one at the last place. */
static void longer_than_a_text(void) {
    const size_t many = MOST + 1;
    for (size_t k = 0; k < many; k++) long_ints[k] = 1, int_room[k] = UNTOUCHED;
    tells("tot_suz", tot_suz(long_ints, int_room, many), CVL_DONE, -1);
    for (size_t k = 0; k < many; k++) {
        if (int_room[k] != (int32_t)k) fail("tot_suz", "another element in a long row");
        int_room[k] = (int32_t)(many - 1 - k);
    }
    int_room[0] = 0;
    FAULT(cvl_permute_int(other_ints, many, int_room, many, long_ints, many), CVL_INDEX_REPEATED, MOST);
    TOO_SHORT(cvl_write_ints(long_ints, many, bytes, TEXT_ROOM, &total), 2 * many + 1);
    calls += 2;
}

int main(void) {
    alarm(SECONDS);
    const size_t far_bytes = ((size_t)CVL_MOST_ELEMENTS + 1) * sizeof *too_many_ints;
    too_many_ints = (int32_t *)mmap(NULL, far_bytes, PROT_READ, MAP_PRIVATE | MAP_ANONYMOUS | MAP_NORESERVE, -1, 0);
    if (too_many_ints == MAP_FAILED) abort();
    too_many_bools = (bool *)too_many_ints;
    place_by_place();
    place_by_place_faults();
    scans();
    scans_in_parts();
    parts_of_calls();
    ranges_of_permutes();
    pieces_of_texts();
    checked_sums();
    late_faults();
    sparse_products();
    sparse_products_by_offsets();
    elements();
    descriptors();
    segments();
    segmented_scans();
    segmented_scan_faults();
    packs();
    pack_faults();
    permutes();
    permutes_of_wrong_lengths();
    permutes_of_segments();
    permutes_of_wrong_segments();
    first_senders();
    first_senders_of_segments();
    combining_permutes();
    combining_permutes_over_odd_booleans();
    combining_permutes_of_checked_sums();
    combining_permutes_into_sums();
    combining_permutes_of_segments();
    orders_ranks_and_sorts();
    orders_ranks_and_sorts_of_segments();
    sorts_by_key();
    sorts_without_memory();
    sorts_by_key_without_memory();
    slices();
    appends();
    merges();
    merges_of_segments();
    transposes();
    ranges_of_transposes();
    transposes_of_blocks();
    bytes_and_integers();
    exact_sums();
    first_trues();
    runs();
    texts();
    texts_of_any_length();
    made_descriptors();
    descriptors_of_offsets();
    nested_texts();
    long_rows();
    longer_than_a_text();
    odd_booleans();
    narrow_indices();
    explained();
    odd_booleans_by_value();
    copied_booleans();
    if (failed) return EXIT_FAILURE;
    printf("%d calls as they should be\n", calls);
    return EXIT_SUCCESS;
}

/*
 * cvl.h: the vector calls of CVL, the C Vector Library, on your own memory.
 *
 * Written by the generator of the repository from its table of calls; edit the table and not this file.
 *
 * For C99 to C23, and C++. Link with -lcvl, an archive and a shared object; docs/user/programs.md shows how.
 *
 * A call writes its result into your buffer, the last array, value or values that you pass. It returns a CvlStatus: number 0 if
 * it is done, else the number of the first fault, with its place or -1. After a fault your buffers are as they were.
 *
 * Arrays come in the order of the call's operands. The number of elements, such as n, follows the last array that has so many;
 * the functions of families take one after each array. Lengths of segments are one argument, a CvlLengths. Places and counts
 * are int64_t, so that one outside 32 bits is a fault like any other.
 *
 * If the last argument is a count, the call writes its result at the front of your buffer and the length into the count; the
 * rest of the buffer stays as it was. If the buffer is too short, the status is 7 LengthMismatch and the count is the length
 * that you need; to ask for it, pass a buffer of no elements. After any other fault the count stays as it was.
 *
 * If a buffer shares memory with another argument, counts and single values included, the status is 102 Overlap and nothing is
 * written. If a function says "In place" of an array, that array may be the buffer, from its first to its last element. Arrays
 * that are only read may overlap. An array of 0 elements overlaps nothing, and its pointer may be null.
 *
 * A boolean is a byte, true unless it is 0; results are 0 and 1. You may pass an array of any type of bytes by a cast. If it
 * has other bytes than 0 and 1, these calls copy it: packs, permutes, combining permutes (also the buffer that they join with),
 * first senders, gathers of segments, appends, merges, transposes, searches for a true flag, scans, texts, and replaces and
 * distributes in segments.
 *
 * No call can check the following, so make sure that
 *
 *   - a pointer leads to as many elements as you say, aligned, readable and, in a buffer, writable. Else the call may crash, or
 *     read or write other memory.
 *   - while a call runs, no other thread writes its arrays or reads its buffers. Else the results are arbitrary, and the call
 *     may crash or write other memory.
 *   - the calling thread has CVL_MOST_STACK bytes of its stack left, 32 KiB. Else the call may crash, or write other memory.
 *   - a signal handler that interrupts a call returns to it: no longjmp, siglongjmp, exception or pthread_exit. Else threads of
 *     the library go on using the call's memory, and cvl_set_threads may wait for ever.
 *   - the program has one malloc, realloc and free. Else one allocator frees the memory of another.
 *   - the lengths of a descriptor live as long as calls use it. Else the call may crash or read other memory.
 *
 * Everything else is checked, in every language: whatever lengths, indices, operators and buffers you pass, a call returns a
 * status. Several threads may call at once.
 *
 * If there are several faults, the first of this list is reported. Places count from 0; 2, 7 and 13 have none unless a function
 * says so.
 *
 *   - 102 Overlap; without a descriptor 101 NoDescriptor, before overlaps of other arguments;
 *   - 2 UnknownCall if the number is no operator of the family;
 *   - 13 TooLong if the vector that sets the length of the call has more than 2147483647 elements: its first vector, the flags
 *     of a pack, or the index of a permute, of first senders or of counts; also the buffer of a flat combining permute or of
 *     counts, and the starts of a gather of segments. On segments this comes after the faults by the lengths; calls on segments
 *     without such a vector check only the lengths;
 *   - 13, 12 and 13 again by the lengths of segments;
 *   - 7 LengthMismatch if vectors that belong together differ in length, or lengths do not add up to the vector that they cut;
 *     then if a buffer is not as long as the result, or shorter if there is a count;
 *   - 100 NoResources if memory runs out;
 *   - the faults of elements, in the order that the function has. A buffer that is too short for a text that is read comes
 *     last.
 *
 * These vectors may be longer: the source of a back permute and of a gather of segments, the defaults of a permute, the result
 * of first senders, and the vectors of which one element is taken or replaced.
 *
 * Each call of a script has its name with the prefix cvl_, such as cvl_add_wuz, except input, nested, len_luz, len_lub and
 * len_fos, for which you have arrays and lengths at hand. If you define CVL_SHORT_NAMES before you include the header, it also
 * has the name without it.
 *
 * The comments leave out 13 TooLong and 7 LengthMismatch, which follow from this list. The manual, from cvl(3) on, has them and
 * an example of each function.
 */
#ifndef CVL_H
#define CVL_H

#include <stdbool.h>
#include <stddef.h>
#include <stdint.h>

#ifdef __cplusplus
extern "C" {
#endif

/* The version of this header; cvl_version() returns that of the library. docs/user/versions.md says what may change at which number. */
#define CVL_VERSION "1.0.0"
#define CVL_VERSION_MAJOR 1
#define CVL_VERSION_MINOR 0
#define CVL_VERSION_PATCH 0

/*
 * CVL_CHECKED: the compiler warns if you ignore the status. CVL_NONNULL((1, 2)): these arguments are pointers to single values,
 * which may never be null. CVL_RESTRICT: a buffer that may overlap no argument.
 */
#if defined(__GNUC__)
#define CVL_CHECKED __attribute__((warn_unused_result))
#define CVL_NONNULL(places) __attribute__((nonnull places))
#define CVL_RESTRICT __restrict__
#else
#define CVL_CHECKED
#define CVL_NONNULL(places)
#define CVL_RESTRICT
#endif

/* What a call returns. */
typedef struct CvlStatus {
    uint32_t number; /* 0 if the call is done, the number of a fault, or 100 or more */
    int64_t place;   /* the place of the fault, counted from 0, or -1 */
} CvlStatus;

/* The numbers of a status. */
enum {
    CVL_DONE = 0,
    CVL_UNKNOWN_CALL = 2,
    CVL_LENGTH_MISMATCH = 7,
    CVL_DIVIDE_BY_ZERO = 8,
    CVL_SHIFT_OUT_OF_RANGE = 9,
    CVL_INDEX_OUT_OF_RANGE = 10,
    CVL_INDEX_REPEATED = 11,
    CVL_NEGATIVE_LENGTH = 12,
    CVL_TOO_LONG = 13,
    CVL_BAD_INPUT = 15,
    CVL_OVERFLOW = 18,
    CVL_NO_RESOURCES = 100,
    CVL_NO_DESCRIPTOR = 101,
    CVL_OVERLAP = 102
};

/*
 * CVL_MOST_ELEMENTS: the most elements of a vector, and the greatest total of a descriptor, which is the greatest integer of 32
 * bits. CVL_MOST_OF_TEXT: the most numbers, and the most lists, of a nested text that is read; other texts, and all that are
 * written, may have as many as a vector. CVL_MOST_STACK: the most bytes of its stack that a thread needs for a call.
 */
enum { CVL_MOST_ELEMENTS = 2147483647, CVL_MOST_OF_TEXT = 4194304, CVL_MOST_STACK = 32768 };

/* The lengths of segments, one for each, empty ones too: CvlLengths rows = {lengths, segments}. */
typedef struct CvlLengths {
    const int32_t *lengths;
    size_t segments; /* how many there are */
} CvlLengths;

/* The numbers of operators. On two integers: CVL_ADD to CVL_RSH; on two booleans: CVL_AND, CVL_IOR, CVL_XOR. */
enum {
    CVL_ADD = 0, /* the sum, wrapped to 32 bits */
    CVL_MUL = 1, /* the product, wrapped to 32 bits */
    CVL_MIN = 2, /* the lesser */
    CVL_MAX = 3, /* the greater */
    CVL_AND = 4, /* and, bit by bit */
    CVL_IOR = 5, /* or, bit by bit */
    CVL_XOR = 6, /* exclusive or, bit by bit */
    CVL_SUB = 7, /* the difference, wrapped to 32 bits */
    CVL_DIV = 8, /* the quotient, truncated toward zero */
    CVL_MOD = 9, /* the remainder of that quotient, with the dividend's sign */
    CVL_LSH = 10, /* the first, shifted left by the second */
    CVL_RSH = 11, /* the first, shifted right by the second; the sign is copied */
    CVL_GRT = 12, /* whether the first is greater */
    CVL_LES = 13, /* whether it is less */
    CVL_GEQ = 14, /* whether it is at least the second */
    CVL_LEQ = 15, /* whether it is at most the second */
    CVL_EQL = 16, /* whether they are equal */
    CVL_NEQ = 17, /* whether they are not */
    CVL_NOT = 18, /* on one vector: each bit, or each boolean, inverted */
    CVL_CPY = 19  /* the same again */
};

/* ---- the version, and the names of faults ---- */

/* The version of the library; CVL_VERSION is that of the header. */
const char *cvl_version(void);

/*
 * Which library this is: its version, the revision of its sources and the processors that it was built for, as "1.0.0 0123abcd
 * x86-64-v3".
 */
const char *cvl_build(void);

/* The name of a status, such as "DivideByZero"; "Unknown" if no status has that number. */
const char *cvl_fault_name(uint32_t number);

/*
 * Writes why a call is not done, as "fault 10 IndexOutOfRange at 3: index[3] is 12, and source has 8 elements". Behind the
 * colon it says which value, lengths or arrays are at fault, if the status is what the last call of this thread that was not
 * done returned. That was found when the call returned: your arrays may have changed since, or be gone. Calls over ranks are
 * not among them.
 * At most `size` bytes are written, of which the last one is 0; with a size of 0 `text` may be null. Returns how long the whole
 * text is, without the 0: 0 for a call that is done.
 */
size_t cvl_explain(CvlStatus status, char *text, size_t size);

/* ---- threads ---- */

/*
 * Calls run on the thread that calls. If cvl_set_threads or the variable CVL_NUM_THREADS asks for more threads, for the whole
 * process, long calls run on them: from 262144 elements on, from 131072 bytes of a text that is read, and from 32768 elements
 * whose text is written. Results and faults are the same. These calls stay on the calling thread: those that read one element,
 * read a nested text or a text after another, scan after a carry, add up one vector exactly, make a range of another call, or
 * look for one true flag; and a combining permute of booleans of which one in the buffer is neither 0 nor 1. On several threads
 * a call may copy its buffer; if there is no memory for that, it runs on the calling thread.
 *
 * One call at a time has the threads. No other call waits for it, or for cvl_set_threads: it runs on its own thread. A call in
 * parts on a pool of yours (cvl_parallel.h) uses only the threads of that pool.
 *
 * A thread that has no work for a second ends, so that it keeps no process alive. The next long call starts it again, with the
 * processors and the priority of its own thread; if that fails, the call runs on the threads that there are.
 *
 * The threads block the signals that are sent to the process, so your handlers run on your own threads. They do not block
 * SIGSEGV, SIGBUS, SIGFPE, SIGILL, SIGTRAP and SIGSYS: if you guard the pages of an array, your handler runs on the thread that
 * touches one. A handler must not call the library, and must return. A thread that is cancelled finishes its call first.
 *
 * The child of a fork has none of the threads, and may set a number of its own. After _Fork or clone, which run no handlers of
 * pthread_atfork, the library knows a child only by its process number, which may be its parent's in a new namespace.
 *
 * The threads end with the process, and the shared object stays loaded after dlclose. If your own shared object contains the
 * archive and may be unloaded, link it with -z nodelete or call cvl_set_threads(1) first; a thread that was just ending by
 * itself may then still be about to return.
 */
/*
 * Sets how many threads long calls have, 1 to 64, the calling one included. Returns 0; EINVAL for any other number; or an error
 * of POSIX, such as EAGAIN, if a thread cannot be started, and then the number stays. It waits for the call that has the
 * threads, and for no later one. Several threads may call it at once.
 */
int cvl_set_threads(size_t threads);

/*
 * How many threads there are: what cvl_set_threads set last, else what CVL_NUM_THREADS says, else 1. If the variable is
 * anything but a number from 1 to 64 in digits only, the nearest such number is taken, and 1 for what is no number; one line on
 * standard error says so. The variable is read once, by the first call of either function or the first long call. Long calls
 * start the threads; if one cannot be started, the number stays. It waits for no call. In the child of a fork the number is 1
 * until you set another; if nobody had asked before the fork, the child starts like any program.
 */
size_t cvl_threads(void);

/* ---- place by place: the calls of the table ---- */

/* The wrapped sums. In place: a, b or both. */
CVL_CHECKED CvlStatus cvl_add_wuz(const int32_t *a, const int32_t *b, int32_t *out, size_t n);

/* The wrapped products. In place: a, b or both. */
CVL_CHECKED CvlStatus cvl_mul_wuz(const int32_t *a, const int32_t *b, int32_t *out, size_t n);

/* The lesser of each two. In place: a, b or both. */
CVL_CHECKED CvlStatus cvl_min_wuz(const int32_t *a, const int32_t *b, int32_t *out, size_t n);

/* The greater of each two. In place: a, b or both. */
CVL_CHECKED CvlStatus cvl_max_wuz(const int32_t *a, const int32_t *b, int32_t *out, size_t n);

/* And, bit by bit. In place: a, b or both. */
CVL_CHECKED CvlStatus cvl_and_wuz(const int32_t *a, const int32_t *b, int32_t *out, size_t n);

/* Or, bit by bit. In place: a, b or both. */
CVL_CHECKED CvlStatus cvl_ior_wuz(const int32_t *a, const int32_t *b, int32_t *out, size_t n);

/* Exclusive or, bit by bit. In place: a, b or both. */
CVL_CHECKED CvlStatus cvl_xor_wuz(const int32_t *a, const int32_t *b, int32_t *out, size_t n);

/* The wrapped differences. In place: a, b or both. */
CVL_CHECKED CvlStatus cvl_sub_wuz(const int32_t *a, const int32_t *b, int32_t *out, size_t n);

/*
 * The quotients, truncated toward zero; -2147483648 by -1 is -2147483648. Faults: 8 DivideByZero at the first divisor that is
 * 0. In place: a, b or both.
 */
CVL_CHECKED CvlStatus cvl_div_wuz(const int32_t *a, const int32_t *b, int32_t *out, size_t n);

/*
 * The remainders of the quotients, with the dividends' signs. Faults: 8 DivideByZero at the first divisor that is 0. In place:
 * a, b or both.
 */
CVL_CHECKED CvlStatus cvl_mod_wuz(const int32_t *a, const int32_t *b, int32_t *out, size_t n);

/*
 * The elements of a, shifted left by those of b. Faults: 9 ShiftOutOfRange at the first element of b outside 0 to 31. In place:
 * a, b or both.
 */
CVL_CHECKED CvlStatus cvl_lsh_wuz(const int32_t *a, const int32_t *b, int32_t *out, size_t n);

/*
 * The elements of a, shifted right by those of b, with their signs. Faults: 9 ShiftOutOfRange at the first element of b outside
 * 0 to 31. In place: a, b or both.
 */
CVL_CHECKED CvlStatus cvl_rsh_wuz(const int32_t *a, const int32_t *b, int32_t *out, size_t n);

/* Each bit inverted. In place: a. */
CVL_CHECKED CvlStatus cvl_not_wuz(const int32_t *a, int32_t *out, size_t n);

/* Each boolean inverted. In place: a. */
CVL_CHECKED CvlStatus cvl_not_wub(const bool *a, bool *out, size_t n);

/* Each integer copied. In place: a. */
CVL_CHECKED CvlStatus cvl_cpy_wuz(const int32_t *a, int32_t *out, size_t n);

/* Each boolean copied. In place: a. */
CVL_CHECKED CvlStatus cvl_cpy_wub(const bool *a, bool *out, size_t n);

/* True if a is greater. */
CVL_CHECKED CvlStatus cvl_grt_wuz(const int32_t *a, const int32_t *b, bool *CVL_RESTRICT out, size_t n);

/* True if a is less. */
CVL_CHECKED CvlStatus cvl_les_wuz(const int32_t *a, const int32_t *b, bool *CVL_RESTRICT out, size_t n);

/* True if a is greater, or they are equal. */
CVL_CHECKED CvlStatus cvl_geq_wuz(const int32_t *a, const int32_t *b, bool *CVL_RESTRICT out, size_t n);

/* True if a is less, or they are equal. */
CVL_CHECKED CvlStatus cvl_leq_wuz(const int32_t *a, const int32_t *b, bool *CVL_RESTRICT out, size_t n);

/* True if they are equal. */
CVL_CHECKED CvlStatus cvl_eql_wuz(const int32_t *a, const int32_t *b, bool *CVL_RESTRICT out, size_t n);

/* True if they are not equal. */
CVL_CHECKED CvlStatus cvl_neq_wuz(const int32_t *a, const int32_t *b, bool *CVL_RESTRICT out, size_t n);

/* Whether both are true. In place: a, b or both. */
CVL_CHECKED CvlStatus cvl_and_wub(const bool *a, const bool *b, bool *out, size_t n);

/* Whether at least one is true. In place: a, b or both. */
CVL_CHECKED CvlStatus cvl_ior_wub(const bool *a, const bool *b, bool *out, size_t n);

/* Whether exactly one is true. In place: a, b or both. */
CVL_CHECKED CvlStatus cvl_xor_wub(const bool *a, const bool *b, bool *out, size_t n);

/*
 * The element of a if the flag is true, else that of b. flags, a, b and out have n elements. In place: a or b, but not both.
 */
CVL_CHECKED CvlStatus cvl_sel_wuz(const bool *flags, const int32_t *a, const int32_t *b, int32_t *out, size_t n);
CVL_CHECKED CvlStatus cvl_sel_wub(const bool *flags, const bool *a, const bool *b, bool *out, size_t n);

/* 1 for true and 0 for false. */
CVL_CHECKED CvlStatus cvl_int_wub(const bool *a, int32_t *CVL_RESTRICT out, size_t n);

/* True if the integer is not 0. */
CVL_CHECKED CvlStatus cvl_boo_wuz(const int32_t *a, bool *CVL_RESTRICT out, size_t n);

/* ---- scans and reduces: the calls of the table ---- */

/* For each integer the sum of those before it, wrapped; 0 at place 0. In place: a. */
CVL_CHECKED CvlStatus cvl_add_suz(const int32_t *a, int32_t *out, size_t n);

/* The sum of the n integers, wrapped; 0 if there are none. */
CVL_CHECKED CvlStatus cvl_add_ruz(const int32_t *a, size_t n, int32_t *out) CVL_NONNULL((3));

/* For each integer the product of those before it, wrapped; 1 at place 0. In place: a. */
CVL_CHECKED CvlStatus cvl_mul_suz(const int32_t *a, int32_t *out, size_t n);

/* The product of the n integers, wrapped; 1 if there are none. */
CVL_CHECKED CvlStatus cvl_mul_ruz(const int32_t *a, size_t n, int32_t *out) CVL_NONNULL((3));

/* For each integer the least of those before it; 2147483647 at place 0. In place: a. */
CVL_CHECKED CvlStatus cvl_min_suz(const int32_t *a, int32_t *out, size_t n);

/* The least of the n integers; 2147483647 if there are none. */
CVL_CHECKED CvlStatus cvl_min_ruz(const int32_t *a, size_t n, int32_t *out) CVL_NONNULL((3));

/* For each integer the greatest of those before it; -2147483648 at place 0. In place: a. */
CVL_CHECKED CvlStatus cvl_max_suz(const int32_t *a, int32_t *out, size_t n);

/* The greatest of the n integers; -2147483648 if there are none. */
CVL_CHECKED CvlStatus cvl_max_ruz(const int32_t *a, size_t n, int32_t *out) CVL_NONNULL((3));

/* For each integer those before it joined by and, bit by bit; -1 at place 0. In place: a. */
CVL_CHECKED CvlStatus cvl_and_suz(const int32_t *a, int32_t *out, size_t n);

/* The n integers joined by and, bit by bit; -1 if there are none. */
CVL_CHECKED CvlStatus cvl_and_ruz(const int32_t *a, size_t n, int32_t *out) CVL_NONNULL((3));

/* For each integer those before it joined by or, bit by bit; 0 at place 0. In place: a. */
CVL_CHECKED CvlStatus cvl_ior_suz(const int32_t *a, int32_t *out, size_t n);

/* The n integers joined by or, bit by bit; 0 if there are none. */
CVL_CHECKED CvlStatus cvl_ior_ruz(const int32_t *a, size_t n, int32_t *out) CVL_NONNULL((3));

/* For each integer those before it joined by exclusive or, bit by bit; 0 at place 0. In place: a. */
CVL_CHECKED CvlStatus cvl_xor_suz(const int32_t *a, int32_t *out, size_t n);

/* The n integers joined by exclusive or, bit by bit; 0 if there are none. */
CVL_CHECKED CvlStatus cvl_xor_ruz(const int32_t *a, size_t n, int32_t *out) CVL_NONNULL((3));

/* For each boolean whether all those before it are true; true at place 0. In place: a. */
CVL_CHECKED CvlStatus cvl_and_sub(const bool *a, bool *out, size_t n);

/* Whether all n booleans are true; true if there are none. */
CVL_CHECKED CvlStatus cvl_and_rub(const bool *a, size_t n, bool *out) CVL_NONNULL((3));

/* For each boolean whether any of those before it is true; false at place 0. In place: a. */
CVL_CHECKED CvlStatus cvl_ior_sub(const bool *a, bool *out, size_t n);

/* Whether any of the n booleans is true; false if there are none. */
CVL_CHECKED CvlStatus cvl_ior_rub(const bool *a, size_t n, bool *out) CVL_NONNULL((3));

/* For each boolean whether an odd number of those before it is true; false at place 0. In place: a. */
CVL_CHECKED CvlStatus cvl_xor_sub(const bool *a, bool *out, size_t n);

/* Whether an odd number of the n booleans is true; false if there are none. */
CVL_CHECKED CvlStatus cvl_xor_rub(const bool *a, size_t n, bool *out) CVL_NONNULL((3));

/* ---- sums that never wrap: the calls of the table ---- */

/*
 * For each integer the sum of those before it. Faults: 18 Overflow at the first place whose sum does not fit 32 bits. In place:
 * a.
 */
CVL_CHECKED CvlStatus cvl_tot_suz(const int32_t *a, int32_t *out, size_t n);

/* The sum of the n integers. Faults: 18 Overflow at 0 if it does not fit 32 bits. */
CVL_CHECKED CvlStatus cvl_tot_ruz(const int32_t *a, size_t n, int32_t *out) CVL_NONNULL((3));

/* ---- counts, single elements, and vectors of a given length: the calls of the table ---- */

/* The number of true flags, of n. */
CVL_CHECKED CvlStatus cvl_cnt_lub(const bool *flags, size_t n, int32_t *out) CVL_NONNULL((3));

/* The element of n at the index. Faults: 10 IndexOutOfRange at 0 if the index is below 0, or n or more. */
CVL_CHECKED CvlStatus cvl_ext_vuz(const int32_t *vector, size_t n, int64_t index, int32_t *out) CVL_NONNULL((4));
CVL_CHECKED CvlStatus cvl_ext_vub(const bool *vector, size_t n, int64_t index, bool *out) CVL_NONNULL((4));

/*
 * The vector with the value at the index. vector and out have n elements. Faults: 10 IndexOutOfRange at 0 if the index is below
 * 0, or n or more.
 */
CVL_CHECKED CvlStatus cvl_rep_vuz(const int32_t *vector, int64_t index, int32_t value, int32_t *CVL_RESTRICT out, size_t n);
CVL_CHECKED CvlStatus cvl_rep_vub(const bool *vector, int64_t index, bool value, bool *CVL_RESTRICT out, size_t n);

/*
 * count copies of the value; out has count elements. Faults: 12 NegativeLength, without a place, if count is below 0; 13
 * TooLong if it is above 2147483647.
 */
CVL_CHECKED CvlStatus cvl_dis_vuz(int32_t value, int64_t count, int32_t *CVL_RESTRICT out);
CVL_CHECKED CvlStatus cvl_dis_vub(bool value, int64_t count, bool *CVL_RESTRICT out);

/*
 * The numbers init + k * stride, wrapped, for k from 0 to count - 1; out has count elements. Faults: 12 NegativeLength, without
 * a place, if count is below 0; 13 TooLong if it is above 2147483647.
 */
CVL_CHECKED CvlStatus cvl_ind_luz(int32_t init, int32_t stride, int64_t count, int32_t *CVL_RESTRICT out);

/* ---- segments: the calls of the table ---- */

/*
 * Segments come as their lengths, which may be 0. Each call on segments first has these faults, by the lengths: 13 TooLong,
 * without a place, if there are more than 2147483647; 12 NegativeLength at the first below 0; 13 TooLong, without a place, if
 * they add up to more than 2147483647.
 */

/* Whether the numbers are the lengths of segments, and how many elements these have in all. */
CVL_CHECKED CvlStatus cvl_mke_fov(CvlLengths lengths, size_t *total) CVL_NONNULL((2));

/*
 * For each integer the sum of those before it in its segment. Faults: 18 Overflow at the first place whose sum does not fit 32
 * bits. In place: a.
 */
CVL_CHECKED CvlStatus cvl_tot_sez(const int32_t *a, CvlLengths lengths, int32_t *out, size_t n);

/*
 * The sum of each segment. a has n elements, out one for each segment. Faults: 18 Overflow at the first segment whose sum does
 * not fit 32 bits.
 */
CVL_CHECKED CvlStatus cvl_tot_rez(const int32_t *a, size_t n, CvlLengths lengths, int32_t *CVL_RESTRICT out);

/*
 * The element of each segment at its index, which counts from the segment's start. The vector has n elements, index and out one
 * for each segment. Faults: 10 IndexOutOfRange at the segment.
 */
CVL_CHECKED CvlStatus cvl_ext_vez(const int32_t *vector, size_t n, const int32_t *index, CvlLengths lengths,
    int32_t *CVL_RESTRICT out);
CVL_CHECKED CvlStatus cvl_ext_veb(const bool *vector, size_t n, const int32_t *index, CvlLengths lengths,
    bool *CVL_RESTRICT out);

/*
 * The vector with the value of each segment at its index, which counts from the segment's start. vector and out have n
 * elements, index and values one for each segment. Faults: 10 IndexOutOfRange at the segment.
 */
CVL_CHECKED CvlStatus cvl_rep_vez(const int32_t *vector, const int32_t *index, const int32_t *values, CvlLengths lengths,
    int32_t *CVL_RESTRICT out, size_t n);
CVL_CHECKED CvlStatus cvl_rep_veb(const bool *vector, const int32_t *index, const bool *values, CvlLengths lengths,
    bool *CVL_RESTRICT out, size_t n);

/*
 * Copies of each value, as many as its segment has places. There is one value for each segment; out has n elements, the total
 * of the lengths, else 7 LengthMismatch.
 */
CVL_CHECKED CvlStatus cvl_dis_vez(const int32_t *values, CvlLengths lengths, int32_t *CVL_RESTRICT out, size_t n);
CVL_CHECKED CvlStatus cvl_dis_veb(const bool *values, CvlLengths lengths, bool *CVL_RESTRICT out, size_t n);

/*
 * The numbers of each segment from its init on, in steps of its stride, wrapped. There are one init and one stride for each
 * segment; out has n elements, the total of the lengths, else 7 LengthMismatch.
 */
CVL_CHECKED CvlStatus cvl_ind_lez(const int32_t *inits, const int32_t *strides, CvlLengths lengths, int32_t *CVL_RESTRICT out,
    size_t n);

/* ---- scans and reduces of segments: the calls of the table ---- */

/* For each integer the sum of those before it in its segment, wrapped; 0 at the start of a segment. In place: a. */
CVL_CHECKED CvlStatus cvl_add_sez(const int32_t *a, CvlLengths lengths, int32_t *out, size_t n);

/* The sum of the integers of each segment, wrapped; 0 if it is empty. a has n elements, out one for each segment. */
CVL_CHECKED CvlStatus cvl_add_rez(const int32_t *a, size_t n, CvlLengths lengths, int32_t *CVL_RESTRICT out);

/* For each integer the product of those before it in its segment, wrapped; 1 at the start of a segment. In place: a. */
CVL_CHECKED CvlStatus cvl_mul_sez(const int32_t *a, CvlLengths lengths, int32_t *out, size_t n);

/* The product of the integers of each segment, wrapped; 1 if it is empty. a has n elements, out one for each segment. */
CVL_CHECKED CvlStatus cvl_mul_rez(const int32_t *a, size_t n, CvlLengths lengths, int32_t *CVL_RESTRICT out);

/* For each integer the least of those before it in its segment; 2147483647 at the start of a segment. In place: a. */
CVL_CHECKED CvlStatus cvl_min_sez(const int32_t *a, CvlLengths lengths, int32_t *out, size_t n);

/* The least of the integers of each segment; 2147483647 if it is empty. a has n elements, out one for each segment. */
CVL_CHECKED CvlStatus cvl_min_rez(const int32_t *a, size_t n, CvlLengths lengths, int32_t *CVL_RESTRICT out);

/* For each integer the greatest of those before it in its segment; -2147483648 at the start of a segment. In place: a. */
CVL_CHECKED CvlStatus cvl_max_sez(const int32_t *a, CvlLengths lengths, int32_t *out, size_t n);

/* The greatest of the integers of each segment; -2147483648 if it is empty. a has n elements, out one for each segment. */
CVL_CHECKED CvlStatus cvl_max_rez(const int32_t *a, size_t n, CvlLengths lengths, int32_t *CVL_RESTRICT out);

/* For each integer those before it in its segment joined by and, bit by bit; -1 at the start of a segment. In place: a. */
CVL_CHECKED CvlStatus cvl_and_sez(const int32_t *a, CvlLengths lengths, int32_t *out, size_t n);

/* The integers of each segment joined by and, bit by bit; -1 if it is empty. a has n elements, out one for each segment. */
CVL_CHECKED CvlStatus cvl_and_rez(const int32_t *a, size_t n, CvlLengths lengths, int32_t *CVL_RESTRICT out);

/* For each integer those before it in its segment joined by or, bit by bit; 0 at the start of a segment. In place: a. */
CVL_CHECKED CvlStatus cvl_ior_sez(const int32_t *a, CvlLengths lengths, int32_t *out, size_t n);

/* The integers of each segment joined by or, bit by bit; 0 if it is empty. a has n elements, out one for each segment. */
CVL_CHECKED CvlStatus cvl_ior_rez(const int32_t *a, size_t n, CvlLengths lengths, int32_t *CVL_RESTRICT out);

/*
 * For each integer those before it in its segment joined by exclusive or, bit by bit; 0 at the start of a segment. In place: a.
 */
CVL_CHECKED CvlStatus cvl_xor_sez(const int32_t *a, CvlLengths lengths, int32_t *out, size_t n);

/*
 * The integers of each segment joined by exclusive or, bit by bit; 0 if it is empty. a has n elements, out one for each
 * segment.
 */
CVL_CHECKED CvlStatus cvl_xor_rez(const int32_t *a, size_t n, CvlLengths lengths, int32_t *CVL_RESTRICT out);

/* For each boolean whether all those before it in its segment are true; true at the start of a segment. In place: a. */
CVL_CHECKED CvlStatus cvl_and_seb(const bool *a, CvlLengths lengths, bool *out, size_t n);

/* Whether all the booleans of each segment are true; true if it is empty. a has n elements, out one for each segment. */
CVL_CHECKED CvlStatus cvl_and_reb(const bool *a, size_t n, CvlLengths lengths, bool *CVL_RESTRICT out);

/* For each boolean whether any of those before it in its segment is true; false at the start of a segment. In place: a. */
CVL_CHECKED CvlStatus cvl_ior_seb(const bool *a, CvlLengths lengths, bool *out, size_t n);

/* Whether any of the booleans of each segment is true; false if it is empty. a has n elements, out one for each segment. */
CVL_CHECKED CvlStatus cvl_ior_reb(const bool *a, size_t n, CvlLengths lengths, bool *CVL_RESTRICT out);

/*
 * For each boolean whether an odd number of those before it in its segment is true; false at the start of a segment. In place:
 * a.
 */
CVL_CHECKED CvlStatus cvl_xor_seb(const bool *a, CvlLengths lengths, bool *out, size_t n);

/*
 * Whether an odd number of the booleans of each segment is true; false if it is empty. a has n elements, out one for each
 * segment.
 */
CVL_CHECKED CvlStatus cvl_xor_reb(const bool *a, size_t n, CvlLengths lengths, bool *CVL_RESTRICT out);

/* ---- packs and counts of segments: the calls of the table ---- */

/*
 * The values whose flag is true, in their order. values and flags have n elements. out needs room for so many; n is always
 * enough. *count is how many they are, also if out is too short.
 */
CVL_CHECKED CvlStatus cvl_pck_luz(const int32_t *values, const bool *flags, size_t n, int32_t *CVL_RESTRICT out, size_t room,
    size_t *count) CVL_NONNULL((6));
CVL_CHECKED CvlStatus cvl_pck_lub(const bool *values, const bool *flags, size_t n, bool *CVL_RESTRICT out, size_t room,
    size_t *count) CVL_NONNULL((6));

/*
 * The values of each segment whose flag is true, in their order, one segment after another; pck_fov gives the lengths of these
 * segments. values and flags have n elements. out needs room for so many; n is always enough. *count is how many they are, also
 * if out is too short.
 */
CVL_CHECKED CvlStatus cvl_pck_lez(const int32_t *values, const bool *flags, size_t n, CvlLengths lengths,
    int32_t *CVL_RESTRICT out, size_t room, size_t *count) CVL_NONNULL((7));
CVL_CHECKED CvlStatus cvl_pck_leb(const bool *values, const bool *flags, size_t n, CvlLengths lengths, bool *CVL_RESTRICT out,
    size_t room, size_t *count) CVL_NONNULL((7));

/*
 * The lengths of the segments of what a pack keeps, or a select permute, 0 for a segment of which nothing is kept. flags has n
 * elements, out one for each segment.
 */
CVL_CHECKED CvlStatus cvl_pck_fov(const bool *flags, size_t n, CvlLengths lengths, int32_t *CVL_RESTRICT out);

/* The number of true flags of each segment. flags has n elements, out one for each segment. */
CVL_CHECKED CvlStatus cvl_cnt_leb(const bool *flags, size_t n, CvlLengths lengths, int32_t *CVL_RESTRICT out);

/* ---- permutes: the calls of the table ---- */

/*
 * In a simple, a select and a default permute the index of a place says where its element goes, and no two may go to one place.
 * 13 TooLong, if the index has more than 2147483647 elements, comes first.
 */

/*
 * Each element of the source at its index. source, index and out have n elements. Faults: at the first bad index 10
 * IndexOutOfRange if it is below 0, or n or more, else 11 IndexRepeated if an earlier one is the same.
 */
CVL_CHECKED CvlStatus cvl_smp_puz(const int32_t *source, const int32_t *index, int32_t *CVL_RESTRICT out, size_t n);
CVL_CHECKED CvlStatus cvl_smp_pub(const bool *source, const int32_t *index, bool *CVL_RESTRICT out, size_t n);

/*
 * Each element of the source whose flag is true at its index. source, index and flags have n elements; out has m, the number of
 * true flags, else 7 LengthMismatch. An index whose flag is false is ignored. Faults: at the first bad index 10 IndexOutOfRange
 * if it is below 0, or the number of true flags or more, else 11 IndexRepeated if an earlier one is the same.
 */
CVL_CHECKED CvlStatus cvl_sel_puz(const int32_t *source, const int32_t *index, const bool *flags, size_t n,
    int32_t *CVL_RESTRICT out, size_t m);
CVL_CHECKED CvlStatus cvl_sel_pub(const bool *source, const int32_t *index, const bool *flags, size_t n, bool *CVL_RESTRICT out,
    size_t m);

/*
 * Each element of the source at its index, and at a place to which none goes its default. source and index have n elements,
 * defaults and out m, which may be any number. Faults: at the first bad index 10 IndexOutOfRange if it is below 0, or m or
 * more, else 11 IndexRepeated if an earlier one is the same.
 */
CVL_CHECKED CvlStatus cvl_def_puz(const int32_t *source, const int32_t *index, size_t n, const int32_t *defaults,
    int32_t *CVL_RESTRICT out, size_t m);
CVL_CHECKED CvlStatus cvl_def_pub(const bool *source, const int32_t *index, size_t n, const bool *defaults,
    bool *CVL_RESTRICT out, size_t m);

/*
 * At each place the element of the source at the place's index, which may repeat. The source has n elements, which may be any
 * number; index and out have m. Faults: 10 IndexOutOfRange at the first index below 0, or n or more.
 */
CVL_CHECKED CvlStatus cvl_bck_puz(const int32_t *source, size_t n, const int32_t *index, int32_t *CVL_RESTRICT out, size_t m);
CVL_CHECKED CvlStatus cvl_bck_pub(const bool *source, size_t n, const int32_t *index, bool *CVL_RESTRICT out, size_t m);

/* ---- permutes of segments: the calls of the table ---- */

/*
 * Indices count from the start of their segment. The faults by the lengths come first; with two arrays of lengths those by
 * `lengths` before those by the other, which are as many, else 7 LengthMismatch.
 */

/*
 * Each element of the source at its index, which counts from the start of its segment. source, index and out have n elements.
 * Faults: at the first bad index 10 IndexOutOfRange if it is no place of its segment, else 11 IndexRepeated if an earlier one
 * of its segment is the same.
 */
CVL_CHECKED CvlStatus cvl_smp_pez(const int32_t *source, const int32_t *index, CvlLengths lengths, int32_t *CVL_RESTRICT out,
    size_t n);
CVL_CHECKED CvlStatus cvl_smp_peb(const bool *source, const int32_t *index, CvlLengths lengths, bool *CVL_RESTRICT out,
    size_t n);

/*
 * Each element of the source whose flag is true at its index in its segment of the result, which is as long as the segment has
 * true flags. source, index and flags have n elements; out has m, the number of true flags, else 7 LengthMismatch. An index
 * whose flag is false is ignored. Faults: at the first bad index 10 IndexOutOfRange if it is no place of its segment of the
 * result, else 11 IndexRepeated if an earlier one of its segment is the same.
 */
CVL_CHECKED CvlStatus cvl_sel_pez(const int32_t *source, const int32_t *index, const bool *flags, size_t n, CvlLengths lengths,
    int32_t *CVL_RESTRICT out, size_t m);
CVL_CHECKED CvlStatus cvl_sel_peb(const bool *source, const int32_t *index, const bool *flags, size_t n, CvlLengths lengths,
    bool *CVL_RESTRICT out, size_t m);

/*
 * Each element of the source at its index in the same segment of the defaults, and at a place to which none goes its default.
 * source and index have n elements in segments with the lengths; defaults and out have m, in as many segments with the default
 * lengths. Faults: at the first bad index 10 IndexOutOfRange if it is no place of its segment of the defaults, else 11
 * IndexRepeated if an earlier one of its segment is the same.
 */
CVL_CHECKED CvlStatus cvl_def_pez(const int32_t *source, const int32_t *index, size_t n, const int32_t *defaults,
    CvlLengths lengths, CvlLengths default_lengths, int32_t *CVL_RESTRICT out, size_t m);
CVL_CHECKED CvlStatus cvl_def_peb(const bool *source, const int32_t *index, size_t n, const bool *defaults, CvlLengths lengths,
    CvlLengths default_lengths, bool *CVL_RESTRICT out, size_t m);

/*
 * At each place the element at the place's index in the same segment of the source; an index may repeat. The source has n
 * elements in segments with the lengths; index and out have m, in as many segments with the index lengths. Faults: 10
 * IndexOutOfRange at the first index that is no place of its segment of the source.
 */
CVL_CHECKED CvlStatus cvl_bck_pez(const int32_t *source, size_t n, const int32_t *index, CvlLengths lengths,
    CvlLengths index_lengths, int32_t *CVL_RESTRICT out, size_t m);
CVL_CHECKED CvlStatus cvl_bck_peb(const bool *source, size_t n, const int32_t *index, CvlLengths lengths,
    CvlLengths index_lengths, bool *CVL_RESTRICT out, size_t m);

/* ---- booleans that are neither 0 nor 1 ---- */

/* Whether each byte is 0 or 1. */
bool cvl_are_flags(const bool *flags, size_t flags_len);

/* Changes each byte that is not 0 to 1. */
void cvl_make_flags(bool *flags, size_t flags_len);

/* ---- indices of 64 bits ---- */

/*
 * Each index in 32 bits, as calls take it. One outside 32 bits becomes -1, which is no place of any vector: the call returns 10
 * IndexOutOfRange for it, at the same place and in the same order as for any index that is out of range, unless it skips that
 * index.
 * Faults: 102 Overlap; 7 LengthMismatch if index and out differ in length.
 */
CVL_CHECKED CvlStatus cvl_narrow_index(const int64_t *index, size_t index_len, int32_t *out, size_t out_len);

/* ---- descriptors: the calls on segments that take one ---- */

/*
 * A descriptor names the lengths of segments and how many there are. It is plain memory that owns nothing: you may copy it and
 * keep it constant, any number of threads may use it at once, and there is nothing to free. Start with CVL_NO_SEGMENTS;
 * cvl_segments_new fills it. No call writes the lengths or the descriptor.
 *
 * The functions from cvl_segments_free to cvl_segments_numbers make descriptors and read them. Each of the others is the family
 * on segments of its name, with a descriptor for the lengths: cvl_segments_int_scan is cvl_seg_int_scan. Each checks the
 * lengths anew, so you may change them between calls. A buffer may overlap neither the lengths nor the descriptor. With
 * CVL_NO_SEGMENTS or a null pointer a call returns 101 NoDescriptor.
 */
typedef struct CvlSegments {
    const int32_t *lengths; /* the caller's, which live as long as the descriptor is used */
    size_t segments;        /* how many there are */
    bool some;              /* whether there is a descriptor */
} CvlSegments;

/* What a descriptor starts as: CvlSegments rows = CVL_NO_SEGMENTS. */
#define CVL_NO_SEGMENTS {NULL, 0, false}

/* Empties a descriptor; a null pointer is allowed. The lengths stay yours. */
CvlStatus cvl_segments_free(CvlSegments *segments);

/*
 * Makes the descriptor of segments with these lengths. After a fault there is none; 102 Overlap leaves it as it was.
 * Faults: 13 TooLong if there are more than 2147483647 lengths; 12 NegativeLength at the first below 0; 13 TooLong if the total
 * is more than 2147483647; else 101 NoDescriptor if `segments` is null.
 */
CVL_CHECKED CvlStatus cvl_segments_new(CvlLengths lengths, CvlSegments *segments);

/*
 * Makes the descriptor of segments that start at these offsets, of which the last is the end, as in a matrix of compressed
 * rows. The lengths go into your buffer, which the descriptor names. After a fault the buffer is as it was, and there is no
 * descriptor; 102 Overlap leaves both as they were.
 * Faults: 13 TooLong if there are more than 2147483647 segments; 7 LengthMismatch if there is no offset or the first is not 0;
 * 12 NegativeLength at the first segment that ends before it starts; 7 LengthMismatch if the buffer does not have one place for
 * each segment; else 101 NoDescriptor if `segments` is null.
 */
CVL_CHECKED CvlStatus cvl_segments_from_offsets(const int32_t *offsets, size_t offsets_len, int32_t *lengths, size_t lengths_len,
    CvlSegments *segments);

/* How many elements the segments have in all. */
CVL_CHECKED CvlStatus cvl_segments_total(const CvlSegments *segments, size_t *total);

/*
 * Where each segment starts, and last where the last one ends.
 * Faults: those of lengths; 7 LengthMismatch if out does not have one place more than there are segments.
 */
CVL_CHECKED CvlStatus cvl_segments_offsets(const CvlSegments *segments, int32_t *out, size_t out_len);

/*
 * At each place the number of its segment, counted from 0.
 * Faults: those of lengths; 7 LengthMismatch if out does not have as many places as the segments; 100 NoResources.
 */
CVL_CHECKED CvlStatus cvl_segments_numbers(const CvlSegments *segments, int32_t *out, size_t out_len);

CVL_CHECKED CvlStatus cvl_segments_checked_scan(const int32_t *a, size_t a_len, const CvlSegments *segments, int32_t *out,
    size_t out_len);

CVL_CHECKED CvlStatus cvl_segments_checked_reduce(const int32_t *a, size_t a_len, const CvlSegments *segments, int32_t *out,
    size_t out_len);

CVL_CHECKED CvlStatus cvl_segments_extract_int(const int32_t *vector, size_t vector_len, const int32_t *index, size_t index_len,
    const CvlSegments *segments, int32_t *out, size_t out_len);

CVL_CHECKED CvlStatus cvl_segments_extract_bool(const bool *vector, size_t vector_len, const int32_t *index, size_t index_len,
    const CvlSegments *segments, bool *out, size_t out_len);

CVL_CHECKED CvlStatus cvl_segments_replace_int(const int32_t *vector, size_t vector_len, const int32_t *index, size_t index_len,
    const int32_t *values, size_t values_len, const CvlSegments *segments, int32_t *out, size_t out_len);

CVL_CHECKED CvlStatus cvl_segments_replace_bool(const bool *vector, size_t vector_len, const int32_t *index, size_t index_len,
    const bool *values, size_t values_len, const CvlSegments *segments, bool *out, size_t out_len);

CVL_CHECKED CvlStatus cvl_segments_distribute_int(const int32_t *values, size_t values_len, const CvlSegments *segments,
    int32_t *out, size_t out_len);

CVL_CHECKED CvlStatus cvl_segments_distribute_bool(const bool *values, size_t values_len, const CvlSegments *segments,
    bool *out, size_t out_len);

CVL_CHECKED CvlStatus cvl_segments_index(const int32_t *inits, size_t inits_len, const int32_t *strides, size_t strides_len,
    const CvlSegments *segments, int32_t *out, size_t out_len);

CVL_CHECKED CvlStatus cvl_segments_int_scan(uint32_t op, const int32_t *a, size_t a_len, const CvlSegments *segments,
    int32_t *out, size_t out_len);

CVL_CHECKED CvlStatus cvl_segments_bool_scan(uint32_t op, const bool *a, size_t a_len, const CvlSegments *segments, bool *out,
    size_t out_len);

CVL_CHECKED CvlStatus cvl_segments_int_reduce(uint32_t op, const int32_t *a, size_t a_len, const CvlSegments *segments,
    int32_t *out, size_t out_len);

CVL_CHECKED CvlStatus cvl_segments_bool_reduce(uint32_t op, const bool *a, size_t a_len, const CvlSegments *segments, bool *out,
    size_t out_len);

CVL_CHECKED CvlStatus cvl_segments_pack_int(const int32_t *values, size_t values_len, const bool *flags, size_t flags_len,
    const CvlSegments *segments, int32_t *out, size_t out_len, size_t *count);

CVL_CHECKED CvlStatus cvl_segments_pack_bool(const bool *values, size_t values_len, const bool *flags, size_t flags_len,
    const CvlSegments *segments, bool *out, size_t out_len, size_t *count);

CVL_CHECKED CvlStatus cvl_segments_packed_lengths(const bool *flags, size_t flags_len, const CvlSegments *segments,
    int32_t *out, size_t out_len);

CVL_CHECKED CvlStatus cvl_segments_count(const bool *flags, size_t flags_len, const CvlSegments *segments, int32_t *out,
    size_t out_len);

CVL_CHECKED CvlStatus cvl_segments_permute_int(const int32_t *source, size_t source_len, const int32_t *index, size_t index_len,
    const CvlSegments *segments, int32_t *out, size_t out_len);

CVL_CHECKED CvlStatus cvl_segments_permute_bool(const bool *source, size_t source_len, const int32_t *index, size_t index_len,
    const CvlSegments *segments, bool *out, size_t out_len);

CVL_CHECKED CvlStatus cvl_segments_select_permute_int(const int32_t *source, size_t source_len, const int32_t *index,
    size_t index_len, const bool *flags, size_t flags_len, const CvlSegments *segments, int32_t *out, size_t out_len);

CVL_CHECKED CvlStatus cvl_segments_select_permute_bool(const bool *source, size_t source_len, const int32_t *index,
    size_t index_len, const bool *flags, size_t flags_len, const CvlSegments *segments, bool *out, size_t out_len);

CVL_CHECKED CvlStatus cvl_segments_default_permute_int(const int32_t *source, size_t source_len, const int32_t *index,
    size_t index_len, const int32_t *defaults, size_t defaults_len, const CvlSegments *segments,
    const CvlSegments *default_segments, int32_t *out, size_t out_len);

CVL_CHECKED CvlStatus cvl_segments_default_permute_bool(const bool *source, size_t source_len, const int32_t *index,
    size_t index_len, const bool *defaults, size_t defaults_len, const CvlSegments *segments,
    const CvlSegments *default_segments, bool *out, size_t out_len);

CVL_CHECKED CvlStatus cvl_segments_back_permute_int(const int32_t *source, size_t source_len, const int32_t *index,
    size_t index_len, const CvlSegments *segments, const CvlSegments *index_segments, int32_t *out, size_t out_len);

CVL_CHECKED CvlStatus cvl_segments_back_permute_bool(const bool *source, size_t source_len, const int32_t *index,
    size_t index_len, const CvlSegments *segments, const CvlSegments *index_segments, bool *out, size_t out_len);

CVL_CHECKED CvlStatus cvl_segments_first_senders(const int32_t *index, size_t index_len, const CvlSegments *segments,
    const CvlSegments *result_segments, int32_t *out, size_t out_len);

CVL_CHECKED CvlStatus cvl_segments_select_first_senders(const int32_t *index, size_t index_len, const bool *flags,
    size_t flags_len, const CvlSegments *segments, const CvlSegments *result_segments, int32_t *out, size_t out_len);

CVL_CHECKED CvlStatus cvl_segments_combine_permute_int(uint32_t op, const int32_t *source, size_t source_len,
    const int32_t *index, size_t index_len, const CvlSegments *segments, const CvlSegments *result_segments, int32_t *out,
    size_t out_len);

CVL_CHECKED CvlStatus cvl_segments_combine_permute_bool(uint32_t op, const bool *source, size_t source_len,
    const int32_t *index, size_t index_len, const CvlSegments *segments, const CvlSegments *result_segments, bool *out,
    size_t out_len);

CVL_CHECKED CvlStatus cvl_segments_combine_checked_int(const int32_t *source, size_t source_len, const int32_t *index,
    size_t index_len, const CvlSegments *segments, const CvlSegments *result_segments, int32_t *out, size_t out_len);

CVL_CHECKED CvlStatus cvl_segments_combine_exact_sums(const int32_t *source, size_t source_len, const int32_t *index,
    size_t index_len, const CvlSegments *segments, const CvlSegments *result_segments, int64_t *out, size_t out_len);

CVL_CHECKED CvlStatus cvl_segments_counts(const int32_t *index, size_t index_len, const CvlSegments *segments,
    const CvlSegments *result_segments, int32_t *out, size_t out_len);

CVL_CHECKED CvlStatus cvl_segments_order(const int32_t *keys, size_t keys_len, const CvlSegments *segments, int32_t *out,
    size_t out_len);

CVL_CHECKED CvlStatus cvl_segments_rank(const int32_t *keys, size_t keys_len, const CvlSegments *segments, int32_t *out,
    size_t out_len);

CVL_CHECKED CvlStatus cvl_segments_sort(const int32_t *keys, size_t keys_len, const CvlSegments *segments, int32_t *out,
    size_t out_len);

CVL_CHECKED CvlStatus cvl_segments_sort_by_key(const CvlSegments *segments, int32_t *keys, size_t keys_len, int32_t *values,
    size_t values_len);

CVL_CHECKED CvlStatus cvl_segments_sort_by_key_descending(const CvlSegments *segments, int32_t *keys, size_t keys_len,
    int32_t *values, size_t values_len);

CVL_CHECKED CvlStatus cvl_segments_run_lengths_int(const int32_t *a, size_t a_len, const CvlSegments *segments, int32_t *out,
    size_t out_len, size_t *count);

CVL_CHECKED CvlStatus cvl_segments_run_lengths_bool(const bool *a, size_t a_len, const CvlSegments *segments, int32_t *out,
    size_t out_len, size_t *count);

CVL_CHECKED CvlStatus cvl_segments_run_starts_int(const int32_t *a, size_t a_len, const CvlSegments *segments, int32_t *out,
    size_t out_len, size_t *count);

CVL_CHECKED CvlStatus cvl_segments_run_starts_bool(const bool *a, size_t a_len, const CvlSegments *segments, int32_t *out,
    size_t out_len, size_t *count);

CVL_CHECKED CvlStatus cvl_segments_run_counts_int(const int32_t *a, size_t a_len, const CvlSegments *segments, int32_t *out,
    size_t out_len);

CVL_CHECKED CvlStatus cvl_segments_run_counts_bool(const bool *a, size_t a_len, const CvlSegments *segments, int32_t *out,
    size_t out_len);

CVL_CHECKED CvlStatus cvl_segments_merge_by_flags_int(const bool *flags, size_t flags_len, const int32_t *when_true,
    size_t when_true_len, const int32_t *when_false, size_t when_false_len, const CvlSegments *segments,
    const CvlSegments *true_segments, const CvlSegments *false_segments, int32_t *out, size_t out_len);

CVL_CHECKED CvlStatus cvl_segments_merge_by_flags_bool(const bool *flags, size_t flags_len, const bool *when_true,
    size_t when_true_len, const bool *when_false, size_t when_false_len, const CvlSegments *segments,
    const CvlSegments *true_segments, const CvlSegments *false_segments, bool *out, size_t out_len);

CVL_CHECKED CvlStatus cvl_segments_first_true(const bool *flags, size_t flags_len, const CvlSegments *segments, int32_t *out,
    size_t out_len);

CVL_CHECKED CvlStatus cvl_segments_exact_sums(const int32_t *a, size_t a_len, const CvlSegments *segments, int64_t *out,
    size_t out_len);

CVL_CHECKED CvlStatus cvl_segments_write_ints(const int32_t *a, size_t a_len, const CvlSegments *segments, char *out,
    size_t out_len, size_t *count);

CVL_CHECKED CvlStatus cvl_segments_write_bools(const bool *a, size_t a_len, const CvlSegments *segments, char *out,
    size_t out_len, size_t *count);

/* ---- place by place: families ---- */

/* The operator on each two integers at the same place. */
CVL_CHECKED CvlStatus cvl_int2(uint32_t op, const int32_t *a, size_t a_len, const int32_t *b, size_t b_len, int32_t *out,
    size_t out_len);

/* The operator on each two booleans at the same place. */
CVL_CHECKED CvlStatus cvl_bool2(uint32_t op, const bool *a, size_t a_len, const bool *b, size_t b_len, bool *out,
    size_t out_len);

/* The operator, CVL_NOT or CVL_CPY, on each integer. */
CVL_CHECKED CvlStatus cvl_int1(uint32_t op, const int32_t *a, size_t a_len, int32_t *out, size_t out_len);

/* The operator, CVL_NOT or CVL_CPY, on each boolean. */
CVL_CHECKED CvlStatus cvl_bool1(uint32_t op, const bool *a, size_t a_len, bool *out, size_t out_len);

/* The comparison of each two integers at the same place, on signed numbers. */
CVL_CHECKED CvlStatus cvl_compare(uint32_t op, const int32_t *a, size_t a_len, const int32_t *b, size_t b_len, bool *out,
    size_t out_len);

/* 1 for true and 0 for false. */
CVL_CHECKED CvlStatus cvl_int_from_bool(const bool *a, size_t a_len, int32_t *out, size_t out_len);

/* False for 0 and true for all else. */
CVL_CHECKED CvlStatus cvl_bool_from_int(const int32_t *a, size_t a_len, bool *out, size_t out_len);

/* At each place the element of a if the flag is true, else that of b. */
CVL_CHECKED CvlStatus cvl_select_int(const bool *flags, size_t flags_len, const int32_t *a, size_t a_len, const int32_t *b,
    size_t b_len, int32_t *out, size_t out_len);
CVL_CHECKED CvlStatus cvl_select_bool(const bool *flags, size_t flags_len, const bool *a, size_t a_len, const bool *b,
    size_t b_len, bool *out, size_t out_len);

/* ---- scans and reduces: families ---- */

/* For each integer those before it, joined by the operator, of CVL_ADD to CVL_XOR. */
CVL_CHECKED CvlStatus cvl_int_scan(uint32_t op, const int32_t *a, size_t a_len, int32_t *out, size_t out_len);

/* For each boolean those before it, joined by the operator, of CVL_AND to CVL_XOR. */
CVL_CHECKED CvlStatus cvl_bool_scan(uint32_t op, const bool *a, size_t a_len, bool *out, size_t out_len);

/* The integers joined by the operator, of CVL_ADD to CVL_XOR. */
CVL_CHECKED CvlStatus cvl_int_reduce(uint32_t op, const int32_t *a, size_t a_len, int32_t *out);

/* The booleans joined by the operator, of CVL_AND to CVL_XOR. */
CVL_CHECKED CvlStatus cvl_bool_reduce(uint32_t op, const bool *a, size_t a_len, bool *out);

/* ---- sums that never wrap: families ---- */

/* For each integer the sum of those before it. */
CVL_CHECKED CvlStatus cvl_checked_scan(const int32_t *a, size_t a_len, int32_t *out, size_t out_len);

/* The sum of the integers. */
CVL_CHECKED CvlStatus cvl_checked_reduce(const int32_t *a, size_t a_len, int32_t *out);

/* For each integer the sum of those before it in its segment. */
CVL_CHECKED CvlStatus cvl_seg_checked_scan(const int32_t *a, size_t a_len, CvlLengths lengths, int32_t *out, size_t out_len);

/* The sum of each segment. */
CVL_CHECKED CvlStatus cvl_seg_checked_reduce(const int32_t *a, size_t a_len, CvlLengths lengths, int32_t *out, size_t out_len);

/* ---- counts, single elements, and vectors of a given length: families ---- */

/* The number of true flags. */
CVL_CHECKED CvlStatus cvl_count(const bool *flags, size_t flags_len, int32_t *out);

/* The element at an index. Vectors of any length. */
CVL_CHECKED CvlStatus cvl_extract_int(const int32_t *vector, size_t vector_len, int64_t index, int32_t *out);
CVL_CHECKED CvlStatus cvl_extract_bool(const bool *vector, size_t vector_len, int64_t index, bool *out);

/* The vector with another element at an index. Vectors of any length. */
CVL_CHECKED CvlStatus cvl_replace_int(const int32_t *vector, size_t vector_len, int64_t index, int32_t value, int32_t *out,
    size_t out_len);
CVL_CHECKED CvlStatus cvl_replace_bool(const bool *vector, size_t vector_len, int64_t index, bool value, bool *out,
    size_t out_len);

/* Copies of a value, count of them. */
CVL_CHECKED CvlStatus cvl_distribute_int(int32_t value, int64_t count, int32_t *out, size_t out_len);
CVL_CHECKED CvlStatus cvl_distribute_bool(bool value, int64_t count, bool *out, size_t out_len);

/* The numbers init + k * stride, each wrapped to 32 bits, count of them. */
CVL_CHECKED CvlStatus cvl_index(int32_t init, int32_t stride, int64_t count, int32_t *out, size_t out_len);

/* ---- segments, which come as their lengths: families ---- */

/* Whether the numbers are lengths of segments, and their total. */
CVL_CHECKED CvlStatus cvl_make_descriptor(CvlLengths lengths, size_t *total);

/* The element of each segment at its index. */
CVL_CHECKED CvlStatus cvl_seg_extract_int(const int32_t *vector, size_t vector_len, const int32_t *index, size_t index_len,
    CvlLengths lengths, int32_t *out, size_t out_len);
CVL_CHECKED CvlStatus cvl_seg_extract_bool(const bool *vector, size_t vector_len, const int32_t *index, size_t index_len,
    CvlLengths lengths, bool *out, size_t out_len);

/* The vector with another element in each segment, at its index. */
CVL_CHECKED CvlStatus cvl_seg_replace_int(const int32_t *vector, size_t vector_len, const int32_t *index, size_t index_len,
    const int32_t *values, size_t values_len, CvlLengths lengths, int32_t *out, size_t out_len);
CVL_CHECKED CvlStatus cvl_seg_replace_bool(const bool *vector, size_t vector_len, const int32_t *index, size_t index_len,
    const bool *values, size_t values_len, CvlLengths lengths, bool *out, size_t out_len);

/* Copies of the value of each segment, as many as it has places. */
CVL_CHECKED CvlStatus cvl_seg_distribute_int(const int32_t *values, size_t values_len, CvlLengths lengths, int32_t *out,
    size_t out_len);
CVL_CHECKED CvlStatus cvl_seg_distribute_bool(const bool *values, size_t values_len, CvlLengths lengths, bool *out,
    size_t out_len);

/* The numbers of each segment from its init on, in steps of its stride. */
CVL_CHECKED CvlStatus cvl_seg_index(const int32_t *inits, size_t inits_len, const int32_t *strides, size_t strides_len,
    CvlLengths lengths, int32_t *out, size_t out_len);

/* ---- scans and reduces of segments: families ---- */

/* For each integer those before it in its segment, joined by the operator, of CVL_ADD to CVL_XOR. */
CVL_CHECKED CvlStatus cvl_seg_int_scan(uint32_t op, const int32_t *a, size_t a_len, CvlLengths lengths, int32_t *out,
    size_t out_len);

/* For each boolean those before it in its segment, joined by the operator, of CVL_AND to CVL_XOR. */
CVL_CHECKED CvlStatus cvl_seg_bool_scan(uint32_t op, const bool *a, size_t a_len, CvlLengths lengths, bool *out,
    size_t out_len);

/* The integers of each segment joined by the operator, of CVL_ADD to CVL_XOR. */
CVL_CHECKED CvlStatus cvl_seg_int_reduce(uint32_t op, const int32_t *a, size_t a_len, CvlLengths lengths, int32_t *out,
    size_t out_len);

/* The booleans of each segment joined by the operator, of CVL_AND to CVL_XOR. */
CVL_CHECKED CvlStatus cvl_seg_bool_reduce(uint32_t op, const bool *a, size_t a_len, CvlLengths lengths, bool *out,
    size_t out_len);

/* ---- packs and counts of segments: families ---- */

/* The integers whose flag is true, in order, and how many they are. */
CVL_CHECKED CvlStatus cvl_pack_int(const int32_t *values, size_t values_len, const bool *flags, size_t flags_len, int32_t *out,
    size_t out_len, size_t *count);

/* The booleans whose flag is true, in order, and how many they are. */
CVL_CHECKED CvlStatus cvl_pack_bool(const bool *values, size_t values_len, const bool *flags, size_t flags_len, bool *out,
    size_t out_len, size_t *count);

/* The integers of each segment whose flag is true, in order, one segment after another, and how many they are. */
CVL_CHECKED CvlStatus cvl_seg_pack_int(const int32_t *values, size_t values_len, const bool *flags, size_t flags_len,
    CvlLengths lengths, int32_t *out, size_t out_len, size_t *count);

/* The booleans of each segment whose flag is true, in order, one segment after another, and how many they are. */
CVL_CHECKED CvlStatus cvl_seg_pack_bool(const bool *values, size_t values_len, const bool *flags, size_t flags_len,
    CvlLengths lengths, bool *out, size_t out_len, size_t *count);

/* The lengths of the segments of what a pack of segments keeps. */
CVL_CHECKED CvlStatus cvl_seg_packed_lengths(const bool *flags, size_t flags_len, CvlLengths lengths, int32_t *out,
    size_t out_len);

/* The number of true flags of each segment. */
CVL_CHECKED CvlStatus cvl_seg_count(const bool *flags, size_t flags_len, CvlLengths lengths, int32_t *out, size_t out_len);

/* ---- permutes: families ---- */

/* Each element of the source at its index. */
CVL_CHECKED CvlStatus cvl_permute_int(const int32_t *source, size_t source_len, const int32_t *index, size_t index_len,
    int32_t *out, size_t out_len);
CVL_CHECKED CvlStatus cvl_permute_bool(const bool *source, size_t source_len, const int32_t *index, size_t index_len, bool *out,
    size_t out_len);

/* Each element of the source whose flag is true at its index. */
CVL_CHECKED CvlStatus cvl_select_permute_int(const int32_t *source, size_t source_len, const int32_t *index, size_t index_len,
    const bool *flags, size_t flags_len, int32_t *out, size_t out_len);
CVL_CHECKED CvlStatus cvl_select_permute_bool(const bool *source, size_t source_len, const int32_t *index, size_t index_len,
    const bool *flags, size_t flags_len, bool *out, size_t out_len);

/* Each element of the source at its index, and at a place to which none goes its default. */
CVL_CHECKED CvlStatus cvl_default_permute_int(const int32_t *source, size_t source_len, const int32_t *index, size_t index_len,
    const int32_t *defaults, size_t defaults_len, int32_t *out, size_t out_len);
CVL_CHECKED CvlStatus cvl_default_permute_bool(const bool *source, size_t source_len, const int32_t *index, size_t index_len,
    const bool *defaults, size_t defaults_len, bool *out, size_t out_len);

/* At each place the element of the source at the place's index. */
CVL_CHECKED CvlStatus cvl_back_permute_int(const int32_t *source, size_t source_len, const int32_t *index, size_t index_len,
    int32_t *out, size_t out_len);
CVL_CHECKED CvlStatus cvl_back_permute_bool(const bool *source, size_t source_len, const int32_t *index, size_t index_len,
    bool *out, size_t out_len);

/* ---- permutes of segments: families ---- */

/* Each element of the source at its index in its segment. */
CVL_CHECKED CvlStatus cvl_seg_permute_int(const int32_t *source, size_t source_len, const int32_t *index, size_t index_len,
    CvlLengths lengths, int32_t *out, size_t out_len);
CVL_CHECKED CvlStatus cvl_seg_permute_bool(const bool *source, size_t source_len, const int32_t *index, size_t index_len,
    CvlLengths lengths, bool *out, size_t out_len);

/* Each element of the source whose flag is true at its index in its segment of the result. */
CVL_CHECKED CvlStatus cvl_seg_select_permute_int(const int32_t *source, size_t source_len, const int32_t *index,
    size_t index_len, const bool *flags, size_t flags_len, CvlLengths lengths, int32_t *out, size_t out_len);
CVL_CHECKED CvlStatus cvl_seg_select_permute_bool(const bool *source, size_t source_len, const int32_t *index, size_t index_len,
    const bool *flags, size_t flags_len, CvlLengths lengths, bool *out, size_t out_len);

/* Each element of the source at its index in its segment of the defaults, and at a place to which none goes its default. */
CVL_CHECKED CvlStatus cvl_seg_default_permute_int(const int32_t *source, size_t source_len, const int32_t *index,
    size_t index_len, const int32_t *defaults, size_t defaults_len, CvlLengths lengths, CvlLengths default_lengths,
    int32_t *out, size_t out_len);
CVL_CHECKED CvlStatus cvl_seg_default_permute_bool(const bool *source, size_t source_len, const int32_t *index,
    size_t index_len, const bool *defaults, size_t defaults_len, CvlLengths lengths, CvlLengths default_lengths, bool *out,
    size_t out_len);

/* At each place the element at the place's index in the same segment of the source. */
CVL_CHECKED CvlStatus cvl_seg_back_permute_int(const int32_t *source, size_t source_len, const int32_t *index, size_t index_len,
    CvlLengths lengths, CvlLengths index_lengths, int32_t *out, size_t out_len);
CVL_CHECKED CvlStatus cvl_seg_back_permute_bool(const bool *source, size_t source_len, const int32_t *index, size_t index_len,
    CvlLengths lengths, CvlLengths index_lengths, bool *out, size_t out_len);

/* ---- first senders: families ---- */

/*
 * No script calls these. If several places name one place of the result, the least wins, for any number of threads. A back
 * permute by the senders that are not -1 gives one element for each place that is named.
 *
 * With lengths, an index counts from the start of its segment of the result, and a sender from the start of its own. The faults
 * by `lengths` come first, then those by `result_lengths`, which are as many, else 7 LengthMismatch.
 */

/*
 * For each place of the result the least place whose index names it, or -1 if none does. The result may have any number of
 * places. Faults: 10 IndexOutOfRange at the first index that is no place of the result.
 */
CVL_CHECKED CvlStatus cvl_first_senders(const int32_t *index, size_t index_len, int32_t *out, size_t out_len);

/*
 * For each place of the result the least place whose flag is true and whose index names it, or -1 if none does. An index whose
 * flag is false is ignored. The result may have any number of places. Faults: 10 IndexOutOfRange at the first index that is no
 * place of the result.
 */
CVL_CHECKED CvlStatus cvl_select_first_senders(const int32_t *index, size_t index_len, const bool *flags, size_t flags_len,
    int32_t *out, size_t out_len);

/*
 * For each place of each segment of the result the least place of the same segment of the index that names it, or -1 if none
 * does. Faults: 10 IndexOutOfRange at the first index that is no place of its segment of the result.
 */
CVL_CHECKED CvlStatus cvl_seg_first_senders(const int32_t *index, size_t index_len, CvlLengths lengths,
    CvlLengths result_lengths, int32_t *out, size_t out_len);

/*
 * For each place of each segment of the result the least place of the same segment of the index whose flag is true and whose
 * index names it, or -1 if none does. An index whose flag is false is ignored. Faults: 10 IndexOutOfRange at the first index
 * that is no place of its segment of the result.
 */
CVL_CHECKED CvlStatus cvl_seg_select_first_senders(const int32_t *index, size_t index_len, const bool *flags, size_t flags_len,
    CvlLengths lengths, CvlLengths result_lengths, int32_t *out, size_t out_len);

/* ---- combining permutes: families ---- */

/*
 * No script calls these. A combining permute joins each element with what stands at the place that its index names: one call
 * adds up by key, or finds the least of each group. Elements that go to one place are joined in their order. out holds the
 * values before and then the result; to start anew, fill it with what changes nothing, such as 0 for CVL_ADD and INT32_MAX for
 * CVL_MIN. Booleans in out that are neither 0 nor 1 become 1.
 *
 * With lengths, an index counts from the start of its segment of out. The faults by `lengths` come first, then those by
 * `result_lengths`, which are as many, else 7 LengthMismatch.
 */

/*
 * At each place of out what stands there, joined by the operator, of CVL_ADD to CVL_XOR, with each integer whose index names
 * the place. out may have any number of places. Faults: 10 IndexOutOfRange at the first index that is no place of the result.
 */
CVL_CHECKED CvlStatus cvl_combine_permute_int(uint32_t op, const int32_t *source, size_t source_len, const int32_t *index,
    size_t index_len, int32_t *out, size_t out_len);

/*
 * At each place of out what stands there, joined by the operator, of CVL_AND to CVL_XOR, with each boolean whose index names
 * the place. out may have any number of places. Faults: 10 IndexOutOfRange at the first index that is no place of the result.
 */
CVL_CHECKED CvlStatus cvl_combine_permute_bool(uint32_t op, const bool *source, size_t source_len, const int32_t *index,
    size_t index_len, bool *out, size_t out_len);

/*
 * For each place of the result how many indices name it. The result may have any number of places. Faults: 10 IndexOutOfRange
 * at the first index that is no place of the result.
 */
CVL_CHECKED CvlStatus cvl_counts(const int32_t *index, size_t index_len, int32_t *out, size_t out_len);

/*
 * At each place of each segment of out what stands there, joined by the operator, of CVL_ADD to CVL_XOR, with each integer of
 * the same segment whose index names the place. Faults: 10 IndexOutOfRange at the first index that is no place of its segment
 * of the result.
 */
CVL_CHECKED CvlStatus cvl_seg_combine_permute_int(uint32_t op, const int32_t *source, size_t source_len, const int32_t *index,
    size_t index_len, CvlLengths lengths, CvlLengths result_lengths, int32_t *out, size_t out_len);

/*
 * At each place of each segment of out what stands there, joined by the operator, of CVL_AND to CVL_XOR, with each boolean of
 * the same segment whose index names the place. Faults: 10 IndexOutOfRange at the first index that is no place of its segment
 * of the result.
 */
CVL_CHECKED CvlStatus cvl_seg_combine_permute_bool(uint32_t op, const bool *source, size_t source_len, const int32_t *index,
    size_t index_len, CvlLengths lengths, CvlLengths result_lengths, bool *out, size_t out_len);

/*
 * At each place of out what stands there, plus each integer whose index names the place. The sum may leave 32 bits on the way,
 * and has to fit them at the end. out may have any number of places. While it runs, the call takes 8 bytes for each place of
 * out. Faults: 10 IndexOutOfRange at the first index that is no place of the result; 18 Overflow at the first place whose sum
 * does not fit 32 bits.
 */
CVL_CHECKED CvlStatus cvl_combine_checked_int(const int32_t *source, size_t source_len, const int32_t *index, size_t index_len,
    int32_t *out, size_t out_len);

/*
 * At each place of out, of 64 bits, the sum that stands there, plus each integer whose index names the place: it is exact. out
 * may have any number of places. Faults: 18 Overflow at the first place that held a sum below -2^62, or 2^62 or more; 10
 * IndexOutOfRange at the first index that is no place of the result.
 */
CVL_CHECKED CvlStatus cvl_combine_exact_sums(const int32_t *source, size_t source_len, const int32_t *index, size_t index_len,
    int64_t *out, size_t out_len);

/*
 * At each place of each segment of out what stands there, plus each integer of the same segment whose index names the place.
 * The sum may leave 32 bits on the way, and has to fit them at the end. While it runs, the call takes 8 bytes for each place of
 * out. Faults: 10 IndexOutOfRange at the first index that is no place of its segment of the result; 18 Overflow at the first
 * place whose sum does not fit 32 bits.
 */
CVL_CHECKED CvlStatus cvl_seg_combine_checked_int(const int32_t *source, size_t source_len, const int32_t *index,
    size_t index_len, CvlLengths lengths, CvlLengths result_lengths, int32_t *out, size_t out_len);

/*
 * At each place of each segment of out, of 64 bits, the sum that stands there, plus each integer of the same segment whose
 * index names the place: it is exact. Faults: 18 Overflow at the first place that held a sum below -2^62, or 2^62 or more; 10
 * IndexOutOfRange at the first index that is no place of its segment of the result.
 */
CVL_CHECKED CvlStatus cvl_seg_combine_exact_sums(const int32_t *source, size_t source_len, const int32_t *index,
    size_t index_len, CvlLengths lengths, CvlLengths result_lengths, int64_t *out, size_t out_len);

/*
 * For each place of each segment of the result how many indices of the same segment name it. Faults: 10 IndexOutOfRange at the
 * first index that is no place of its segment of the result.
 */
CVL_CHECKED CvlStatus cvl_seg_counts(const int32_t *index, size_t index_len, CvlLengths lengths, CvlLengths result_lengths,
    int32_t *out, size_t out_len);

/* ---- orders, ranks and sorts: families ---- */

/*
 * No script calls these. Keys are signed integers, and equal ones keep the order of their places (a stable sort). For
 * descending order use CVL_NOT on the keys before a call, and on the result of a sort. A sort may be in place.
 *
 * An order and a rank take up to 16 bytes a key while they run, a sort up to 4 (by segments, for the keys of the longest one),
 * and all up to 8192 bytes more for each thread, else 100 NoResources.
 */

/*
 * The places in ascending order of their keys, equal keys in the order of their places. A back permute by them sorts whatever
 * belongs to the keys.
 */
CVL_CHECKED CvlStatus cvl_order(const int32_t *keys, size_t keys_len, int32_t *out, size_t out_len);

/*
 * For each place how many keys come before its key: the lesser ones, and the equal ones of earlier places. A simple permute by
 * them sorts whatever belongs to the keys.
 */
CVL_CHECKED CvlStatus cvl_rank(const int32_t *keys, size_t keys_len, int32_t *out, size_t out_len);

/* The keys in ascending order. */
CVL_CHECKED CvlStatus cvl_sort(const int32_t *keys, size_t keys_len, int32_t *out, size_t out_len);

/* The order of the keys of each segment, whose places count from the start of the segment. */
CVL_CHECKED CvlStatus cvl_seg_order(const int32_t *keys, size_t keys_len, CvlLengths lengths, int32_t *out, size_t out_len);

/* The rank of each key in its segment. */
CVL_CHECKED CvlStatus cvl_seg_rank(const int32_t *keys, size_t keys_len, CvlLengths lengths, int32_t *out, size_t out_len);

/* The keys of each segment in ascending order. */
CVL_CHECKED CvlStatus cvl_seg_sort(const int32_t *keys, size_t keys_len, CvlLengths lengths, int32_t *out, size_t out_len);

/* ---- sorts by key: families ---- */

/*
 * No script calls these. Each is in place: keys and values hold what is sorted, and then the result, and may not overlap. Keys
 * are signed integers, and the values of equal keys stay as they stood (a stable sort). To keep the keys as they are, copy them
 * first; to move several vectors, take the order of the keys instead, and a back permute of each by it.
 *
 * They take up to 16 bytes a key while they run, by segments on several threads up to 24, and up to 8192 bytes more for each
 * thread, else 100 NoResources.
 */

/* The keys in ascending order, and the values, each of which moves with its key. */
CVL_CHECKED CvlStatus cvl_sort_by_key(int32_t *keys, size_t keys_len, int32_t *values, size_t values_len);

/* The keys in descending order, and the values, each of which moves with its key. */
CVL_CHECKED CvlStatus cvl_sort_by_key_descending(int32_t *keys, size_t keys_len, int32_t *values, size_t values_len);

/* The keys of each segment in ascending order, and the values, each of which moves with its key. */
CVL_CHECKED CvlStatus cvl_seg_sort_by_key(CvlLengths lengths, int32_t *keys, size_t keys_len, int32_t *values,
    size_t values_len);

/* The keys of each segment in descending order, and the values, each of which moves with its key. */
CVL_CHECKED CvlStatus cvl_seg_sort_by_key_descending(CvlLengths lengths, int32_t *keys, size_t keys_len, int32_t *values,
    size_t values_len);

/* ---- runs of equal neighbours: families ---- */

/*
 * No script calls these. A run is as long as its neighbours are equal, so that in sorted keys each key has one run. Unique keys
 * are a back permute of the keys by the starts of their runs, and the lengths of the runs count each key. Reduce by key is a
 * reduce of segments by these lengths.
 *
 * With lengths, a run ends where its segment does, and cvl_seg_run_counts_int says how many runs each segment has. On several
 * threads lengths and starts take 4 bytes an element while they run; else these calls ask for no memory.
 */

/*
 * The length of each run of equal neighbours, in order, and how many they are. out needs room for so many; n is always enough.
 * *count is how many they are, also if out is too short.
 */
CVL_CHECKED CvlStatus cvl_run_lengths_int(const int32_t *a, size_t a_len, int32_t *out, size_t out_len, size_t *count);
CVL_CHECKED CvlStatus cvl_run_lengths_bool(const bool *a, size_t a_len, int32_t *out, size_t out_len, size_t *count);

/*
 * The place where each run of equal neighbours begins, in order, and how many they are. out needs room for so many; n is always
 * enough. *count is how many they are, also if out is too short.
 */
CVL_CHECKED CvlStatus cvl_run_starts_int(const int32_t *a, size_t a_len, int32_t *out, size_t out_len, size_t *count);
CVL_CHECKED CvlStatus cvl_run_starts_bool(const bool *a, size_t a_len, int32_t *out, size_t out_len, size_t *count);

/*
 * The length of each run of equal neighbours of each segment, in order, one segment after another, and how many they are. out
 * needs room for so many; n is always enough. *count is how many they are, also if out is too short.
 */
CVL_CHECKED CvlStatus cvl_seg_run_lengths_int(const int32_t *a, size_t a_len, CvlLengths lengths, int32_t *out, size_t out_len,
    size_t *count);
CVL_CHECKED CvlStatus cvl_seg_run_lengths_bool(const bool *a, size_t a_len, CvlLengths lengths, int32_t *out, size_t out_len,
    size_t *count);

/*
 * The place where each run of equal neighbours of each segment begins, in order, one segment after another, and how many they
 * are. Places count from the start of a. out needs room for so many; n is always enough. *count is how many they are, also if
 * out is too short.
 */
CVL_CHECKED CvlStatus cvl_seg_run_starts_int(const int32_t *a, size_t a_len, CvlLengths lengths, int32_t *out, size_t out_len,
    size_t *count);
CVL_CHECKED CvlStatus cvl_seg_run_starts_bool(const bool *a, size_t a_len, CvlLengths lengths, int32_t *out, size_t out_len,
    size_t *count);

/* The number of runs of equal neighbours of each segment: the lengths of the segments of what the other calls give. */
CVL_CHECKED CvlStatus cvl_seg_run_counts_int(const int32_t *a, size_t a_len, CvlLengths lengths, int32_t *out, size_t out_len);
CVL_CHECKED CvlStatus cvl_seg_run_counts_bool(const bool *a, size_t a_len, CvlLengths lengths, int32_t *out, size_t out_len);

/* ---- slices and merges: families ---- */

/*
 * No script calls these. They ask for memory only for booleans that are neither 0 nor 1, and on several threads for a copy of
 * the buffer. A search for one true flag runs on the calling thread.
 *
 * The faults by the lengths come first, then 7 LengthMismatch, without a place, if the lengths of arrays do not fit.
 */

/*
 * For each segment the elements of the source from the place `starts` on, as many as the segment is long. Slices may overlap,
 * come in any order and be empty; an empty one may start where the source ends. Faults: 10 IndexOutOfRange at the first segment
 * that starts below 0 or ends behind the source.
 */
CVL_CHECKED CvlStatus cvl_gather_segments_int(const int32_t *source, size_t source_len, const int32_t *starts,
    size_t starts_len, CvlLengths lengths, int32_t *out, size_t out_len);
CVL_CHECKED CvlStatus cvl_gather_segments_bool(const bool *source, size_t source_len, const int32_t *starts, size_t starts_len,
    CvlLengths lengths, bool *out, size_t out_len);

/* The segments of a, each followed by the segment of b that has its number. */
CVL_CHECKED CvlStatus cvl_append_segments_int(const int32_t *a, size_t a_len, const int32_t *b, size_t b_len,
    CvlLengths lengths, CvlLengths other_lengths, int32_t *out, size_t out_len);
CVL_CHECKED CvlStatus cvl_append_segments_bool(const bool *a, size_t a_len, const bool *b, size_t b_len, CvlLengths lengths,
    CvlLengths other_lengths, bool *out, size_t out_len);

/*
 * At each place the next element of when_true if the flag is true, and of when_false if it is false: the inverse of two packs.
 * Faults: 7 LengthMismatch if when_true does not have one element for each true flag, or when_false for each false one.
 */
CVL_CHECKED CvlStatus cvl_merge_by_flags_int(const bool *flags, size_t flags_len, const int32_t *when_true,
    size_t when_true_len, const int32_t *when_false, size_t when_false_len, int32_t *out, size_t out_len);
CVL_CHECKED CvlStatus cvl_merge_by_flags_bool(const bool *flags, size_t flags_len, const bool *when_true, size_t when_true_len,
    const bool *when_false, size_t when_false_len, bool *out, size_t out_len);

/*
 * At each place the next element of the same segment of when_true if the flag is true, and of when_false if it is false: the
 * inverse of two packs of segments. Faults: 7 LengthMismatch at the first segment whose true flags are not as many as its
 * elements of when_true, or the false ones as those of when_false.
 */
CVL_CHECKED CvlStatus cvl_seg_merge_by_flags_int(const bool *flags, size_t flags_len, const int32_t *when_true,
    size_t when_true_len, const int32_t *when_false, size_t when_false_len, CvlLengths lengths, CvlLengths true_lengths,
    CvlLengths false_lengths, int32_t *out, size_t out_len);
CVL_CHECKED CvlStatus cvl_seg_merge_by_flags_bool(const bool *flags, size_t flags_len, const bool *when_true,
    size_t when_true_len, const bool *when_false, size_t when_false_len, CvlLengths lengths, CvlLengths true_lengths,
    CvlLengths false_lengths, bool *out, size_t out_len);

/* The place of the first true flag, or -1 if none is true. */
CVL_CHECKED CvlStatus cvl_first_true(const bool *flags, size_t flags_len, int32_t *out);

/* For each segment the place of its first true flag, counted from its start, or -1 if none is true. */
CVL_CHECKED CvlStatus cvl_seg_first_true(const bool *flags, size_t flags_len, CvlLengths lengths, int32_t *out, size_t out_len);

/* The sum of each segment in 64 bits, which always fits. */
CVL_CHECKED CvlStatus cvl_seg_exact_sums(const int32_t *a, size_t a_len, CvlLengths lengths, int64_t *out, size_t out_len);

/* ---- transposes, and integers of a byte: families ---- */

/*
 * No script calls these. A transpose moves a matrix block by block, so it reads neighbours while they are in cache. Widen bytes
 * before calls on integers, and narrow what fits. For a signed type of bytes subtract 256 from the integers above 127 once they
 * are widened, and add 256 to the negative ones before they are narrowed.
 */

/*
 * The transpose of a matrix whose rows lie one behind another: element r of row c of the result is element c of row r. Faults:
 * 7 LengthMismatch if rows times columns is not n.
 */
CVL_CHECKED CvlStatus cvl_transpose_int(const int32_t *source, size_t source_len, size_t rows, size_t columns, int32_t *out,
    size_t out_len);
CVL_CHECKED CvlStatus cvl_transpose_bool(const bool *source, size_t source_len, size_t rows, size_t columns, bool *out,
    size_t out_len);

/* Each byte as an integer from 0 to 255. */
CVL_CHECKED CvlStatus cvl_ints_from_bytes(const uint8_t *bytes, size_t bytes_len, int32_t *out, size_t out_len);

/* Each integer as a byte. Faults: 18 Overflow at the first integer below 0 or above 255. */
CVL_CHECKED CvlStatus cvl_bytes_from_ints(const int32_t *a, size_t a_len, uint8_t *out, size_t out_len);

/* ---- texts: families ---- */

/*
 * A text is bytes, with no zero at its end; count is the length of the result. For a text that is read the buffer is checked
 * last, since only the text says how long the result is.
 */

/*
 * The integers of a text, between white space (space, tab, line feed, carriage return), each an optional minus sign and at
 * least one digit, inside 32 bits. Faults: 13 TooLong, without a place, if there are more than 2147483647 words between white
 * space, whatever they are; else 15 BadInput at the first word that is no such integer.
 */
CVL_CHECKED CvlStatus cvl_read_ints(const char *text, size_t text_len, int32_t *out, size_t out_len, size_t *count);

/* The text of a vector of integers: in decimal, a space between each two, in brackets. */
CVL_CHECKED CvlStatus cvl_write_ints(const int32_t *a, size_t a_len, char *out, size_t out_len, size_t *count);

/* The text of a vector of booleans: each T or F, a space between each two, in brackets. */
CVL_CHECKED CvlStatus cvl_write_bools(const bool *a, size_t a_len, char *out, size_t out_len, size_t *count);

/*
 * The integers and the lengths of the lists of a nested text: "[", any number of lists, "]"; a list is "[", integers as in
 * cvl_read_ints, "]". If one of the two buffers is too short, both stay as they were, and both counts are the lengths that you
 * need. Faults: 13 TooLong, without a place, if there are more than 4194304 words other than brackets or more than 4194305 "[",
 * whatever they are; else 15 BadInput at the first word or bracket that cannot stand there, or, if the text ends too early, at
 * the number of its words and brackets.
 */
CVL_CHECKED CvlStatus cvl_seg_read_ints(const char *text, size_t text_len, int32_t *out, size_t out_len, size_t *count,
    int32_t *lengths, size_t lengths_len, size_t *segments);

/*
 * The texts of the segments of a vector of integers, a space between each two, in brackets. Faults: by the lengths those of
 * each call on segments, 13 TooLong, 12 NegativeLength, 13 TooLong; 7 LengthMismatch if the lengths do not add up to the
 * vector's.
 */
CVL_CHECKED CvlStatus cvl_seg_write_ints(const int32_t *a, size_t a_len, CvlLengths lengths, char *out, size_t out_len,
    size_t *count);

/* The same of booleans, each T or F. */
CVL_CHECKED CvlStatus cvl_seg_write_bools(const bool *a, size_t a_len, CvlLengths lengths, char *out, size_t out_len,
    size_t *count);

/* ---- scans in parts, by threads of the caller's: families ---- */

/*
 * Your own threads scan one vector together in three steps, with a barrier of yours between them:
 *
 *   1. each thread reduces its tiles: cvl_int_reduce(op, a + from, to - from, &sums[t]), for tile t from place `from` to `to`;
 *   2. one thread scans the sums: cvl_int_scan(op, sums, tiles, before, tiles);
 *   3. each thread scans its tiles: cvl_int_scan_after(op, before[t], a + from, to - from, out + from, to - from).
 *
 * Tiles may have any length, also 0, and any thread may take any tile of a step. examples/c/threads.c does this with POSIX
 * threads.
 */

/* For each integer `before`, joined by the operator, of CVL_ADD to CVL_XOR, with those in front of it. */
CVL_CHECKED CvlStatus cvl_int_scan_after(uint32_t op, int32_t before, const int32_t *a, size_t a_len, int32_t *out,
    size_t out_len);

/* For each boolean `before`, joined by the operator, of CVL_AND to CVL_XOR, with those in front of it. */
CVL_CHECKED CvlStatus cvl_bool_scan_after(uint32_t op, bool before, const bool *a, size_t a_len, bool *out, size_t out_len);

/* ---- calls in parts: families ---- */

/*
 * Most calls in parts need only themselves; these functions are what else a part needs. In the repository docs/dev/parts.md
 * says for each call how to cut it, what its parts pass on, and how to join the results; cvl_parallel.h does it for threads.
 */

/* The sum of the integers in 64 bits, which always fits. */
CVL_CHECKED CvlStatus cvl_exact_sum(const int32_t *a, size_t a_len, int64_t *out);

/*
 * A part of cvl_checked_scan after the exact sum `before` of the parts in front of it. The place of a fault counts from the
 * start of the part. Faults: 18 Overflow at the first place whose sum does not fit 32 bits.
 */
CVL_CHECKED CvlStatus cvl_checked_scan_after(int64_t before, const int32_t *a, size_t a_len, int32_t *out, size_t out_len);

/*
 * One range of the result of smp_puz, its out_len places from place `lowest` on: each element whose index is one of them is
 * written there, the last if there are several. marks are (out_len + 31) / 32 words, whatever they hold before: bit b of word
 * w, of the value 1 << b, is set if place 32 * w + b of the range is written, and written is how many bits are set. Each part
 * has another range, its own marks, and all of source and index. If all parts together wrote index_len places, the ranges are
 * the permute; else an index is out of range or repeated: cvl_permute_int reports which. Other places stay as they were, so
 * over ranges that hold the defaults the parts are def_puz. Faults: 13 TooLong, by the index, and if the range ends behind
 * place 2147483647; 7 LengthMismatch if source and index differ in length, or marks_len is not (out_len + 31) / 32.
 */
CVL_CHECKED CvlStatus cvl_permute_int_range(const int32_t *source, size_t source_len, const int32_t *index, size_t index_len,
    size_t lowest, int32_t *out, size_t out_len, uint32_t *marks, size_t marks_len, size_t *written);

/* The same of booleans: smp_pub, and def_pub over ranges that hold the defaults before, each 0 or 1. */
CVL_CHECKED CvlStatus cvl_permute_bool_range(const bool *source, size_t source_len, const int32_t *index, size_t index_len,
    size_t lowest, bool *out, size_t out_len, uint32_t *marks, size_t marks_len, size_t *written);

/*
 * One range of the result of sel_puz, the same way, of the elements whose flag is true. If the result has as many places as
 * there are true flags, and all parts together wrote as many, the ranges are the permute. Faults: those of
 * cvl_permute_int_range; 7 LengthMismatch also if index and flags differ in length.
 */
CVL_CHECKED CvlStatus cvl_select_permute_int_range(const int32_t *source, size_t source_len, const int32_t *index,
    size_t index_len, const bool *flags, size_t flags_len, size_t lowest, int32_t *out, size_t out_len, uint32_t *marks,
    size_t marks_len, size_t *written);

/* The same of booleans: sel_pub. */
CVL_CHECKED CvlStatus cvl_select_permute_bool_range(const bool *source, size_t source_len, const int32_t *index,
    size_t index_len, const bool *flags, size_t flags_len, size_t lowest, bool *out, size_t out_len, uint32_t *marks,
    size_t marks_len, size_t *written);

/*
 * One range of the first senders, its out_len places from place `lowest` on: for each the least place whose index names it, or
 * -1. named is how many indices name a place of the range. Each part has another range and all of index. If all parts together
 * named index_len, the ranges are the first senders; else an index is out of range: cvl_first_senders reports which. Faults: 13
 * TooLong, by the index, and if the range ends behind place 2147483647.
 */
CVL_CHECKED CvlStatus cvl_first_senders_range(const int32_t *index, size_t index_len, size_t lowest, int32_t *out,
    size_t out_len, size_t *named);

/*
 * The same among the places whose flag is true: if all parts together named as many as flags are true, the ranges are the first
 * senders. Faults: those of cvl_first_senders_range; 7 LengthMismatch if index and flags differ in length.
 */
CVL_CHECKED CvlStatus cvl_select_first_senders_range(const int32_t *index, size_t index_len, const bool *flags,
    size_t flags_len, size_t lowest, int32_t *out, size_t out_len, size_t *named);

/*
 * One range of a combining permute of integers, by the operator, of CVL_ADD to CVL_XOR: the out_len places from place `lowest`
 * on, each joined with the elements whose index names it. named is how many indices name a place of the range. Each part has
 * another range, and all of source and index. If all parts together named index_len, the ranges are the combining permute; else
 * an index is out of range: cvl_combine_permute_int reports which. Faults: 13 TooLong, by the index, and if the range ends
 * behind place 2147483647.
 */
CVL_CHECKED CvlStatus cvl_combine_permute_int_range(uint32_t op, const int32_t *source, size_t source_len, const int32_t *index,
    size_t index_len, size_t lowest, int32_t *out, size_t out_len, size_t *named);

/*
 * One range of a combining permute of booleans, by the operator, of CVL_AND to CVL_XOR: the out_len places from place `lowest`
 * on, each joined with the elements whose index names it. named is how many indices name a place of the range. Each part has
 * another range, and all of source and index. If all parts together named index_len, the ranges are the combining permute; else
 * an index is out of range: cvl_combine_permute_bool reports which. Faults: 13 TooLong, by the index, and if the range ends
 * behind place 2147483647.
 */
CVL_CHECKED CvlStatus cvl_combine_permute_bool_range(uint32_t op, const bool *source, size_t source_len, const int32_t *index,
    size_t index_len, size_t lowest, bool *out, size_t out_len, size_t *named);

/*
 * One range of exact sums by place: the out_len sums from place `lowest` on, each plus the integers whose index names it. named
 * is how many indices name a place of the range. Each part has another range, and all of source and index. If all parts
 * together named index_len, the ranges are those of cvl_combine_exact_sums; else an index is out of range, which that call
 * reports. The place of a fault counts from the start of the whole result. Faults: 13 TooLong, by the index, and if the range
 * ends behind place 2147483647; 18 Overflow at the first place that held a sum below -2^62, or 2^62 or more.
 */
CVL_CHECKED CvlStatus cvl_combine_exact_sums_range(const int32_t *source, size_t source_len, const int32_t *index,
    size_t index_len, size_t lowest, int64_t *out, size_t out_len, size_t *named);

/*
 * One range of the counts by place: how many indices name each of the out_len places from place `lowest` on, and as named how
 * many name one of them. Faults: 13 TooLong, by the index, and if the range ends behind place 2147483647.
 */
CVL_CHECKED CvlStatus cvl_counts_range(const int32_t *index, size_t index_len, size_t lowest, int32_t *out, size_t out_len,
    size_t *named);

/*
 * One range of a transpose: its places from place `lowest` on, as many as out has. Each part has another range, and all of
 * source. The ranges, one after another, are the transpose. Faults: 13 TooLong, by the source, and if the range ends behind
 * place 2147483647; 7 LengthMismatch if rows times columns is not n; 7 LengthMismatch if the range ends behind place n.
 */
CVL_CHECKED CvlStatus cvl_transpose_int_range(const int32_t *source, size_t source_len, size_t rows, size_t columns,
    size_t lowest, int32_t *out, size_t out_len);
CVL_CHECKED CvlStatus cvl_transpose_bool_range(const bool *source, size_t source_len, size_t rows, size_t columns,
    size_t lowest, bool *out, size_t out_len);

/*
 * The integers of one piece of a text that is cut at white space, as cvl_read_ints reads them. `before` is how many words the
 * pieces before it have; a fault's place is that in the whole text. Faults: 13 TooLong, without a place, if `before` is more
 * than 2147483647, or the piece itself has more words than that; else 15 BadInput at the first word of the piece that is no
 * integer. You must check that all pieces together have at most 2147483647 words.
 */
CVL_CHECKED CvlStatus cvl_read_ints_after(size_t before, const char *text, size_t text_len, int32_t *out, size_t out_len,
    size_t *count);

/* ---- sparse products: families ---- */

/*
 * A sparse matrix comes by its rows: how many entries each row has, and the column and the value of each entry, row after row.
 * Rows may also come by their offsets, as in a matrix of compressed rows (CSR): one more than rows; row r has the entries from
 * offset r to before offset r + 1. Faults by the lengths come first. For many products of one matrix make the lengths once, by
 * cvl_segments_from_offsets.
 */

/*
 * The product of a sparse matrix with the vector x: for each row the sum of its values, each times the element of x at its
 * column, wrapped to 32 bits; 0 for a row without entries. Faults: 10 IndexOutOfRange at the first column below 0, or m or
 * more.
 */
CVL_CHECKED CvlStatus cvl_sparse_product(CvlLengths lengths, const int32_t *columns, size_t columns_len, const int32_t *values,
    size_t values_len, const int32_t *x, size_t x_len, int32_t *out, size_t out_len);

/*
 * The same product, in which nothing wraps: each row is added up in whole numbers. Faults: 10 IndexOutOfRange at the first
 * column below 0, or m or more; 18 Overflow at the first row whose sum does not fit 32 bits.
 */
CVL_CHECKED CvlStatus cvl_checked_sparse_product(CvlLengths lengths, const int32_t *columns, size_t columns_len,
    const int32_t *values, size_t values_len, const int32_t *x, size_t x_len, int32_t *out, size_t out_len);

/*
 * cvl_sparse_product of rows that come by their offsets. Faults: 13 TooLong, also if there are more than 2147483648 offsets; 7
 * LengthMismatch if there is no offset or the first is not 0, else 12 NegativeLength at the first row whose offset is above the
 * next one; 7 LengthMismatch if columns and values differ in length, or the last offset is not n; 10 IndexOutOfRange at the
 * first column below 0, or m or more.
 */
CVL_CHECKED CvlStatus cvl_sparse_product_by_offsets(const int32_t *offsets, size_t offsets_len, const int32_t *columns,
    size_t columns_len, const int32_t *values, size_t values_len, const int32_t *x, size_t x_len, int32_t *out, size_t out_len);

/*
 * cvl_checked_sparse_product of rows that come by their offsets. Faults: 13 TooLong, also if there are more than 2147483648
 * offsets; 7 LengthMismatch if there is no offset or the first is not 0, else 12 NegativeLength at the first row whose offset
 * is above the next one; 7 LengthMismatch if columns and values differ in length, or the last offset is not n; 10
 * IndexOutOfRange at the first column below 0, or m or more; 18 Overflow at the first row whose sum does not fit 32 bits.
 */
CVL_CHECKED CvlStatus cvl_checked_sparse_product_by_offsets(const int32_t *offsets, size_t offsets_len, const int32_t *columns,
    size_t columns_len, const int32_t *values, size_t values_len, const int32_t *x, size_t x_len, int32_t *out, size_t out_len);

#ifdef __cplusplus
}
#endif

#endif

#ifdef CVL_SHORT_NAMES
#include "cvl_short_names.h"
#endif

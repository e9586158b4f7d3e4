/*
 * cvl_parallel.h: the calls of cvl.h in parts, on your own threads.
 *
 * Written by the generator of the repository from its table of calls; edit the table and not this file.
 *
 * The calls here are calls of cvl.h in a second form, with `_on` after the name and a pool before the arguments:
 * cvl_add_wuz_on(&pool, a, b, out, n) for cvl_add_wuz(a, b, out, n), and cvl_int2_on(&pool, ..) for cvl_int2(..). Such a call cuts
 * long vectors into parts, which the pool runs. Status, place and buffers are those of the plain call. Short vectors, faults, and
 * calls without memory for parts go to the plain call. In the repository docs/dev/parts.md says how each call is cut.
 *
 * Pools of one thread and of POSIX threads are here, and one of OpenMP is in cvl_openmp.h.
 */
#ifndef CVL_PARALLEL_H
#define CVL_PARALLEL_H

#include "cvl.h"

#ifdef __cplusplus
extern "C" {
#endif

/* ---- pools ---- */

/* The most parts of a call. */
enum { CVL_MOST_PARTS = 64 };

/* Runs one part of the work, by its number. */
typedef void (*CvlPart)(void *work, size_t part);

/*
 * A pool runs the parts of calls. It cuts a long vector into `parts` parts: 0 means 1, more than 64 means 64; a call may use fewer.
 * A call uses `run` several times, one after another: to cut the call, and for each step that parts make. `run` must do this:
 *   - it runs part(work, k) once for each k below `parts`, in any order, on any threads;
 *   - a thread that runs a part has CVL_MOST_STACK bytes of its stack left;
 *   - it returns when all parts have returned, and runs none later;
 *   - parts see what the calling thread wrote before, and that thread then sees what they wrote, as starting and joining threads or a lock
 *     ensures;
 *   - no exception and no longjmp leaves a part or `run`, not even one of a signal handler.
 * A part that is run twice does its work once. If a pool leaves out a part of a step that only reads, such as the first of each call, the
 * status is 100 NoResources, and the buffers are as they were. A part that is left out of a step that writes runs on the calling thread.
 */
typedef struct CvlPool {
    size_t parts;
    void (*run)(void *state, CvlPart part, void *work, size_t parts);
    void *state; /* the first argument of `run` */
} CvlPool;

/* A pool of the calling thread alone, which runs this many parts in turn. */
CvlPool cvl_pool_alone(size_t parts);

/* POSIX threads that wait for parts. Link with -pthread. */
typedef struct CvlThreads CvlThreads;

/*
 * Starts threads, 1 to 64 with the calling one, and stores a pointer to them. Returns 0; EINVAL for any other number; or an error of
 * POSIX, such as EAGAIN, if a thread cannot be started: then there are none. The threads block the signals that are sent to the process, but
 * none that a thread gets for what it does, such as SIGSEGV. A thread that has no work for a second ends, and the next call that needs it
 * starts it again; if that fails, the call runs on the threads that there are. Stop them in any case.
 */
int cvl_threads_start(size_t threads, CvlThreads **started);

/*
 * Ends the threads, once a call that is running has ended. No call may start on them then or later. A null pointer is allowed. In the child of
 * a fork, which has none of them, it returns at once. A thread that is cancelled in it ends them first.
 */
void cvl_threads_stop(CvlThreads *threads);

/*
 * A pool of the threads, with a part for each; for a null pointer, one of the calling thread. The calling thread runs parts too. Another call
 * meanwhile, by another thread or within a part, runs its parts on its own thread; so does each call in the child of a fork.
 */
CvlPool cvl_pool_posix(CvlThreads *threads);

/* ---- families in parts ---- */

/* Cut at places. */
CVL_CHECKED CvlStatus cvl_int2_on(const CvlPool *pool, uint32_t op, const int32_t *a, size_t a_len, const int32_t *b,
    size_t b_len, int32_t *out, size_t out_len);
CVL_CHECKED CvlStatus cvl_bool2_on(const CvlPool *pool, uint32_t op, const bool *a, size_t a_len, const bool *b, size_t b_len,
    bool *out, size_t out_len);
CVL_CHECKED CvlStatus cvl_int1_on(const CvlPool *pool, uint32_t op, const int32_t *a, size_t a_len, int32_t *out,
    size_t out_len);
CVL_CHECKED CvlStatus cvl_bool1_on(const CvlPool *pool, uint32_t op, const bool *a, size_t a_len, bool *out, size_t out_len);
CVL_CHECKED CvlStatus cvl_compare_on(const CvlPool *pool, uint32_t op, const int32_t *a, size_t a_len, const int32_t *b,
    size_t b_len, bool *out, size_t out_len);
CVL_CHECKED CvlStatus cvl_int_from_bool_on(const CvlPool *pool, const bool *a, size_t a_len, int32_t *out, size_t out_len);
CVL_CHECKED CvlStatus cvl_bool_from_int_on(const CvlPool *pool, const int32_t *a, size_t a_len, bool *out, size_t out_len);
CVL_CHECKED CvlStatus cvl_select_int_on(const CvlPool *pool, const bool *flags, size_t flags_len, const int32_t *a,
    size_t a_len, const int32_t *b, size_t b_len, int32_t *out, size_t out_len);
CVL_CHECKED CvlStatus cvl_select_bool_on(const CvlPool *pool, const bool *flags, size_t flags_len, const bool *a, size_t a_len,
    const bool *b, size_t b_len, bool *out, size_t out_len);

/* Cut at places; each part goes on from the reduces before it. */
CVL_CHECKED CvlStatus cvl_int_scan_on(const CvlPool *pool, uint32_t op, const int32_t *a, size_t a_len, int32_t *out,
    size_t out_len);
CVL_CHECKED CvlStatus cvl_bool_scan_on(const CvlPool *pool, uint32_t op, const bool *a, size_t a_len, bool *out,
    size_t out_len);

/* Cut at places; the parts' reduces are joined. */
CVL_CHECKED CvlStatus cvl_int_reduce_on(const CvlPool *pool, uint32_t op, const int32_t *a, size_t a_len, int32_t *out);
CVL_CHECKED CvlStatus cvl_bool_reduce_on(const CvlPool *pool, uint32_t op, const bool *a, size_t a_len, bool *out);

/* Cut at places; each part goes on from the exact sums before it. */
CVL_CHECKED CvlStatus cvl_checked_scan_on(const CvlPool *pool, const int32_t *a, size_t a_len, int32_t *out, size_t out_len);

/* Cut at places; the parts' exact sums are added. */
CVL_CHECKED CvlStatus cvl_checked_reduce_on(const CvlPool *pool, const int32_t *a, size_t a_len, int32_t *out);

/* Cut inside segments; each part goes on from what stands before it in its segment. */
CVL_CHECKED CvlStatus cvl_seg_checked_scan_on(const CvlPool *pool, const int32_t *a, size_t a_len, CvlLengths lengths,
    int32_t *out, size_t out_len);

/* Cut inside segments; the pieces of a cut segment are joined. */
CVL_CHECKED CvlStatus cvl_seg_checked_reduce_on(const CvlPool *pool, const int32_t *a, size_t a_len, CvlLengths lengths,
    int32_t *out, size_t out_len);

/* Cut at places; the parts' counts are added. */
CVL_CHECKED CvlStatus cvl_count_on(const CvlPool *pool, const bool *flags, size_t flags_len, int32_t *out);

/* Not cut. */
CVL_CHECKED CvlStatus cvl_extract_int_on(const CvlPool *pool, const int32_t *vector, size_t vector_len, int64_t index,
    int32_t *out);
CVL_CHECKED CvlStatus cvl_extract_bool_on(const CvlPool *pool, const bool *vector, size_t vector_len, int64_t index, bool *out);

/* The copy is cut at places. */
CVL_CHECKED CvlStatus cvl_replace_int_on(const CvlPool *pool, const int32_t *vector, size_t vector_len, int64_t index,
    int32_t value, int32_t *out, size_t out_len);
CVL_CHECKED CvlStatus cvl_replace_bool_on(const CvlPool *pool, const bool *vector, size_t vector_len, int64_t index, bool value,
    bool *out, size_t out_len);

/* Cut at places. */
CVL_CHECKED CvlStatus cvl_distribute_int_on(const CvlPool *pool, int32_t value, int64_t count, int32_t *out, size_t out_len);
CVL_CHECKED CvlStatus cvl_distribute_bool_on(const CvlPool *pool, bool value, int64_t count, bool *out, size_t out_len);

/* Cut at places; a part's numbers go on behind those of the parts before. */
CVL_CHECKED CvlStatus cvl_index_on(const CvlPool *pool, int32_t init, int32_t stride, int64_t count, int32_t *out,
    size_t out_len);

/* The lengths are cut; the parts' totals are added. */
CVL_CHECKED CvlStatus cvl_make_descriptor_on(const CvlPool *pool, CvlLengths lengths, size_t *total);

/* Cut between segments. */
CVL_CHECKED CvlStatus cvl_seg_extract_int_on(const CvlPool *pool, const int32_t *vector, size_t vector_len,
    const int32_t *index, size_t index_len, CvlLengths lengths, int32_t *out, size_t out_len);
CVL_CHECKED CvlStatus cvl_seg_extract_bool_on(const CvlPool *pool, const bool *vector, size_t vector_len, const int32_t *index,
    size_t index_len, CvlLengths lengths, bool *out, size_t out_len);
CVL_CHECKED CvlStatus cvl_seg_replace_int_on(const CvlPool *pool, const int32_t *vector, size_t vector_len,
    const int32_t *index, size_t index_len, const int32_t *values, size_t values_len, CvlLengths lengths, int32_t *out,
    size_t out_len);
CVL_CHECKED CvlStatus cvl_seg_replace_bool_on(const CvlPool *pool, const bool *vector, size_t vector_len, const int32_t *index,
    size_t index_len, const bool *values, size_t values_len, CvlLengths lengths, bool *out, size_t out_len);

/* Cut inside segments. */
CVL_CHECKED CvlStatus cvl_seg_distribute_int_on(const CvlPool *pool, const int32_t *values, size_t values_len,
    CvlLengths lengths, int32_t *out, size_t out_len);
CVL_CHECKED CvlStatus cvl_seg_distribute_bool_on(const CvlPool *pool, const bool *values, size_t values_len, CvlLengths lengths,
    bool *out, size_t out_len);
CVL_CHECKED CvlStatus cvl_seg_index_on(const CvlPool *pool, const int32_t *inits, size_t inits_len, const int32_t *strides,
    size_t strides_len, CvlLengths lengths, int32_t *out, size_t out_len);

/* Cut inside segments; each part goes on from what stands before it in its segment. */
CVL_CHECKED CvlStatus cvl_seg_int_scan_on(const CvlPool *pool, uint32_t op, const int32_t *a, size_t a_len, CvlLengths lengths,
    int32_t *out, size_t out_len);
CVL_CHECKED CvlStatus cvl_seg_bool_scan_on(const CvlPool *pool, uint32_t op, const bool *a, size_t a_len, CvlLengths lengths,
    bool *out, size_t out_len);

/* Cut inside segments; the pieces of a cut segment are joined. */
CVL_CHECKED CvlStatus cvl_seg_int_reduce_on(const CvlPool *pool, uint32_t op, const int32_t *a, size_t a_len,
    CvlLengths lengths, int32_t *out, size_t out_len);
CVL_CHECKED CvlStatus cvl_seg_bool_reduce_on(const CvlPool *pool, uint32_t op, const bool *a, size_t a_len, CvlLengths lengths,
    bool *out, size_t out_len);

/* Cut at places; each part's elements go behind those of the parts before. */
CVL_CHECKED CvlStatus cvl_pack_int_on(const CvlPool *pool, const int32_t *values, size_t values_len, const bool *flags,
    size_t flags_len, int32_t *out, size_t out_len, size_t *count);
CVL_CHECKED CvlStatus cvl_pack_bool_on(const CvlPool *pool, const bool *values, size_t values_len, const bool *flags,
    size_t flags_len, bool *out, size_t out_len, size_t *count);
CVL_CHECKED CvlStatus cvl_seg_pack_int_on(const CvlPool *pool, const int32_t *values, size_t values_len, const bool *flags,
    size_t flags_len, CvlLengths lengths, int32_t *out, size_t out_len, size_t *count);
CVL_CHECKED CvlStatus cvl_seg_pack_bool_on(const CvlPool *pool, const bool *values, size_t values_len, const bool *flags,
    size_t flags_len, CvlLengths lengths, bool *out, size_t out_len, size_t *count);

/* Cut inside segments; the pieces of a cut segment are joined. */
CVL_CHECKED CvlStatus cvl_seg_packed_lengths_on(const CvlPool *pool, const bool *flags, size_t flags_len, CvlLengths lengths,
    int32_t *out, size_t out_len);
CVL_CHECKED CvlStatus cvl_seg_count_on(const CvlPool *pool, const bool *flags, size_t flags_len, CvlLengths lengths,
    int32_t *out, size_t out_len);

/* The result is cut; each part reads all indices. */
CVL_CHECKED CvlStatus cvl_permute_int_on(const CvlPool *pool, const int32_t *source, size_t source_len, const int32_t *index,
    size_t index_len, int32_t *out, size_t out_len);
CVL_CHECKED CvlStatus cvl_permute_bool_on(const CvlPool *pool, const bool *source, size_t source_len, const int32_t *index,
    size_t index_len, bool *out, size_t out_len);
CVL_CHECKED CvlStatus cvl_select_permute_int_on(const CvlPool *pool, const int32_t *source, size_t source_len,
    const int32_t *index, size_t index_len, const bool *flags, size_t flags_len, int32_t *out, size_t out_len);
CVL_CHECKED CvlStatus cvl_select_permute_bool_on(const CvlPool *pool, const bool *source, size_t source_len,
    const int32_t *index, size_t index_len, const bool *flags, size_t flags_len, bool *out, size_t out_len);
CVL_CHECKED CvlStatus cvl_default_permute_int_on(const CvlPool *pool, const int32_t *source, size_t source_len,
    const int32_t *index, size_t index_len, const int32_t *defaults, size_t defaults_len, int32_t *out, size_t out_len);
CVL_CHECKED CvlStatus cvl_default_permute_bool_on(const CvlPool *pool, const bool *source, size_t source_len,
    const int32_t *index, size_t index_len, const bool *defaults, size_t defaults_len, bool *out, size_t out_len);

/* Cut at places. */
CVL_CHECKED CvlStatus cvl_back_permute_int_on(const CvlPool *pool, const int32_t *source, size_t source_len,
    const int32_t *index, size_t index_len, int32_t *out, size_t out_len);
CVL_CHECKED CvlStatus cvl_back_permute_bool_on(const CvlPool *pool, const bool *source, size_t source_len, const int32_t *index,
    size_t index_len, bool *out, size_t out_len);

/* Cut between segments. */
CVL_CHECKED CvlStatus cvl_seg_permute_int_on(const CvlPool *pool, const int32_t *source, size_t source_len,
    const int32_t *index, size_t index_len, CvlLengths lengths, int32_t *out, size_t out_len);
CVL_CHECKED CvlStatus cvl_seg_permute_bool_on(const CvlPool *pool, const bool *source, size_t source_len, const int32_t *index,
    size_t index_len, CvlLengths lengths, bool *out, size_t out_len);
CVL_CHECKED CvlStatus cvl_seg_select_permute_int_on(const CvlPool *pool, const int32_t *source, size_t source_len,
    const int32_t *index, size_t index_len, const bool *flags, size_t flags_len, CvlLengths lengths, int32_t *out,
    size_t out_len);
CVL_CHECKED CvlStatus cvl_seg_select_permute_bool_on(const CvlPool *pool, const bool *source, size_t source_len,
    const int32_t *index, size_t index_len, const bool *flags, size_t flags_len, CvlLengths lengths, bool *out, size_t out_len);
CVL_CHECKED CvlStatus cvl_seg_default_permute_int_on(const CvlPool *pool, const int32_t *source, size_t source_len,
    const int32_t *index, size_t index_len, const int32_t *defaults, size_t defaults_len, CvlLengths lengths,
    CvlLengths default_lengths, int32_t *out, size_t out_len);
CVL_CHECKED CvlStatus cvl_seg_default_permute_bool_on(const CvlPool *pool, const bool *source, size_t source_len,
    const int32_t *index, size_t index_len, const bool *defaults, size_t defaults_len, CvlLengths lengths,
    CvlLengths default_lengths, bool *out, size_t out_len);
CVL_CHECKED CvlStatus cvl_seg_back_permute_int_on(const CvlPool *pool, const int32_t *source, size_t source_len,
    const int32_t *index, size_t index_len, CvlLengths lengths, CvlLengths index_lengths, int32_t *out, size_t out_len);
CVL_CHECKED CvlStatus cvl_seg_back_permute_bool_on(const CvlPool *pool, const bool *source, size_t source_len,
    const int32_t *index, size_t index_len, CvlLengths lengths, CvlLengths index_lengths, bool *out, size_t out_len);

/* The result is cut; each part reads all indices. */
CVL_CHECKED CvlStatus cvl_first_senders_on(const CvlPool *pool, const int32_t *index, size_t index_len, int32_t *out,
    size_t out_len);
CVL_CHECKED CvlStatus cvl_select_first_senders_on(const CvlPool *pool, const int32_t *index, size_t index_len,
    const bool *flags, size_t flags_len, int32_t *out, size_t out_len);

/* Cut between segments. */
CVL_CHECKED CvlStatus cvl_seg_first_senders_on(const CvlPool *pool, const int32_t *index, size_t index_len, CvlLengths lengths,
    CvlLengths result_lengths, int32_t *out, size_t out_len);
CVL_CHECKED CvlStatus cvl_seg_select_first_senders_on(const CvlPool *pool, const int32_t *index, size_t index_len,
    const bool *flags, size_t flags_len, CvlLengths lengths, CvlLengths result_lengths, int32_t *out, size_t out_len);

/*
 * Cut at places, and each part joins in a room of its own; with many places the room is cut, and each part reads all indices.
 */
CVL_CHECKED CvlStatus cvl_combine_permute_int_on(const CvlPool *pool, uint32_t op, const int32_t *source, size_t source_len,
    const int32_t *index, size_t index_len, int32_t *out, size_t out_len);
CVL_CHECKED CvlStatus cvl_combine_permute_bool_on(const CvlPool *pool, uint32_t op, const bool *source, size_t source_len,
    const int32_t *index, size_t index_len, bool *out, size_t out_len);
CVL_CHECKED CvlStatus cvl_counts_on(const CvlPool *pool, const int32_t *index, size_t index_len, int32_t *out, size_t out_len);

/* Cut between segments. */
CVL_CHECKED CvlStatus cvl_seg_combine_permute_int_on(const CvlPool *pool, uint32_t op, const int32_t *source, size_t source_len,
    const int32_t *index, size_t index_len, CvlLengths lengths, CvlLengths result_lengths, int32_t *out, size_t out_len);
CVL_CHECKED CvlStatus cvl_seg_combine_permute_bool_on(const CvlPool *pool, uint32_t op, const bool *source, size_t source_len,
    const int32_t *index, size_t index_len, CvlLengths lengths, CvlLengths result_lengths, bool *out, size_t out_len);

/*
 * Cut at places, and each part joins in a room of its own; with many places the room is cut, and each part reads all indices.
 */
CVL_CHECKED CvlStatus cvl_combine_checked_int_on(const CvlPool *pool, const int32_t *source, size_t source_len,
    const int32_t *index, size_t index_len, int32_t *out, size_t out_len);
CVL_CHECKED CvlStatus cvl_combine_exact_sums_on(const CvlPool *pool, const int32_t *source, size_t source_len,
    const int32_t *index, size_t index_len, int64_t *out, size_t out_len);

/* Cut between segments. */
CVL_CHECKED CvlStatus cvl_seg_combine_checked_int_on(const CvlPool *pool, const int32_t *source, size_t source_len,
    const int32_t *index, size_t index_len, CvlLengths lengths, CvlLengths result_lengths, int32_t *out, size_t out_len);
CVL_CHECKED CvlStatus cvl_seg_combine_exact_sums_on(const CvlPool *pool, const int32_t *source, size_t source_len,
    const int32_t *index, size_t index_len, CvlLengths lengths, CvlLengths result_lengths, int64_t *out, size_t out_len);
CVL_CHECKED CvlStatus cvl_seg_counts_on(const CvlPool *pool, const int32_t *index, size_t index_len, CvlLengths lengths,
    CvlLengths result_lengths, int32_t *out, size_t out_len);

/* Cut at places; each part sorts its own keys by a digit, and gathers a range of the result. */
CVL_CHECKED CvlStatus cvl_order_on(const CvlPool *pool, const int32_t *keys, size_t keys_len, int32_t *out, size_t out_len);
CVL_CHECKED CvlStatus cvl_rank_on(const CvlPool *pool, const int32_t *keys, size_t keys_len, int32_t *out, size_t out_len);
CVL_CHECKED CvlStatus cvl_sort_on(const CvlPool *pool, const int32_t *keys, size_t keys_len, int32_t *out, size_t out_len);

/* Cut between segments. */
CVL_CHECKED CvlStatus cvl_seg_order_on(const CvlPool *pool, const int32_t *keys, size_t keys_len, CvlLengths lengths,
    int32_t *out, size_t out_len);
CVL_CHECKED CvlStatus cvl_seg_rank_on(const CvlPool *pool, const int32_t *keys, size_t keys_len, CvlLengths lengths,
    int32_t *out, size_t out_len);
CVL_CHECKED CvlStatus cvl_seg_sort_on(const CvlPool *pool, const int32_t *keys, size_t keys_len, CvlLengths lengths,
    int32_t *out, size_t out_len);

/* Cut at places; each part sorts its own keys by a digit, and gathers a range of the result. */
CVL_CHECKED CvlStatus cvl_sort_by_key_on(const CvlPool *pool, int32_t *keys, size_t keys_len, int32_t *values,
    size_t values_len);
CVL_CHECKED CvlStatus cvl_sort_by_key_descending_on(const CvlPool *pool, int32_t *keys, size_t keys_len, int32_t *values,
    size_t values_len);

/* Cut between segments. */
CVL_CHECKED CvlStatus cvl_seg_sort_by_key_on(const CvlPool *pool, CvlLengths lengths, int32_t *keys, size_t keys_len,
    int32_t *values, size_t values_len);
CVL_CHECKED CvlStatus cvl_seg_sort_by_key_descending_on(const CvlPool *pool, CvlLengths lengths, int32_t *keys, size_t keys_len,
    int32_t *values, size_t values_len);

/* Cut at places; a part has the runs that begin in it, and the last of them may go on in later parts. */
CVL_CHECKED CvlStatus cvl_run_lengths_int_on(const CvlPool *pool, const int32_t *a, size_t a_len, int32_t *out, size_t out_len,
    size_t *count);
CVL_CHECKED CvlStatus cvl_run_lengths_bool_on(const CvlPool *pool, const bool *a, size_t a_len, int32_t *out, size_t out_len,
    size_t *count);
CVL_CHECKED CvlStatus cvl_run_starts_int_on(const CvlPool *pool, const int32_t *a, size_t a_len, int32_t *out, size_t out_len,
    size_t *count);
CVL_CHECKED CvlStatus cvl_run_starts_bool_on(const CvlPool *pool, const bool *a, size_t a_len, int32_t *out, size_t out_len,
    size_t *count);
CVL_CHECKED CvlStatus cvl_seg_run_lengths_int_on(const CvlPool *pool, const int32_t *a, size_t a_len, CvlLengths lengths,
    int32_t *out, size_t out_len, size_t *count);
CVL_CHECKED CvlStatus cvl_seg_run_lengths_bool_on(const CvlPool *pool, const bool *a, size_t a_len, CvlLengths lengths,
    int32_t *out, size_t out_len, size_t *count);
CVL_CHECKED CvlStatus cvl_seg_run_starts_int_on(const CvlPool *pool, const int32_t *a, size_t a_len, CvlLengths lengths,
    int32_t *out, size_t out_len, size_t *count);
CVL_CHECKED CvlStatus cvl_seg_run_starts_bool_on(const CvlPool *pool, const bool *a, size_t a_len, CvlLengths lengths,
    int32_t *out, size_t out_len, size_t *count);

/* Cut inside segments; the pieces of a cut segment are joined. */
CVL_CHECKED CvlStatus cvl_seg_run_counts_int_on(const CvlPool *pool, const int32_t *a, size_t a_len, CvlLengths lengths,
    int32_t *out, size_t out_len);
CVL_CHECKED CvlStatus cvl_seg_run_counts_bool_on(const CvlPool *pool, const bool *a, size_t a_len, CvlLengths lengths,
    int32_t *out, size_t out_len);

/* Cut between segments. */
CVL_CHECKED CvlStatus cvl_gather_segments_int_on(const CvlPool *pool, const int32_t *source, size_t source_len,
    const int32_t *starts, size_t starts_len, CvlLengths lengths, int32_t *out, size_t out_len);
CVL_CHECKED CvlStatus cvl_gather_segments_bool_on(const CvlPool *pool, const bool *source, size_t source_len,
    const int32_t *starts, size_t starts_len, CvlLengths lengths, bool *out, size_t out_len);
CVL_CHECKED CvlStatus cvl_append_segments_int_on(const CvlPool *pool, const int32_t *a, size_t a_len, const int32_t *b,
    size_t b_len, CvlLengths lengths, CvlLengths other_lengths, int32_t *out, size_t out_len);
CVL_CHECKED CvlStatus cvl_append_segments_bool_on(const CvlPool *pool, const bool *a, size_t a_len, const bool *b, size_t b_len,
    CvlLengths lengths, CvlLengths other_lengths, bool *out, size_t out_len);

/* Cut at places; each part goes on in both vectors behind those that the flags before it take. */
CVL_CHECKED CvlStatus cvl_merge_by_flags_int_on(const CvlPool *pool, const bool *flags, size_t flags_len,
    const int32_t *when_true, size_t when_true_len, const int32_t *when_false, size_t when_false_len, int32_t *out,
    size_t out_len);
CVL_CHECKED CvlStatus cvl_merge_by_flags_bool_on(const CvlPool *pool, const bool *flags, size_t flags_len,
    const bool *when_true, size_t when_true_len, const bool *when_false, size_t when_false_len, bool *out, size_t out_len);

/* Cut between segments. */
CVL_CHECKED CvlStatus cvl_seg_merge_by_flags_int_on(const CvlPool *pool, const bool *flags, size_t flags_len,
    const int32_t *when_true, size_t when_true_len, const int32_t *when_false, size_t when_false_len, CvlLengths lengths,
    CvlLengths true_lengths, CvlLengths false_lengths, int32_t *out, size_t out_len);
CVL_CHECKED CvlStatus cvl_seg_merge_by_flags_bool_on(const CvlPool *pool, const bool *flags, size_t flags_len,
    const bool *when_true, size_t when_true_len, const bool *when_false, size_t when_false_len, CvlLengths lengths,
    CvlLengths true_lengths, CvlLengths false_lengths, bool *out, size_t out_len);
CVL_CHECKED CvlStatus cvl_seg_first_true_on(const CvlPool *pool, const bool *flags, size_t flags_len, CvlLengths lengths,
    int32_t *out, size_t out_len);
CVL_CHECKED CvlStatus cvl_seg_exact_sums_on(const CvlPool *pool, const int32_t *a, size_t a_len, CvlLengths lengths,
    int64_t *out, size_t out_len);

/* The result is cut; each part reads its elements of the whole matrix. */
CVL_CHECKED CvlStatus cvl_transpose_int_on(const CvlPool *pool, const int32_t *source, size_t source_len, size_t rows,
    size_t columns, int32_t *out, size_t out_len);
CVL_CHECKED CvlStatus cvl_transpose_bool_on(const CvlPool *pool, const bool *source, size_t source_len, size_t rows,
    size_t columns, bool *out, size_t out_len);

/* Cut at places. */
CVL_CHECKED CvlStatus cvl_ints_from_bytes_on(const CvlPool *pool, const uint8_t *bytes, size_t bytes_len, int32_t *out,
    size_t out_len);
CVL_CHECKED CvlStatus cvl_bytes_from_ints_on(const CvlPool *pool, const int32_t *a, size_t a_len, uint8_t *out, size_t out_len);

/* Cut at white space. */
CVL_CHECKED CvlStatus cvl_read_ints_on(const CvlPool *pool, const char *text, size_t text_len, int32_t *out, size_t out_len,
    size_t *count);

/* Cut at places; the parts' texts are put one after another. */
CVL_CHECKED CvlStatus cvl_write_ints_on(const CvlPool *pool, const int32_t *a, size_t a_len, char *out, size_t out_len,
    size_t *count);
CVL_CHECKED CvlStatus cvl_write_bools_on(const CvlPool *pool, const bool *a, size_t a_len, char *out, size_t out_len,
    size_t *count);

/* Not cut. */
CVL_CHECKED CvlStatus cvl_seg_read_ints_on(const CvlPool *pool, const char *text, size_t text_len, int32_t *out, size_t out_len,
    size_t *count, int32_t *lengths, size_t lengths_len, size_t *segments);

/* Cut between segments; the parts' texts are put one after another. */
CVL_CHECKED CvlStatus cvl_seg_write_ints_on(const CvlPool *pool, const int32_t *a, size_t a_len, CvlLengths lengths, char *out,
    size_t out_len, size_t *count);
CVL_CHECKED CvlStatus cvl_seg_write_bools_on(const CvlPool *pool, const bool *a, size_t a_len, CvlLengths lengths, char *out,
    size_t out_len, size_t *count);

/* Cut between segments. */
CVL_CHECKED CvlStatus cvl_sparse_product_on(const CvlPool *pool, CvlLengths lengths, const int32_t *columns, size_t columns_len,
    const int32_t *values, size_t values_len, const int32_t *x, size_t x_len, int32_t *out, size_t out_len);
CVL_CHECKED CvlStatus cvl_checked_sparse_product_on(const CvlPool *pool, CvlLengths lengths, const int32_t *columns,
    size_t columns_len, const int32_t *values, size_t values_len, const int32_t *x, size_t x_len, int32_t *out, size_t out_len);

/* Cut between rows, whose lengths are kept meanwhile. */
CVL_CHECKED CvlStatus cvl_sparse_product_by_offsets_on(const CvlPool *pool, const int32_t *offsets, size_t offsets_len,
    const int32_t *columns, size_t columns_len, const int32_t *values, size_t values_len, const int32_t *x, size_t x_len,
    int32_t *out, size_t out_len);
CVL_CHECKED CvlStatus cvl_checked_sparse_product_by_offsets_on(const CvlPool *pool, const int32_t *offsets, size_t offsets_len,
    const int32_t *columns, size_t columns_len, const int32_t *values, size_t values_len, const int32_t *x, size_t x_len,
    int32_t *out, size_t out_len);

/* ---- the calls of the table in parts, each as its family ---- */

CVL_CHECKED CvlStatus cvl_add_wuz_on(const CvlPool *pool, const int32_t *a, const int32_t *b, int32_t *out, size_t n);
CVL_CHECKED CvlStatus cvl_mul_wuz_on(const CvlPool *pool, const int32_t *a, const int32_t *b, int32_t *out, size_t n);
CVL_CHECKED CvlStatus cvl_min_wuz_on(const CvlPool *pool, const int32_t *a, const int32_t *b, int32_t *out, size_t n);
CVL_CHECKED CvlStatus cvl_max_wuz_on(const CvlPool *pool, const int32_t *a, const int32_t *b, int32_t *out, size_t n);
CVL_CHECKED CvlStatus cvl_and_wuz_on(const CvlPool *pool, const int32_t *a, const int32_t *b, int32_t *out, size_t n);
CVL_CHECKED CvlStatus cvl_ior_wuz_on(const CvlPool *pool, const int32_t *a, const int32_t *b, int32_t *out, size_t n);
CVL_CHECKED CvlStatus cvl_xor_wuz_on(const CvlPool *pool, const int32_t *a, const int32_t *b, int32_t *out, size_t n);
CVL_CHECKED CvlStatus cvl_sub_wuz_on(const CvlPool *pool, const int32_t *a, const int32_t *b, int32_t *out, size_t n);
CVL_CHECKED CvlStatus cvl_div_wuz_on(const CvlPool *pool, const int32_t *a, const int32_t *b, int32_t *out, size_t n);
CVL_CHECKED CvlStatus cvl_mod_wuz_on(const CvlPool *pool, const int32_t *a, const int32_t *b, int32_t *out, size_t n);
CVL_CHECKED CvlStatus cvl_lsh_wuz_on(const CvlPool *pool, const int32_t *a, const int32_t *b, int32_t *out, size_t n);
CVL_CHECKED CvlStatus cvl_rsh_wuz_on(const CvlPool *pool, const int32_t *a, const int32_t *b, int32_t *out, size_t n);
CVL_CHECKED CvlStatus cvl_not_wuz_on(const CvlPool *pool, const int32_t *a, int32_t *out, size_t n);
CVL_CHECKED CvlStatus cvl_not_wub_on(const CvlPool *pool, const bool *a, bool *out, size_t n);
CVL_CHECKED CvlStatus cvl_cpy_wuz_on(const CvlPool *pool, const int32_t *a, int32_t *out, size_t n);
CVL_CHECKED CvlStatus cvl_cpy_wub_on(const CvlPool *pool, const bool *a, bool *out, size_t n);
CVL_CHECKED CvlStatus cvl_grt_wuz_on(const CvlPool *pool, const int32_t *a, const int32_t *b, bool *out, size_t n);
CVL_CHECKED CvlStatus cvl_les_wuz_on(const CvlPool *pool, const int32_t *a, const int32_t *b, bool *out, size_t n);
CVL_CHECKED CvlStatus cvl_geq_wuz_on(const CvlPool *pool, const int32_t *a, const int32_t *b, bool *out, size_t n);
CVL_CHECKED CvlStatus cvl_leq_wuz_on(const CvlPool *pool, const int32_t *a, const int32_t *b, bool *out, size_t n);
CVL_CHECKED CvlStatus cvl_eql_wuz_on(const CvlPool *pool, const int32_t *a, const int32_t *b, bool *out, size_t n);
CVL_CHECKED CvlStatus cvl_neq_wuz_on(const CvlPool *pool, const int32_t *a, const int32_t *b, bool *out, size_t n);
CVL_CHECKED CvlStatus cvl_and_wub_on(const CvlPool *pool, const bool *a, const bool *b, bool *out, size_t n);
CVL_CHECKED CvlStatus cvl_ior_wub_on(const CvlPool *pool, const bool *a, const bool *b, bool *out, size_t n);
CVL_CHECKED CvlStatus cvl_xor_wub_on(const CvlPool *pool, const bool *a, const bool *b, bool *out, size_t n);
CVL_CHECKED CvlStatus cvl_sel_wuz_on(const CvlPool *pool, const bool *flags, const int32_t *a, const int32_t *b, int32_t *out,
    size_t n);
CVL_CHECKED CvlStatus cvl_sel_wub_on(const CvlPool *pool, const bool *flags, const bool *a, const bool *b, bool *out, size_t n);
CVL_CHECKED CvlStatus cvl_int_wub_on(const CvlPool *pool, const bool *a, int32_t *out, size_t n);
CVL_CHECKED CvlStatus cvl_boo_wuz_on(const CvlPool *pool, const int32_t *a, bool *out, size_t n);
CVL_CHECKED CvlStatus cvl_add_suz_on(const CvlPool *pool, const int32_t *a, int32_t *out, size_t n);
CVL_CHECKED CvlStatus cvl_add_ruz_on(const CvlPool *pool, const int32_t *a, size_t n, int32_t *out);
CVL_CHECKED CvlStatus cvl_mul_suz_on(const CvlPool *pool, const int32_t *a, int32_t *out, size_t n);
CVL_CHECKED CvlStatus cvl_mul_ruz_on(const CvlPool *pool, const int32_t *a, size_t n, int32_t *out);
CVL_CHECKED CvlStatus cvl_min_suz_on(const CvlPool *pool, const int32_t *a, int32_t *out, size_t n);
CVL_CHECKED CvlStatus cvl_min_ruz_on(const CvlPool *pool, const int32_t *a, size_t n, int32_t *out);
CVL_CHECKED CvlStatus cvl_max_suz_on(const CvlPool *pool, const int32_t *a, int32_t *out, size_t n);
CVL_CHECKED CvlStatus cvl_max_ruz_on(const CvlPool *pool, const int32_t *a, size_t n, int32_t *out);
CVL_CHECKED CvlStatus cvl_and_suz_on(const CvlPool *pool, const int32_t *a, int32_t *out, size_t n);
CVL_CHECKED CvlStatus cvl_and_ruz_on(const CvlPool *pool, const int32_t *a, size_t n, int32_t *out);
CVL_CHECKED CvlStatus cvl_ior_suz_on(const CvlPool *pool, const int32_t *a, int32_t *out, size_t n);
CVL_CHECKED CvlStatus cvl_ior_ruz_on(const CvlPool *pool, const int32_t *a, size_t n, int32_t *out);
CVL_CHECKED CvlStatus cvl_xor_suz_on(const CvlPool *pool, const int32_t *a, int32_t *out, size_t n);
CVL_CHECKED CvlStatus cvl_xor_ruz_on(const CvlPool *pool, const int32_t *a, size_t n, int32_t *out);
CVL_CHECKED CvlStatus cvl_and_sub_on(const CvlPool *pool, const bool *a, bool *out, size_t n);
CVL_CHECKED CvlStatus cvl_and_rub_on(const CvlPool *pool, const bool *a, size_t n, bool *out);
CVL_CHECKED CvlStatus cvl_ior_sub_on(const CvlPool *pool, const bool *a, bool *out, size_t n);
CVL_CHECKED CvlStatus cvl_ior_rub_on(const CvlPool *pool, const bool *a, size_t n, bool *out);
CVL_CHECKED CvlStatus cvl_xor_sub_on(const CvlPool *pool, const bool *a, bool *out, size_t n);
CVL_CHECKED CvlStatus cvl_xor_rub_on(const CvlPool *pool, const bool *a, size_t n, bool *out);
CVL_CHECKED CvlStatus cvl_tot_suz_on(const CvlPool *pool, const int32_t *a, int32_t *out, size_t n);
CVL_CHECKED CvlStatus cvl_tot_ruz_on(const CvlPool *pool, const int32_t *a, size_t n, int32_t *out);
CVL_CHECKED CvlStatus cvl_cnt_lub_on(const CvlPool *pool, const bool *flags, size_t n, int32_t *out);
CVL_CHECKED CvlStatus cvl_ext_vuz_on(const CvlPool *pool, const int32_t *vector, size_t n, int64_t index, int32_t *out);
CVL_CHECKED CvlStatus cvl_ext_vub_on(const CvlPool *pool, const bool *vector, size_t n, int64_t index, bool *out);
CVL_CHECKED CvlStatus cvl_rep_vuz_on(const CvlPool *pool, const int32_t *vector, int64_t index, int32_t value, int32_t *out,
    size_t n);
CVL_CHECKED CvlStatus cvl_rep_vub_on(const CvlPool *pool, const bool *vector, int64_t index, bool value, bool *out, size_t n);
CVL_CHECKED CvlStatus cvl_dis_vuz_on(const CvlPool *pool, int32_t value, int64_t count, int32_t *out);
CVL_CHECKED CvlStatus cvl_dis_vub_on(const CvlPool *pool, bool value, int64_t count, bool *out);
CVL_CHECKED CvlStatus cvl_ind_luz_on(const CvlPool *pool, int32_t init, int32_t stride, int64_t count, int32_t *out);
CVL_CHECKED CvlStatus cvl_mke_fov_on(const CvlPool *pool, CvlLengths lengths, size_t *total);
CVL_CHECKED CvlStatus cvl_tot_sez_on(const CvlPool *pool, const int32_t *a, CvlLengths lengths, int32_t *out, size_t n);
CVL_CHECKED CvlStatus cvl_tot_rez_on(const CvlPool *pool, const int32_t *a, size_t n, CvlLengths lengths, int32_t *out);
CVL_CHECKED CvlStatus cvl_ext_vez_on(const CvlPool *pool, const int32_t *vector, size_t n, const int32_t *index,
    CvlLengths lengths, int32_t *out);
CVL_CHECKED CvlStatus cvl_ext_veb_on(const CvlPool *pool, const bool *vector, size_t n, const int32_t *index,
    CvlLengths lengths, bool *out);
CVL_CHECKED CvlStatus cvl_rep_vez_on(const CvlPool *pool, const int32_t *vector, const int32_t *index, const int32_t *values,
    CvlLengths lengths, int32_t *out, size_t n);
CVL_CHECKED CvlStatus cvl_rep_veb_on(const CvlPool *pool, const bool *vector, const int32_t *index, const bool *values,
    CvlLengths lengths, bool *out, size_t n);
CVL_CHECKED CvlStatus cvl_dis_vez_on(const CvlPool *pool, const int32_t *values, CvlLengths lengths, int32_t *out, size_t n);
CVL_CHECKED CvlStatus cvl_dis_veb_on(const CvlPool *pool, const bool *values, CvlLengths lengths, bool *out, size_t n);
CVL_CHECKED CvlStatus cvl_ind_lez_on(const CvlPool *pool, const int32_t *inits, const int32_t *strides, CvlLengths lengths,
    int32_t *out, size_t n);
CVL_CHECKED CvlStatus cvl_add_sez_on(const CvlPool *pool, const int32_t *a, CvlLengths lengths, int32_t *out, size_t n);
CVL_CHECKED CvlStatus cvl_add_rez_on(const CvlPool *pool, const int32_t *a, size_t n, CvlLengths lengths, int32_t *out);
CVL_CHECKED CvlStatus cvl_mul_sez_on(const CvlPool *pool, const int32_t *a, CvlLengths lengths, int32_t *out, size_t n);
CVL_CHECKED CvlStatus cvl_mul_rez_on(const CvlPool *pool, const int32_t *a, size_t n, CvlLengths lengths, int32_t *out);
CVL_CHECKED CvlStatus cvl_min_sez_on(const CvlPool *pool, const int32_t *a, CvlLengths lengths, int32_t *out, size_t n);
CVL_CHECKED CvlStatus cvl_min_rez_on(const CvlPool *pool, const int32_t *a, size_t n, CvlLengths lengths, int32_t *out);
CVL_CHECKED CvlStatus cvl_max_sez_on(const CvlPool *pool, const int32_t *a, CvlLengths lengths, int32_t *out, size_t n);
CVL_CHECKED CvlStatus cvl_max_rez_on(const CvlPool *pool, const int32_t *a, size_t n, CvlLengths lengths, int32_t *out);
CVL_CHECKED CvlStatus cvl_and_sez_on(const CvlPool *pool, const int32_t *a, CvlLengths lengths, int32_t *out, size_t n);
CVL_CHECKED CvlStatus cvl_and_rez_on(const CvlPool *pool, const int32_t *a, size_t n, CvlLengths lengths, int32_t *out);
CVL_CHECKED CvlStatus cvl_ior_sez_on(const CvlPool *pool, const int32_t *a, CvlLengths lengths, int32_t *out, size_t n);
CVL_CHECKED CvlStatus cvl_ior_rez_on(const CvlPool *pool, const int32_t *a, size_t n, CvlLengths lengths, int32_t *out);
CVL_CHECKED CvlStatus cvl_xor_sez_on(const CvlPool *pool, const int32_t *a, CvlLengths lengths, int32_t *out, size_t n);
CVL_CHECKED CvlStatus cvl_xor_rez_on(const CvlPool *pool, const int32_t *a, size_t n, CvlLengths lengths, int32_t *out);
CVL_CHECKED CvlStatus cvl_and_seb_on(const CvlPool *pool, const bool *a, CvlLengths lengths, bool *out, size_t n);
CVL_CHECKED CvlStatus cvl_and_reb_on(const CvlPool *pool, const bool *a, size_t n, CvlLengths lengths, bool *out);
CVL_CHECKED CvlStatus cvl_ior_seb_on(const CvlPool *pool, const bool *a, CvlLengths lengths, bool *out, size_t n);
CVL_CHECKED CvlStatus cvl_ior_reb_on(const CvlPool *pool, const bool *a, size_t n, CvlLengths lengths, bool *out);
CVL_CHECKED CvlStatus cvl_xor_seb_on(const CvlPool *pool, const bool *a, CvlLengths lengths, bool *out, size_t n);
CVL_CHECKED CvlStatus cvl_xor_reb_on(const CvlPool *pool, const bool *a, size_t n, CvlLengths lengths, bool *out);
CVL_CHECKED CvlStatus cvl_pck_luz_on(const CvlPool *pool, const int32_t *values, const bool *flags, size_t n, int32_t *out,
    size_t room, size_t *count);
CVL_CHECKED CvlStatus cvl_pck_lub_on(const CvlPool *pool, const bool *values, const bool *flags, size_t n, bool *out,
    size_t room, size_t *count);
CVL_CHECKED CvlStatus cvl_pck_lez_on(const CvlPool *pool, const int32_t *values, const bool *flags, size_t n,
    CvlLengths lengths, int32_t *out, size_t room, size_t *count);
CVL_CHECKED CvlStatus cvl_pck_leb_on(const CvlPool *pool, const bool *values, const bool *flags, size_t n, CvlLengths lengths,
    bool *out, size_t room, size_t *count);
CVL_CHECKED CvlStatus cvl_pck_fov_on(const CvlPool *pool, const bool *flags, size_t n, CvlLengths lengths, int32_t *out);
CVL_CHECKED CvlStatus cvl_cnt_leb_on(const CvlPool *pool, const bool *flags, size_t n, CvlLengths lengths, int32_t *out);
CVL_CHECKED CvlStatus cvl_smp_puz_on(const CvlPool *pool, const int32_t *source, const int32_t *index, int32_t *out, size_t n);
CVL_CHECKED CvlStatus cvl_smp_pub_on(const CvlPool *pool, const bool *source, const int32_t *index, bool *out, size_t n);
CVL_CHECKED CvlStatus cvl_sel_puz_on(const CvlPool *pool, const int32_t *source, const int32_t *index, const bool *flags,
    size_t n, int32_t *out, size_t m);
CVL_CHECKED CvlStatus cvl_sel_pub_on(const CvlPool *pool, const bool *source, const int32_t *index, const bool *flags, size_t n,
    bool *out, size_t m);
CVL_CHECKED CvlStatus cvl_def_puz_on(const CvlPool *pool, const int32_t *source, const int32_t *index, size_t n,
    const int32_t *defaults, int32_t *out, size_t m);
CVL_CHECKED CvlStatus cvl_def_pub_on(const CvlPool *pool, const bool *source, const int32_t *index, size_t n,
    const bool *defaults, bool *out, size_t m);
CVL_CHECKED CvlStatus cvl_bck_puz_on(const CvlPool *pool, const int32_t *source, size_t n, const int32_t *index, int32_t *out,
    size_t m);
CVL_CHECKED CvlStatus cvl_bck_pub_on(const CvlPool *pool, const bool *source, size_t n, const int32_t *index, bool *out,
    size_t m);
CVL_CHECKED CvlStatus cvl_smp_pez_on(const CvlPool *pool, const int32_t *source, const int32_t *index, CvlLengths lengths,
    int32_t *out, size_t n);
CVL_CHECKED CvlStatus cvl_smp_peb_on(const CvlPool *pool, const bool *source, const int32_t *index, CvlLengths lengths,
    bool *out, size_t n);
CVL_CHECKED CvlStatus cvl_sel_pez_on(const CvlPool *pool, const int32_t *source, const int32_t *index, const bool *flags,
    size_t n, CvlLengths lengths, int32_t *out, size_t m);
CVL_CHECKED CvlStatus cvl_sel_peb_on(const CvlPool *pool, const bool *source, const int32_t *index, const bool *flags, size_t n,
    CvlLengths lengths, bool *out, size_t m);
CVL_CHECKED CvlStatus cvl_def_pez_on(const CvlPool *pool, const int32_t *source, const int32_t *index, size_t n,
    const int32_t *defaults, CvlLengths lengths, CvlLengths default_lengths, int32_t *out, size_t m);
CVL_CHECKED CvlStatus cvl_def_peb_on(const CvlPool *pool, const bool *source, const int32_t *index, size_t n,
    const bool *defaults, CvlLengths lengths, CvlLengths default_lengths, bool *out, size_t m);
CVL_CHECKED CvlStatus cvl_bck_pez_on(const CvlPool *pool, const int32_t *source, size_t n, const int32_t *index,
    CvlLengths lengths, CvlLengths index_lengths, int32_t *out, size_t m);
CVL_CHECKED CvlStatus cvl_bck_peb_on(const CvlPool *pool, const bool *source, size_t n, const int32_t *index,
    CvlLengths lengths, CvlLengths index_lengths, bool *out, size_t m);

#ifdef __cplusplus
}
#endif

#endif

/*
 * ranks.h: what the functions of cvl_mpi.h share. A function puts its arguments into slots and hands them to the way of its family, which
 * makes each rank's own part by the plain family and exchanges what a part needs of others. The ranks agree on one status before any of
 * them writes a room: a part that may be refused is made in memory of the library's own first. So a fault of one rank leaves the rooms of
 * all ranks as they were, and no rank goes on alone.
 */
#ifndef CVL_MPI_RANKS_H
#define CVL_MPI_RANKS_H

#include <mpi.h>

#include "rows.h"

#include "cvl_mpi.h"

/* ---- what ranks join: folds ---- */

/* How two values of a fold are joined. */
typedef enum CvlJoin {
    CVL_JOIN_INTS,   /* by an operator on integers */
    CVL_JOIN_BOOLS,  /* by one on booleans */
    CVL_JOIN_EXACT,  /* added in 64 bits; `high` says whether these were too few */
    CVL_JOIN_WIDE,   /* added in 96 bits: high * 2^32 + low */
    CVL_JOIN_COUNTS, /* high and low are two counts, each added */
    CVL_JOIN_PLACES, /* high is how many elements, and low the place of the first of some among them, or -1 */
    CVL_JOIN_STATES, /* where an automaton ends that begins in each of its states */
    CVL_JOIN_FIRST   /* the first, if a value holds until the next segment starts */
} CvlJoin;

/* A value that ranks join, and whether a segment starts in the ranks that it comes from: then nothing before it is joined. */
typedef struct CvlFold {
    int64_t high, low;
    uint32_t join, op;
    uint32_t starts, unused;
} CvlFold;

/* ---- the ranks ---- */

struct CvlRanks {
    MPI_Comm comm, back; /* a duplicate of the program's communicator, and the same ranks from the last to the first */
    int rank, size;
    MPI_Datatype fold, vote;
    MPI_Op before, after, agree;
    uint64_t *offsets;                                /* where each rank's part of a vector begins, and how long the vector is */
    int *sends, *send_from, *receives, *receive_from; /* of an exchange: the elements for and of each rank */
};

/* The numbers of what is no family, by which ranks see that they make the same call. A spread adds the size of an element. */
enum { CVL_CALL_SEGMENTS = 0xf900, CVL_CALL_SHARE = 0xfb00, CVL_CALL_SPREAD = 0xfb00, CVL_CALL_ROUTE = 0xfc00 };

/* ---- the descriptor ---- */

struct CvlRankSegments {
    CvlRanks *ranks;
    const int32_t *lengths; /* of the pieces in this rank's range: the copied ones */
    size_t pieces;
    bool goes_on;           /* whether the first piece goes on from a rank before */
    size_t total, starts;   /* elements of the range, and segments that start in it */
    uint64_t offset, first; /* the place of the first element, and how many segments start in ranks before */
    uint64_t head_before;   /* how many elements of the first piece's segment, where that goes on, stand in ranks before, */
    uint64_t last_after;    /* and of the last piece's segment in ranks behind */
    uint64_t all, segments; /* elements of the whole, and segments */
    int32_t copied[];       /* since what ranks know of one another's pieces holds for these lengths alone */
};

/* The pieces of a rank, their lengths behind the one that goes on from a rank before, and the length of that. */
static inline size_t cvl_head_of(const CvlRankSegments *segments) { return segments->goes_on ? (size_t)segments->lengths[0] : 0; }

/* ---- a call ---- */

typedef struct CvlCall CvlCall;

/* A family over ranks. */
typedef struct CvlRankRow {
    CvlRow row;
    CvlStatus (*way)(CvlCall *call);
    unsigned char call; /* the number of the family, by which ranks see that they make the same call */
    bool asks;          /* whether the plain family asks for memory */
    bool held;          /* whether lengths come by a descriptor */
    bool checked;       /* whether sums never wrap */
    bool named; /* whether an index or a count of 32 bits names places of the whole, which then is no longer than a vector */
} CvlRankRow;

struct CvlCall {
    CvlRanks *ranks;
    const CvlRankRow *family;
    uint32_t op;
    CvlSlot s[CVL_MOST_OPERANDS];
    CvlSlot in[CVL_ROLES]; /* the same by what they are to the call */
    const CvlRankSegments *segments, *other, *third;
    bool *copies[CVL_MOST_OPERANDS]; /* of flags that are neither 0 nor 1 */
    void *aside;                     /* the room if it may be refused, or nothing */
    CvlStatus status;                /* this rank's status */
    uint64_t total;                  /* how many elements all ranks have, once they agree */
    bool by_segment;                 /* whether there is an index for each segment that starts in the rank */
    bool replaces;                   /* whether values replace elements of a vector: the second array goes into the first */
    bool combines;                   /* whether what is sent is joined with what the room holds, or counted */
    bool short_room;                 /* whether this rank's, or, once they agree, a rank's room is too short */
};

/* Makes a call: opens it, runs its way, and frees its memory. */
CVL_HIDDEN CvlStatus cvl_over_ranks(CvlRanks *ranks, const CvlRankRow *family, uint32_t op, const CvlSlot *s);

/* Whether there are ranks, and MPI goes on. */
CVL_HIDDEN bool cvl_are_ranks(const CvlRanks *ranks);

/*
 * Whether all ranks make the call with this number. A library that is built with -DCVL_COMPARE_CALLS asks it before ranks exchange anything
 * else; without, ranks see it when they agree on a status.
 */
CVL_HIDDEN bool cvl_is_one_call(CvlRanks *ranks, uint32_t call);

/* Keeps the first fault of a call. */
static inline void cvl_say(CvlCall *c, CvlStatus status) {
    if (c->status.number == CVL_DONE) c->status = status;
}

/* Takes memory for a call, or keeps 100. */
CVL_HIDDEN void *cvl_take(CvlCall *c, size_t number, size_t size);

/* Has a rank make its part in memory of the library's own. */
CVL_HIDDEN void cvl_set_aside(CvlCall *c);

/* Copies flags that are neither 0 nor 1. */
CVL_HIDDEN void cvl_clean(CvlCall *c);

/*
 * Has the ranks agree, and answers whether all are done so far; else c->status is the fault that the plain call reports for the whole.
 * `number` is how many of what places count this rank has.
 */
CVL_HIDDEN bool cvl_agree(CvlCall *c, uint64_t number);

/* Agrees on a status of this rank, of `number` elements, with the place in the whole, which has at most `most`. */
CVL_HIDDEN CvlStatus
cvl_agreed(CvlRanks *ranks, CvlStatus status, uint32_t call, uint64_t number, uint64_t most, bool *short_room, uint64_t *total);

/* Makes this rank's part by the plain family; and moves what was made aside into the room. */
CVL_HIDDEN void cvl_make_own(CvlCall *c);
CVL_HIDDEN void cvl_move_in(CvlCall *c);

/* Whether all ranks have the same value, stride or place beside their vectors; else 2 UnknownCall. */
CVL_HIDDEN bool cvl_agree_on_numbers(CvlCall *c);

static inline bool cvl_has_bools(const CvlCall *c) { return (c->family->row.is & CVL_OF_BOOLS) != 0; }
static inline size_t cvl_room_size(const CvlCall *c) { return c->family->row.operand[c->family->row.out].size; }

/* The room to write: the caller's, or the one aside. */
static inline void *cvl_room(const CvlCall *c) { return c->aside != NULL ? c->aside : (void *)c->in[CVL_AS_OUT].at; }

/* ---- folds: fold.c ---- */

CVL_HIDDEN CvlFold cvl_fold(CvlJoin join, uint32_t op, int64_t high, int64_t low, bool starts);
CVL_HIDDEN CvlFold cvl_joined(CvlFold first, CvlFold second);

/* What joins to nothing. */
CVL_HIDDEN CvlFold cvl_nothing(CvlJoin join, uint32_t op);

/* What the ranks before this one join to since the last start; what those behind it join to up to the next; and what all join to. */
CVL_HIDDEN CvlFold cvl_before(CvlRanks *ranks, CvlFold mine);
CVL_HIDDEN CvlFold cvl_after(CvlRanks *ranks, CvlFold mine);
CVL_HIDDEN CvlFold cvl_all(CvlRanks *ranks, CvlFold mine);

/* What elements of this rank join to; nothing if the call has a fault. */
CVL_HIDDEN CvlFold cvl_own_reduce(CvlCall *c, CvlSlot a);

/* The functions of MPI's operators. */
CVL_HIDDEN void cvl_fold_before(void *in, void *inout, int *count, MPI_Datatype *type);
CVL_HIDDEN void cvl_fold_after(void *in, void *inout, int *count, MPI_Datatype *type);
CVL_HIDDEN void cvl_fold_votes(void *in, void *inout, int *count, MPI_Datatype *type);

/* ---- exchanges: exchange.c ---- */

/* Where each rank's part of a vector begins, from its length in each; and the whole's length. */
CVL_HIDDEN uint64_t cvl_offsets(CvlRanks *ranks, uint64_t number);

/* The rank that has a place, by these offsets: the last one whose part begins at it or before. */
CVL_HIDDEN int cvl_owner(const CvlRanks *ranks, uint64_t place);

/* Sends each rank the number of elements that it gets, from ranks->sends. More than an exchange holds is 100. */
CVL_HIDDEN size_t cvl_exchange_counts(CvlCall *c);

/* Sends elements, or sends back what was received. */
CVL_HIDDEN void cvl_send(CvlRanks *ranks, const void *from, void *to, size_t size);
CVL_HIDDEN void cvl_send_back(CvlRanks *ranks, const void *from, void *to, size_t size);

/* The same vector, of which this rank then has so many elements; or whether it has not as many in all. */
CVL_HIDDEN bool cvl_send_spread(CvlRanks *ranks, const void *a, size_t a_len, void *out, size_t out_len, size_t size);

/*
 * Where the pieces of an index lead: the place at which each piece's segment of the target starts, and how many places it has. Without
 * segments there is one piece; if a segment has one index, each is a piece.
 */
typedef struct CvlTargets {
    size_t pieces;
    const int32_t *lengths; /* how many indices each piece has, or nothing where it is one */
    int64_t *starts, *places;
    int64_t first_place; /* the place of the rank's first index in the whole, or in its segment */
    int32_t own_length;
} CvlTargets;

static inline size_t cvl_indices_of(const CvlTargets *targets, size_t piece) {
    return targets->lengths == NULL ? 1 : (size_t)targets->lengths[piece];
}

/* ---- the ways ---- */

CVL_HIDDEN CvlStatus cvl_places_over_ranks(CvlCall *c);
CVL_HIDDEN CvlStatus cvl_reduce_over_ranks(CvlCall *c);
CVL_HIDDEN CvlStatus cvl_scan_over_ranks(CvlCall *c);
CVL_HIDDEN CvlStatus cvl_checked_reduce_over_ranks(CvlCall *c);
CVL_HIDDEN CvlStatus cvl_checked_scan_over_ranks(CvlCall *c);
CVL_HIDDEN CvlStatus cvl_count_over_ranks(CvlCall *c);
CVL_HIDDEN CvlStatus cvl_pack_over_ranks(CvlCall *c);
CVL_HIDDEN CvlStatus cvl_extract_over_ranks(CvlCall *c);
CVL_HIDDEN CvlStatus cvl_replace_over_ranks(CvlCall *c);
CVL_HIDDEN CvlStatus cvl_lengths_over_ranks(CvlCall *c);
CVL_HIDDEN CvlStatus cvl_seg_scan_over_ranks(CvlCall *c);
CVL_HIDDEN CvlStatus cvl_seg_reduce_over_ranks(CvlCall *c);
CVL_HIDDEN CvlStatus cvl_seg_checked_scan_over_ranks(CvlCall *c);
CVL_HIDDEN CvlStatus cvl_seg_checked_reduce_over_ranks(CvlCall *c);
CVL_HIDDEN CvlStatus cvl_seg_count_over_ranks(CvlCall *c);
CVL_HIDDEN CvlStatus cvl_seg_values_over_ranks(CvlCall *c);
CVL_HIDDEN CvlStatus cvl_seg_replace_over_ranks(CvlCall *c);
CVL_HIDDEN CvlStatus cvl_permute_over_ranks(CvlCall *c);
CVL_HIDDEN CvlStatus cvl_combine_over_ranks(CvlCall *c);
CVL_HIDDEN CvlStatus cvl_combine_whole_over_ranks(CvlCall *c);
CVL_HIDDEN CvlStatus cvl_back_over_ranks(CvlCall *c);
CVL_HIDDEN CvlStatus cvl_seg_extract_over_ranks(CvlCall *c);
CVL_HIDDEN CvlStatus cvl_sort_over_ranks(CvlCall *c);
CVL_HIDDEN CvlStatus cvl_order_over_ranks(CvlCall *c);
CVL_HIDDEN CvlStatus cvl_rank_over_ranks(CvlCall *c);
CVL_HIDDEN CvlStatus cvl_gather_over_ranks(CvlCall *c);
CVL_HIDDEN CvlStatus cvl_append_over_ranks(CvlCall *c);
CVL_HIDDEN CvlStatus cvl_merge_over_ranks(CvlCall *c);
CVL_HIDDEN CvlStatus cvl_seg_merge_over_ranks(CvlCall *c);
CVL_HIDDEN CvlStatus cvl_transpose_over_ranks(CvlCall *c);
CVL_HIDDEN CvlStatus cvl_run_lengths_over_ranks(CvlCall *c);
CVL_HIDDEN CvlStatus cvl_run_starts_over_ranks(CvlCall *c);
CVL_HIDDEN CvlStatus cvl_run_counts_over_ranks(CvlCall *c);
CVL_HIDDEN CvlStatus cvl_first_true_over_ranks(CvlCall *c);
CVL_HIDDEN CvlStatus cvl_seg_first_true_over_ranks(CvlCall *c);
CVL_HIDDEN CvlStatus cvl_seg_exact_sums_over_ranks(CvlCall *c);
CVL_HIDDEN CvlStatus cvl_product_over_ranks(CvlCall *c);
CVL_HIDDEN CvlStatus cvl_rows_over_ranks(CvlCall *c);

#endif

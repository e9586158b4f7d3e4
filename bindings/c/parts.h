/*
 * parts.h: a call in parts, as its steps see it. The driver checks and cuts the call, and runs the steps of its row by the pool. If a step
 * fails, or there is no memory for it, the rooms are as they were, and the call is made by the thread that calls.
 */
#ifndef CVL_PARTS_H
#define CVL_PARTS_H

#include "proved.h"
#include "rows.h"
#include "threads.h"

/* The most elements of an array of a call's own, such as the texts of all parts. */
#define CVL_MOST_OWN 0x1000000000

/* The proved steps of sorts go by digits of 11 bits. An analysis takes fewer. */
#ifndef CVL_DIGIT_BITS
#define CVL_DIGIT_BITS 11
#endif
#define CVL_DIGITS ((size_t)1 << CVL_DIGIT_BITS)

/* What a step tells of each part, or what stands before each one: integers, booleans, sums that never wrap, or sizes. */
typedef struct CvlRecord {
    int32_t ints[CVL_MOST_PARTS];
    bool flags[CVL_MOST_PARTS];
    int64_t longs[CVL_MOST_PARTS];
    size_t sizes[CVL_MOST_PARTS];
} CvlRecord;

typedef CvlStatus (*CvlStepPart)(CvlWork *work, size_t part);

/* A call in parts. Each step writes the fields of its own part, and reads what earlier steps wrote. */
struct CvlWork {
    size_t parts;
    size_t from[CVL_MOST_PARTS + 1];  /* the first element of each part, and how many elements there are */
    size_t first[CVL_MOST_PARTS + 1]; /* the first segment that starts in each part, and how many segments there are */
    size_t start[CVL_MOST_PARTS + 1]; /* where that segment starts */
    bool starts[CVL_MOST_PARTS];      /* whether a segment starts in each part */
    size_t other[CVL_MOST_PARTS + 1]; /* where it starts in a second vector, or where a part's result goes */
    size_t third[CVL_MOST_PARTS + 1]; /* where it starts in a third one, or a part has memory of its own */
    size_t counts[CVL_MOST_PARTS];    /* how many elements each part gives */
    CvlRecord of_parts;               /* what a step tells of each part */
    CvlRecord before_parts;           /* and what stands before each one */
    CvlStatus told;                   /* what the call returns if its parts are done */
    bool left_out;                    /* whether the pool left a part out */
    char *kept;                       /* memory of the call's own */
    bool tried, wrote;                /* whether a step that may fail wrote a room, or one that cannot */
    bool *copies;                     /* copies of flags that are neither 0 nor 1 */
    bool made;                        /* whether the flags are 0 and 1, and need no other look */
    /* the call */
    const CvlRow *row;
    const CvlStepRow *step; /* the step that is run */
    uint32_t op;
    CvlSlot in[CVL_ROLES];  /* its arguments, by what they are to it */
    const int32_t *lengths; /* those that it is cut by */
    size_t segments;
    int32_t length; /* that of a vector without segments, if it is cut as one */
    size_t moves;   /* a bit for each pass of a sort that moves keys */
};

/*@ logic integer of_bools{L}(CvlWork *w) = w->row->is & CVL_OF_BOOLS; */
/*@ requires \valid_read(w) && \valid_read(w->row);
    assigns \nothing;
    ensures \result != 0 <==> of_bools(w) != 0; */
static inline bool cvl_of_bools(const CvlWork *w) { return (w->row->is & CVL_OF_BOOLS) != 0; }

/* The bytes of an element of the room. */
/*@ assigns \nothing; */
static inline size_t cvl_size(const CvlWork *w) { return w->row->operand[w->row->out].size; }

/* ---- cutting, and the steps: cut.c ---- */

/* What a step leaves of a call: its number of parts, its memory, and what is known of its rooms. */
/*@ predicate goes_on{L1, L2}(CvlWork *w) =
      \at(w->parts, L2) == \at(w->parts, L1) && \at(w->kept, L2) == \at(w->kept, L1) &&
      \at(w->wrote, L2) == \at(w->wrote, L1) && \at(w->tried, L2) == \at(w->tried, L1); */

/*
 * Cuts a call: at places; a text at white space; with segments at places, so that each part knows the segments that start in it. Answers
 * whether there is more than one part, and a pool that runs each.
 */
/*@ assigns *w, runs; */
CVL_HIDDEN bool cvl_cut(const CvlPool *pool, CvlWork *w, const CvlRow *row, const CvlSlot *s);

/* Where a part's share of an array begins, if all parts have about as much: a part's ends where that of the next one begins. */
/*@ requires \valid_read(w) && 0 < w->parts && k <= w->parts;
    assigns \nothing;
    ensures \result == even_place(len, w->parts, k) <= len; */
CVL_HIDDEN size_t cvl_part_from(const CvlWork *w, size_t len, size_t k);

/* What a step does: it reads, writes memory of the call's own, or writes the rooms. */
typedef enum CvlKind { CVL_READS, CVL_COPIES, CVL_WRITES } CvlKind;

/*
 * Runs a step in all parts, each once, and answers whether all are done. A part that the pool leaves out of a step that only reads ends the
 * call; in a step that writes, the thread that calls runs it, so that no room is half written. Flags are copied before a room is written.
 */
/*@ requires \valid(w) && w->parts <= CVL_MOST_PARTS && (kind == CVL_WRITES ==> made != 0);
    assigns *w, rooms, runs;
    ensures kind != CVL_WRITES ==> rooms == \old(rooms);
    ensures goes_on{Pre, Post}(w);
    ensures \forall integer k; 0 <= k < w->parts ==> times{Post}(k) <= times{Pre}(k) + 1;
    ensures kind != CVL_READS || \result != 0 ==> \forall integer k; 0 <= k < w->parts ==> times{Post}(k) == times{Pre}(k) + 1;
    ensures \forall integer k; 0 <= k < w->parts && times{Post}(k) == times{Pre}(k) ==> w->left_out != 0; */
CVL_HIDDEN bool cvl_step(const CvlPool *pool, CvlWork *w, CvlKind kind, CvlStepPart part);

/*
 * A call with no room looks for the faults of its elements and writes nothing: an export checks the room last, so 7 LengthMismatch says
 * that there is no other fault.
 */
static inline CvlStatus cvl_looked(CvlStatus status) { return status.number == CVL_LENGTH_MISMATCH ? cvl_done() : status; }

/* Copies the flags that have to be 0 and 1 and are not, and answers whether there was memory. */
/*@ assigns *w, made, runs;
    ensures (\result ==> made != 0) && goes_on{Pre, Post}(w); */
CVL_HIDDEN bool cvl_make_all(const CvlPool *pool, CvlWork *w);

/* Memory for so many bytes, which one thread frees; or nothing. */
/*@ assigns \nothing; */
CVL_HIDDEN void *cvl_memory(size_t bytes);

/* Frees the memory of a call. */
/*@ assigns \nothing; */
CVL_HIDDEN void cvl_let_go(CvlWork *w);

/* The elements of a part: the end of a segment of an earlier part, whole segments, and the beginning of a segment that is cut. */
typedef struct CvlPiece {
    size_t from, head;   /* the end of the earlier segment stands before `head`, */
    size_t tail, to;     /* and the beginning of the cut one from `tail` on */
    size_t first, count; /* the whole segments */
    bool starts, cut;    /* whether a segment starts in the part, and whether its last one is cut */
} CvlPiece;

/* Elements that are cut, the lengths of their segments, and the first segment that starts in each part. */
/*@ predicate has_segments{L}(CvlWork *w) =
      0 < w->parts <= CVL_MOST_PARTS && w->from[w->parts] <= CVL_MOST_ELEMENTS && w->segments <= CVL_MOST_ELEMENTS &&
      is_cut(&w->from[0], w->parts, w->from[w->parts]) && is_segments(w->lengths, w->segments, w->from[w->parts]) &&
      \valid_read(w->lengths + (0 .. w->segments - 1)) && \separated(w->lengths + (0 .. w->segments - 1), w);

    predicate knows_first{L}(CvlWork *w, integer k) =
      is_first(w->lengths, w->segments, w->from[k], w->first[k]) && w->start[k] == start_of(w->lengths, w->first[k]);

    predicate knows_starts{L}(CvlWork *w) =
      w->first[0] == 0 && w->first[w->parts] == w->segments && w->start[w->parts] == w->from[w->parts] &&
      (\forall integer k; 0 <= k <= w->parts ==> 0 <= w->first[k] <= w->segments) &&
      (\forall integer k; 0 <= k <= w->parts ==> w->from[k] <= w->start[k] == start_of(w->lengths, w->first[k])) &&
      (\forall integer k, s; 0 <= k < w->parts && 0 <= s < w->first[k] ==> start_of(w->lengths, s) < w->from[k]); */

/*@ requires \valid_read(w) && has_segments(w) && knows_starts(w) && k < w->parts;
    assigns \nothing;
    ensures \result.from == w->from[k] <= \result.head <= \result.tail <= \result.to == w->from[k + 1];
    ensures \result.first == w->first[k] && \result.first + \result.count + (\result.cut ? 1 : 0) == w->first[k + 1];
    ensures \result.starts <==> w->first[k + 1] > w->first[k];
    ensures \result.starts ? start_of(w->lengths, \result.first) == \result.head : \result.head == \result.to;
    ensures \result.cut ==> start_of(w->lengths, \result.first + \result.count) == \result.tail;
    ensures \result.starts && !\result.cut ==> start_of(w->lengths, \result.first + \result.count) == \result.tail == \result.to;
    ensures \result.cut <==> \result.starts && w->start[k + 1] > \result.to; */
CVL_HIDDEN CvlPiece cvl_piece(const CvlWork *w, size_t k);

/* ---- the parts of a call: if they are done, w->told is the status ---- */

/* Runs the steps of the call's row, and answers whether they are done. */
/*@ requires \valid(w) && w->parts <= CVL_MOST_PARTS && !w->tried && !w->wrote && w->kept == \null;
    assigns *w, rooms, kept, made, runs;
    ensures !\result && !w->wrote ==> rooms == \old(rooms); */
CVL_HIDDEN bool cvl_steps_in_parts(const CvlPool *pool, CvlWork *w);

#endif

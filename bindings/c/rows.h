/*
 * rows.h: a family as a row that the driver walks: its operands, which of them have to be as long as others, which may be the room, how it
 * is cut into parts, and the function that calls its export.
 */
#ifndef CVL_ROWS_H
#define CVL_ROWS_H

#include "internal.h"

/* An operand of a call: where an array is, and how many elements it has; or nothing, and a number. */
typedef struct CvlSlot {
    const void *at;
    size_t number;
} CvlSlot;

/* What an operand is to a call. */
/* clang-format off */
typedef enum CvlAs {
    /* arrays that are read */
    CVL_AS_A, CVL_AS_B, CVL_AS_FLAGS, CVL_AS_INDEX,
    /* lengths that the call is cut by, others, and offsets of rows */
    CVL_AS_LENGTHS, CVL_AS_OTHER_LENGTHS, CVL_AS_THIRD_LENGTHS, CVL_AS_OFFSETS,
    /* numbers */
    CVL_AS_VALUE, CVL_AS_STRIDE, CVL_AS_PLACE, CVL_AS_COUNT, CVL_AS_LOWEST, CVL_AS_ROWS, CVL_AS_COLUMNS,
    /* what is written */
    CVL_AS_OUT, CVL_AS_MARKS, CVL_AS_TOLD, CVL_AS_OTHER_OUT, CVL_AS_OTHER_TOLD,
    /* the records of a call in parts: a number of 32 bits or of 64 for each part */
    CVL_AS_SUMS, CVL_AS_BEFORE, CVL_AS_TOTALS, CVL_AS_CARRIES,
    /* whether a segment starts in each part */
    CVL_AS_STARTS,
    /* how many elements each part keeps, where these go in the room and where they end, and how many it has written */
    CVL_AS_COUNTS, CVL_AS_PLACES, CVL_AS_KEPT,
    /* what the counts of the parts behind each one add up to */
    CVL_AS_COUNTS_BEHIND,
    /* the boundaries of CvlWork: where each part begins, the first segment that starts in it, where that starts, and two others */
    CVL_AS_FROMS, CVL_AS_FIRSTS, CVL_AS_SEGMENT_STARTS, CVL_AS_THIRDS,
    /* where the first run of each part begins, and how many elements its last one has behind the part */
    CVL_AS_BEGINS, CVL_AS_BEHINDS,
    /* arrays of the call's own, the second as long as the room, and what stood in the rooms before */
    CVL_AS_OWN, CVL_AS_SECOND_OWN, CVL_AS_THIRD_OWN, CVL_AS_KEPT_OUT, CVL_AS_KEPT_OTHER_OUT,
    /* the keys that a pass reads: the first array, or the room once one has written it; which passes move keys; how many parts there are */
    CVL_AS_KEYS, CVL_AS_MOVES, CVL_AS_PARTS,
    /* no array, or the number 0; the numbers 1 and 2; and the element of the room at the place */
    CVL_AS_NOTHING, CVL_AS_ONE, CVL_AS_TWO, CVL_AS_AT_PLACE,
    CVL_ROLES
} CvlAs;
/* clang-format on */

/* How the number of an operand depends on that of another one. */
typedef enum CvlRelation {
    CVL_SAME,       /* they are the same, or the other one is the operand itself */
    CVL_ONE_MORE,   /* offsets are one more than rows */
    CVL_A_BIT_EACH, /* words that have a bit for each */
    CVL_FROM_LOWEST /* places from the other one on */
} CvlRelation;

/*
 * What each part has of an operand: the whole (NONE); what lies between two boundaries of CvlWork (FROM to THIRD, named as the array that has
 * them); its own place of a record (PART), or the number that stands there (INT to KEPT); how many of its elements go on from an earlier
 * segment (HEAD), these elements (FRONT), how many that segment has before (DONE), the lengths of its whole segments (WHOLE), its elements
 * since its last start (LAST), or what belongs to each segment of which it has elements or a start (OWNERS). SHARE is about as much of an
 * array as each other part has, and DIGITS one number for each digit. AT_FROM to AT_SHARE are where the part begins by some boundaries, as a
 * number, and OF_FIRST is how much it has by those of FIRST.
 */
/* clang-format off */
typedef enum CvlBy {
    CVL_BY_NONE, CVL_BY_FROM, CVL_BY_FIRST, CVL_BY_START, CVL_BY_OTHER, CVL_BY_THIRD,
    CVL_BY_PART, CVL_BY_INT, CVL_BY_FLAG, CVL_BY_LONG, CVL_BY_SIZE, CVL_BY_KEPT,
    CVL_BY_HEAD, CVL_BY_FRONT, CVL_BY_DONE, CVL_BY_WHOLE, CVL_BY_LAST, CVL_BY_OWNERS,
    CVL_BY_SHARE, CVL_BY_DIGITS, CVL_BY_AT_FROM, CVL_BY_AT_FIRST, CVL_BY_AT_OTHER, CVL_BY_AT_THIRD, CVL_BY_AT_SHARE, CVL_BY_OF_FIRST
} CvlBy;
/* clang-format on */

/* How a call uses an operand. */
enum {
    CVL_READ = 1,            /* an array that is read */
    CVL_WRITTEN = 2,         /* a room, or one value that is written */
    CVL_IN_PLACE = 4,        /* an array that may be the room */
    CVL_BOUNDED = 8,         /* has no more elements than a vector may have, */
    CVL_TOO_MANY = 16,       /* and more are reported */
    CVL_COPIED = 32,         /* flags that the export takes only as 0 and 1: others are copied, and a room is copied back */
    CVL_COPIED_IN_PARTS = 64 /* the same in parts */
};

typedef struct CvlOperand {
    unsigned char as;       /* CvlAs */
    unsigned char size;     /* the bytes of an element, or 0 for a number */
    unsigned char like;     /* the operand whose number says what this one's has to be */
    unsigned char relation; /* CvlRelation */
    unsigned char total;    /* of lengths and offsets: the operand that has as many elements as these add up to */
    unsigned char by;       /* CvlBy */
    unsigned char is;       /* CVL_READ .. */
} CvlOperand;

/* How the driver makes the calls of a family. */
enum {
    CVL_ASKED = 1,          /* the driver checks what the export would report after other faults, or after memory */
    CVL_LATE = 2,           /* and once more if the export reports a fault of elements or of memory */
    CVL_READS_TEXT = 4,     /* a text that is too long is reported before 100 */
    CVL_COUNTED = 8,        /* a count says how long the room is */
    CVL_BY_TRUES = 16,      /* true flags do, */
    CVL_WRITES_TEXT = 32,   /* or the text of the elements; */
    CVL_FRONT = 64,         /* and the room may be longer */
    CVL_OF_BOOLS = 128,     /* elements are booleans */
    CVL_AT_PLACE = 256,     /* one element of the first operand is taken or replaced, at the place that is the second */
    CVL_TOGETHER = 512,     /* two operands may be the room at once */
    CVL_MERGES = 1024,      /* A has an element for each true flag, and B one for each false one */
    CVL_APPENDS = 2048,     /* the room is as long as A and B together */
    CVL_TURNS = 4096,       /* the elements are those of so many rows and columns */
    CVL_ADDS = 8192,        /* elements are added to the room without wrapping, in sums of 64 bits */
    CVL_ONE_SEGMENT = 16384 /* a vector without segments is cut as one */
};

typedef struct CvlRow CvlRow;
typedef struct CvlWork CvlWork;

enum { CVL_MOST_OPERANDS = 7 };

/* What a step of a call in parts does. */
typedef enum CvlStepKind {
    CVL_LOOKS,  /* each part looks for faults of its elements, without a room, if the operator has some */
    CVL_TELLS,  /* each part writes its place of a record, or tells that it has a fault */
    CVL_DRAFTS, /* each part writes its range of arrays of the call's own */
    CVL_TAKES,  /* made once: asks for memory for the arrays of the call's own */
    CVL_JOINS,  /* made once, on the records of all parts */
    CVL_GIVES,  /* the same, and it writes what the call gives */
    CVL_FITS,   /* the same, and its status is the call's: that all fits the room, or the fault with which the call ends */
    CVL_FILLS,  /* each part writes its range of the room, which cannot fail */
    CVL_TRIES /* each part keeps its ranges of the rooms and writes them; they are put back if this step fails, or a later one */
} CvlStepKind;

/* The operator of a step, if it is the call's. */
enum { CVL_OP_OF_CALL = 255 };

/* When a step is run: always, by how many places the room has for its elements, or if it is of a pass. */
/* clang-format off */
typedef enum CvlWhen {
    CVL_ALWAYS,
    CVL_IF_FEW,  /* the room has no more places for each part than there are elements for it */
    CVL_IF_MANY, /* it has more */
    CVL_IF_PASS_0, CVL_IF_PASS_1, CVL_IF_PASS_2 /* the pass moves keys */
} CvlWhen;
/* clang-format on */

/*
 * A step: the function that calls its export, and what a part has of each operand, of which only `as`, `size` and `by` are set. One that takes
 * memory names the arrays instead, each as long as its boundaries say.
 */
typedef struct CvlStepRow {
    CvlOperand operand[CVL_MOST_OPERANDS];
    unsigned char operands;
    unsigned char kind;     /* CvlStepKind */
    unsigned char op;       /* the number of an operator, or CVL_OP_OF_CALL */
    unsigned char on_flags; /* whether its export takes flags of the call only as 0 and 1 */
    unsigned char when;     /* CvlWhen */
    CvlStatus (*make)(uint32_t op, const CvlSlot *s);
} CvlStepRow;

struct CvlRow {
    CvlOperand operand[CVL_MOST_OPERANDS];
    unsigned char operands;
    unsigned char out;  /* the operand that is the room, or the value that is written */
    unsigned char cut;  /* the operand whose elements are cut */
    uint16_t is;        /* CVL_ASKED .. */
    uint32_t operators; /* a bit for each operator of the family, or 0 if it takes none */
    uint32_t faulty;    /* a bit for each operator, or the first, that has no value on some elements */
    size_t most;        /* the most elements of a vector, and the most that lengths add up to */
    size_t least, each; /* from how many elements on the call is cut, or 0; and how many each part has at least */
    CvlStatus (*make)(uint32_t op, const CvlSlot *s);
    const CvlStepRow *step;   /* its steps, in order, */
    size_t steps;             /* and how many, or 0 if it is not cut */
    const CvlRow *by_lengths; /* of rows that come by offsets: the family of rows that come by lengths */
    const char *const *names; /* of its operands */
    uint32_t tells;           /* a bit for each fault whose place counts in an operand, or that is about a number: */
    unsigned char about;      /* that operand, */
    unsigned char into;       /* and the one into which its indices lead, or CVL_MOST_OPERANDS */
};

/* The operands of a call. */
#define CVL_SLOTS(...) \
    (const CvlSlot[]) { __VA_ARGS__ }

/* Whether an operand is another one, from its first to its last element. */
/*@ assigns \nothing;
    ensures \result <==> a.at == b.at && a.number == b.number; */
static inline bool cvl_is_one(CvlSlot a, CvlSlot b) { return a.at == b.at && a.number == b.number; }

#endif

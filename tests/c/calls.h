/*
 * calls.h: each function of cvl.h and cvl_parallel.h as a row, for the tests of the calls of one thread, in parts and over ranks: its plain
 * reading, which is in reading.h, its operands in the words of bindings/table.py, and the call with the arguments of a test.
 */
#ifndef CALLS_H
#define CALLS_H

#include "cvl_parallel.h"
#include "operand_words.h"

#include <stdlib.h>
#include <string.h>

enum { MOST_OPERANDS = 8 };

typedef struct Operand {
    Role role;
    Kind kind;
    Extent extent;
    Use use;
    bool is_over; /* whether what is written is joined with what stands there */
} Operand;

/* The arguments of a call: for each operand where it is and how many elements it has, or its number. */
typedef struct Given {
    uint32_t op;
    void *at[MOST_OPERANDS];
    size_t len[MOST_OPERANDS];
    int64_t number[MOST_OPERANDS];
} Given;

/* The columns of a row: which inputs may be the room, counted from the first operand on, and whether no two of them may be it at once; a bit for
 * each number from that of one operator to that of another one; the operand that may be too long; and whether it is a call of the table. */
enum { NONE = 0, FIRST = 1, SECOND = 2, THIRD = 4, FOURTH = 8, FIFTH = 16, ONE_ALONE = 1 << 8 };
#define OPERATORS(from, to) (((uint32_t)2 << (to)) - ((uint32_t)1 << (from)))
#define LIMIT_OF(operand) operand
enum { NO_OPERATORS = 0, NO_LIMIT = -1, FAMILY = false, CALL = true };

/* A function, as call_rows.h says. */
typedef struct Row {
    const char *name;
    Model model;
    Operand operands[MOST_OPERANDS + 1];
    unsigned in_place;
    uint32_t operators;
    int limited;
    bool is_call;
    CvlStatus (*call)(const Given *g);
} Row;

/* The pool of the functions in parts. */
static CvlPool pool;

static inline CvlLengths lengths_at(const Given *g, size_t k) { return (CvlLengths){(const int32_t *)g->at[k], g->len[k]}; }

/* The functions of descriptors that no row is written for. */
#define DESCRIPTOR \
    { ROLE_LENGTHS, KIND_SEGMENTS, EXTENT_TOTAL, USE_ELEMENTS, 0 }
#define NEW_DESCRIPTOR \
    { ROLE_ROOM, KIND_SEGMENTS, EXTENT_NONE, USE_ELEMENTS, 0 }
#define OTHER_ARRAY(role, extent, use) \
    { ROLE_##role, KIND_INTS, EXTENT_##extent, USE_##use, 0 }
#define OTHERS(X)                                                                                                               \
    X(cvl_segments_free, OF_NO_ELEMENTS, LIST(NEW_DESCRIPTOR), NONE, NO_OPERATORS, NO_LIMIT, FAMILY, (g->at[0]))                \
    X(cvl_segments_new, OF_NO_ELEMENTS, LIST(OTHER_ARRAY(LENGTHS, TOTAL, ELEMENTS), NEW_DESCRIPTOR), NONE, NO_OPERATORS,        \
      NO_LIMIT, FAMILY, (lengths_at(g, 0), g->at[1]))                                                                           \
    X(cvl_segments_total, MAKE_DESCRIPTOR, LIST(DESCRIPTOR, {ROLE_TOLD, KIND_SIZES, EXTENT_NONE, USE_ELEMENTS, 0}), NONE,       \
      NO_OPERATORS, NO_LIMIT, FAMILY, (g->at[0], g->at[1]))                                                                     \
    X(cvl_segments_from_offsets, FROM_OFFSETS,                                                                                  \
      LIST(OTHER_ARRAY(READS, OFFSETS, OFFSETS), OTHER_ARRAY(ROOM, SEGMENTS, LENGTHS), NEW_DESCRIPTOR), NONE, NO_OPERATORS,     \
      NO_LIMIT, FAMILY, (g->at[0], g->len[0], g->at[1], g->len[1], g->at[2]))                                                   \
    X(cvl_segments_offsets, TELL_OFFSETS, LIST(DESCRIPTOR, OTHER_ARRAY(ROOM, OFFSETS, ELEMENTS)), NONE, NO_OPERATORS, NO_LIMIT, \
      FAMILY, (g->at[0], g->at[1], g->len[1]))                                                                                  \
    X(cvl_segments_numbers, TELL_NUMBERS, LIST(DESCRIPTOR, OTHER_ARRAY(ROOM, TOTAL, ELEMENTS)), NONE, NO_OPERATORS, NO_LIMIT,   \
      FAMILY, (g->at[0], g->at[1], g->len[1]))

/* Several things in one argument of a row. */
#define LIST(...) \
    { __VA_ARGS__ }

#define ROW(name, model, operands, in_place, operators, limited, is_call, arguments) \
    static CvlStatus call_##name(const Given *g) { return name arguments; }
OTHERS(ROW)
#include "call_rows.h"
#undef ROW
#define ROW(name, model, operands, in_place, operators, limited, is_call, arguments) \
    {#name, model, operands, in_place, operators, limited, is_call, call_##name},
static const Row rows[] = {OTHERS(ROW)
#include "call_rows.h"
};
#undef ROW

enum { ROWS = sizeof rows / sizeof *rows };

static inline bool takes_operator(const Row *row, uint32_t op) { return op < 32 && (row->operators >> op & 1) != 0; }
static inline bool in_parts(const Row *row) { return strcmp(row->name + strlen(row->name) - 3, "_on") == 0; }

static inline Role role_of(const Row *row, size_t k) { return row->operands[k].role; }
static inline Kind kind_of(const Row *row, size_t k) { return row->operands[k].kind; }
static inline Extent extent_of(const Row *row, size_t k) { return row->operands[k].extent; }
static inline Use use_of(const Row *row, size_t k) { return row->operands[k].use; }
static inline bool is_room(const Row *row, size_t k) { return role_of(row, k) == ROLE_ROOM; }
static inline bool is_written(const Row *row, size_t k) {
    return is_room(row, k) || role_of(row, k) == ROLE_SINGLE || role_of(row, k) == ROLE_TOLD;
}
static inline bool is_array(const Row *row, size_t k) {
    return role_of(row, k) == ROLE_READS || role_of(row, k) == ROLE_LENGTHS || is_room(row, k);
}
static inline bool is_in_memory(const Row *row, size_t k) { return is_array(row, k) || is_written(row, k); }

static inline size_t count_of(const Row *row) {
    size_t count = 0;
    while (role_of(row, count) != ROLE_NONE) count++;
    return count;
}

/* The first operand of a role, of a role and a kind, or of a use; or how many operands there are. */
static inline size_t operand(const Row *row, Role role) {
    size_t k = 0;
    while (k < count_of(row) && role_of(row, k) != role) k++;
    return k;
}

static inline size_t operand_of(const Row *row, Role role, Kind kind) {
    size_t k = 0;
    while (k < count_of(row) && (role_of(row, k) != role || kind_of(row, k) != kind)) k++;
    return k;
}

static inline size_t operand_for(const Row *row, Use use) {
    size_t k = 0;
    while (k < count_of(row) && use_of(row, k) != use) k++;
    return k;
}

static inline bool has(const Row *row, Role role, Kind kind) { return operand_of(row, role, kind) < count_of(row); }
static inline bool uses(const Row *row, Use use) { return operand_for(row, use) < count_of(row); }

/* Whether a call works on segments: their lengths or offsets are operands. */
static inline bool is_cut_up(const Row *row) { return operand(row, ROLE_LENGTHS) < count_of(row) || uses(row, USE_OFFSETS); }

/* The bytes of an element. */
static inline size_t size_of(Kind kind) {
    switch (kind) {
    case KIND_FLAGS:
    case KIND_BYTES:
    case KIND_TEXT: return 1;
    case KIND_INTS:
    case KIND_MARKS: return sizeof(int32_t);
    case KIND_SUMS: return sizeof(int64_t);
    case KIND_SIZES: return sizeof(size_t);
    case KIND_SEGMENTS: return sizeof(CvlSegments);
    }
    abort();
}

/* The first operator of the row from a number on, and round again; 0 where it takes none. */
static inline uint32_t operator_from(const Row *row, uint32_t from) {
    if (row->operators == 0) return 0;
    while (!takes_operator(row, from)) from = (from + 1) % 32;
    return from;
}

#endif

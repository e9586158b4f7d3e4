/*
 * operators.h: the operators as the plain readings have them: the letters of each in the names of calls, its fault, its value on two elements,
 * and what it joins no elements to. The letters and faults come from the table of calls; a test ends where a value is missing.
 */
#ifndef OPERATORS_H
#define OPERATORS_H

#include "cvl.h"

#include <stdlib.h>

/* An operator that has no value on some pairs has a fault; the others are done. */
typedef struct Operator {
    const char *letters;
    uint32_t number, fault;
} Operator;

#define OPERATOR(letters, number, fault) {#letters, number, fault},
static const Operator operators[] = {
#include "operator_rows.h"
};
#undef OPERATOR

enum { ALL_OPERATORS = sizeof operators / sizeof *operators };

static inline int32_t wrapped(int64_t value) { return (int32_t)(uint32_t)(uint64_t)value; }

/* The operator on two elements; the status tells whether they have a value. */
static inline uint32_t operated(uint32_t op, int64_t a, int64_t b, int64_t *value) {
    switch (op) {
    case CVL_ADD: *value = wrapped(a + b); return CVL_DONE;
    case CVL_MUL: *value = wrapped(a * b); return CVL_DONE;
    case CVL_MIN: *value = a < b ? a : b; return CVL_DONE;
    case CVL_MAX: *value = a > b ? a : b; return CVL_DONE;
    case CVL_AND: *value = a & b; return CVL_DONE;
    case CVL_IOR: *value = a | b; return CVL_DONE;
    case CVL_XOR: *value = a ^ b; return CVL_DONE;
    case CVL_SUB: *value = wrapped(a - b); return CVL_DONE;
    case CVL_GRT: *value = a > b; return CVL_DONE;
    case CVL_LES: *value = a < b; return CVL_DONE;
    case CVL_GEQ: *value = a >= b; return CVL_DONE;
    case CVL_LEQ: *value = a <= b; return CVL_DONE;
    case CVL_EQL: *value = a == b; return CVL_DONE;
    case CVL_NEQ: *value = a != b; return CVL_DONE;
    case CVL_DIV:
    case CVL_MOD:
        if (b == 0) return CVL_DIVIDE_BY_ZERO;
        *value = wrapped(op == CVL_DIV ? a / b : a % b);
        return CVL_DONE;
    case CVL_LSH:
    case CVL_RSH:
        if (b < 0 || b > 31) return CVL_SHIFT_OUT_OF_RANGE;
        *value = op == CVL_LSH ? wrapped(a * ((int64_t)1 << b))
                               : (a - (((a % ((int64_t)1 << b)) + ((int64_t)1 << b)) % ((int64_t)1 << b))) / ((int64_t)1 << b);
        return CVL_DONE;
    default: abort(); /* an operator that this reading lacks */
    }
}

/* What no elements join to. */
static inline int64_t unit(uint32_t op, bool of_booleans) {
    switch (op) {
    case CVL_ADD:
    case CVL_IOR:
    case CVL_XOR: return 0;
    case CVL_MUL: return 1;
    case CVL_MIN: return INT32_MAX;
    case CVL_MAX: return INT32_MIN;
    case CVL_AND: return of_booleans ? 1 : -1;
    default: abort(); /* an operator that scans, and that this reading lacks */
    }
}

#endif

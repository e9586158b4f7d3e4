/*
 * given.h: what the drivers of Eva and the exports beside them share. A driver makes a call on a few elements of any value. What
 * a call asks
 * for, of an export or of memory, is counted, and one request is refused, so that each way out of a call is taken.
 */
#ifndef CVL_ANALYSIS_GIVEN_H
#define CVL_ANALYSIS_GIVEN_H

#include "proved.h"
#include "parts.h"
#include "segments.h"

#include "__fc_builtin.h"

/* The request that is refused, counted from 0,
    or -1; how many there were in the call; and the fault that a refused export tells. */
extern int refused, asked;
extern uint32_t fault;

static inline int32_t any_int(void) { return Frama_C_interval(INT32_MIN, INT32_MAX); }

/* A boolean from a caller is any byte, and one of a result 0 or 1. */
static inline bool any_true(void) { return Frama_C_unsigned_char_interval(1, 255); }
static inline bool any_flag(void) { return Frama_C_unsigned_char_interval(0, 1); }

static inline bool is_refused(void) { return asked++ == refused; }
static inline CvlStatus told_fault(void) { return cvl_status(fault, Frama_C_interval(-1, INT32_MAX - 1)); }

/* What an export reads has to be there. */
/*@ requires count == 0 || \initialized(a + (0 .. count - 1));
    assigns \nothing; */
void reads_ints(const int32_t *a, size_t count);

/*@ requires count == 0 || \initialized(bytes + (0 .. count - 1));
    assigns \nothing; */
void reads_bytes(const bool *bytes, size_t count);

/*@ requires count == 0 || \initialized(marks + (0 .. count - 1));
    assigns \nothing; */
void reads_marks(const uint32_t *marks, size_t count);

/*@ requires count == 0 || \initialized(sums + (0 .. count - 1));
    assigns \nothing; */
void reads_sums(const int64_t *sums, size_t count);

/*@ requires count == 0 || \initialized(placed + (0 .. count - 1));
    assigns \nothing; */
void reads_placed(const CvlPlaced *placed, size_t count);

/* Booleans of Rattle are 0 or 1. */
static inline void reads_flags(const bool *flags, size_t count) {
    for (size_t k = 0; k < count; k++) {
        /*@ assert flags[k] <= 1; */
        reads_bytes(flags + k, 1);
    }
}

/* A room may be written, and holds any values then. */
static inline void writes_ints(int32_t *out, size_t count) {
    for (size_t k = 0; k < count; k++) out[k] = any_int();
}

static inline void writes_marks(uint32_t *out, size_t count) {
    for (size_t k = 0; k < count; k++) out[k] = Frama_C_unsigned_int_interval(0, UINT32_MAX);
}

static inline void writes_sums(int64_t *out, size_t count) {
    for (size_t k = 0; k < count; k++) out[k] = Frama_C_long_interval(INT64_MIN, INT64_MAX);
}

static inline void writes_placed(CvlPlaced *out, size_t count) {
    for (size_t k = 0; k < count; k++) out[k].key = any_int(), out[k].place = any_int();
}

static inline void writes_bytes(bool *out, size_t count) {
    for (size_t k = 0; k < count; k++) out[k] = Frama_C_unsigned_char_interval(0, 255);
}

static inline void writes_flags(bool *out, size_t count) {
    for (size_t k = 0; k < count; k++) out[k] = any_flag();
}

#endif

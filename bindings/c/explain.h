/* explain.h: what a thread keeps of its last fault, for cvl_explain. */
#ifndef CVL_EXPLAIN_H
#define CVL_EXPLAIN_H

#include "rows.h"

/* Keeps what can be said of a fault, of a call with these operands, or of one without a row; returns the status. */
CVL_HIDDEN CvlStatus cvl_keep_fault(const CvlRow *row, const CvlSlot *s, CvlStatus status);

/* The same of what a call returns, which may be done. */
static inline CvlStatus cvl_fault_kept(const CvlRow *row, const CvlSlot *s, CvlStatus status) {
    return status.number == CVL_DONE ? status : cvl_keep_fault(row, s, status);
}

#endif

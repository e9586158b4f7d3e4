/*
 * Indices of 64 bits, as numpy, scipy and pandas have them. A call takes them in 32, in memory of their own: one outside 32 bits becomes -1,
 * which is no place of any vector, so that the call itself reports it, in its turn, or skips it as it skips others.
 */
#include "calls.h"

#include <stdlib.h>

static size_t bytes_of(const Given *given, Kind kind) {
    switch (kind) {
    case KIND_FLAGS:
    case KIND_ROOM_FLAGS:
    case KIND_BYTES:
    case KIND_ROOM_BYTES:
    case KIND_TEXT: return given->count;
    case KIND_ROOM_SUMS: return given->count * sizeof(int64_t);
    default: return given->count * (given->wide ? sizeof(int64_t) : sizeof(int32_t));
    }
}

Shared cvl_shared(const Given *a, Kind a_kind, const Given *b, Kind b_kind) {
    const uintptr_t a_at = (uintptr_t)a->at, b_at = (uintptr_t)b->at;
    const size_t a_bytes = bytes_of(a, a_kind), b_bytes = bytes_of(b, b_kind);
    if (b_at >= a_at + a_bytes || a_at >= b_at + b_bytes) return SHARED_NOTHING;
    return a_at == b_at && a_bytes == b_bytes ? SHARED_ALL : SHARED_PART;
}

/* Whether an index shares memory with a room, among the operands or beside them. */
static int meets_a_room(const Frame *frame, const Given *index) {
    const Family *family = frame->row->family;
    for (int k = 0; k < family->count; k++) {
        const Kind kind = family->operands[k].kind;
        if (kind >= KIND_ROOM_INTS && cvl_shared(index, KIND_INDEX, &frame->given[k], kind) != SHARED_NOTHING) return 1;
    }
    return cvl_shared(index, KIND_INDEX, &frame->room, frame->out->kind) != SHARED_NOTHING;
}

/* The index in 32 bits, in memory that the caller frees. */
static CvlStatus narrow(const Given *index, int32_t **narrowed) {
    *narrowed = malloc((index->count == 0 ? 1 : index->count) * sizeof(int32_t));
    if (*narrowed == NULL) return (CvlStatus){CVL_NO_RESOURCES, -1};
    return cvl_narrow_index(index->at, index->count, *narrowed, index->count);
}

CvlStatus cvl_make(Frame *frame) {
    const Family *family = frame->row->family;
    int32_t *narrowed[MOST_OPERANDS] = {NULL};
    const void *wide[MOST_OPERANDS] = {NULL};
    CvlStatus status = {CVL_DONE, -1};
    for (int k = 0; k < family->count && status.number == CVL_DONE; k++) {
        Given *given = &frame->given[k];
        if (!given->wide) continue;
        if (meets_a_room(frame, given)) status = (CvlStatus){CVL_OVERLAP, -1};
        else status = narrow(given, &narrowed[k]);
        wide[k] = given->at;
        if (status.number == CVL_DONE) given->at = narrowed[k];
    }
    if (status.number == CVL_DONE) status = family->make(frame);
    for (int k = 0; k < family->count; k++) {
        if (wide[k] != NULL) frame->given[k].at = (void *)wide[k];
        free(narrowed[k]);
    }
    return status;
}

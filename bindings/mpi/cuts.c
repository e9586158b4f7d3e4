/*
 * Cuts sorted pieces so that each rank gets exactly as many elements as it has room for, whatever the keys are: the key at each boundary is
 * found by halving its range, with the counts of all ranks, and equal keys are shared in the order of the ranks.
 */
#include "shares.h"
#include "sorts.h"

/* The piece of this rank that a boundary cuts, or nothing. */
static const CvlPiece *cut_piece(const CvlSorting *s, int r) {
    for (int p = 0; p < s->pieces; p++) {
        if (s->begins[r].segment >= 0 && s->piece[p].segment == s->begins[r].segment) return &s->piece[p];
    }
    return NULL;
}

/* Of each boundary how many keys of this rank's piece are at most so much. */
static void count_up_to(const CvlSorting *s, const int64_t *most, int64_t less, uint64_t *counts) {
    for (int r = 0; r < s->ranks->size; r++) {
        const CvlPiece *const piece = cut_piece(s, r);
        counts[r] = piece == NULL ? 0 : cvl_up_to(s->keys + piece->at, piece->count, most[r] - less);
    }
}

static void sum(const CvlSorting *s, const uint64_t *own, uint64_t *all) {
    MPI_Allreduce(own, all, s->ranks->size, MPI_UINT64_T, MPI_SUM, s->ranks->comm);
}

/* The least and the greatest key of all pieces. */
static void find_range(const CvlSorting *s, int64_t *least, int64_t *greatest) {
    int64_t own[2] = {INT64_MAX, INT64_MAX}, all[2];
    for (int p = 0; p < s->pieces; p++) {
        const CvlPiece *const piece = &s->piece[p];
        if (piece->count == 0) continue;
        const int64_t first = s->keys[piece->at], last = -(int64_t)s->keys[piece->at + piece->count - 1];
        if (first < own[0]) own[0] = first;
        if (last < own[1]) own[1] = last;
    }
    MPI_Allreduce(own, all, 2, MPI_INT64_T, MPI_MIN, s->ranks->comm);
    *least = all[0];
    *greatest = -all[1] < all[0] ? all[0] : -all[1];
}

/* Halves the range of each boundary's key; whether one has still more than one key. */
static bool halve(CvlSorting *s) {
    const int ranks = s->ranks->size;
    bool more = 0;
    for (int r = 0; r < ranks; r++) s->middle[r] = s->low[r] + (s->high[r] - s->low[r]) / 2;
    count_up_to(s, s->middle, 0, s->own);
    sum(s, s->own, s->all);
    for (int r = 0; r < ranks; r++) {
        if (s->low[r] < s->high[r] && s->all[r] > s->begins[r].before) s->high[r] = s->middle[r];
        else if (s->low[r] < s->high[r]) s->low[r] = s->middle[r] + 1;
        if (s->low[r] < s->high[r]) more = 1;
    }
    return more;
}

void cvl_find_cuts(CvlSorting *s) {
    const int ranks = s->ranks->size;
    int64_t least, greatest;
    find_range(s, &least, &greatest);
    for (int r = 0; r < ranks; r++) s->low[r] = least, s->high[r] = greatest;
    for (bool more = least < greatest; more;) more = halve(s);
    count_up_to(s, s->low, 1, s->cut);
    sum(s, s->cut, s->all);
    count_up_to(s, s->low, 0, s->own);
    for (int r = 0; r < ranks; r++) s->own[r] -= s->cut[r], s->before[r] = 0;
    MPI_Exscan(s->own, s->before, ranks, MPI_UINT64_T, MPI_SUM, s->ranks->comm);
    for (int r = 0; r < ranks; r++)
        s->cut[r] += cvl_ties_taken(s->begins[r].before - s->all[r], s->ranks->rank == 0 ? 0 : s->before[r], s->own[r]);
}

/* The rank in which a segment starts that goes on in others. */
static int start_of(const CvlSorting *s, int64_t segment) {
    int home = 0;
    for (int r = 0; r < s->ranks->size && s->begins[r].segment != segment; r++) {
        if (s->begins[r].starts) home = r;
    }
    return home;
}

void cvl_count_sends(CvlSorting *s) {
    CvlRanks *const ranks = s->ranks;
    memset(ranks->sends, 0, (size_t)ranks->size * sizeof *ranks->sends);
    for (int p = 0; p < s->pieces; p++) {
        int to = start_of(s, s->piece[p].segment);
        uint64_t from = 0;
        for (int r = 0; r < ranks->size; r++) {
            if (s->begins[r].segment != s->piece[p].segment) continue;
            ranks->sends[to] += (int)(s->cut[r] - from);
            from = s->cut[r], to = r;
        }
        ranks->sends[to] += (int)(s->piece[p].count - from);
    }
}

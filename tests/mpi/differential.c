/*
 * Each family and each call over ranks beside the plain one on the whole vector: the same status on each rank, and the same room, cut. Vectors
 * are cut at any places, also with no elements for a rank; segments cross ranks; indices, divisors and sums are at fault now and then, rooms
 * too short, vectors not equally long, operators of no family; and each request for memory is refused on one rank in turn. Most vectors are
 * short, some longer than the blocks that calls work on, and some have more than 2^18 places. Lengths are gone once their descriptor is made, and
 * each call gives back the memory that it takes.
 *
 *     differential SECONDS [SEED [NAME]]
 */
#include <mpi.h>

#include <stdio.h>
#include <stdlib.h>
#include <string.h>

#include "calls.h"
#include "cvl_mpi.h"
#include "random.h"
#include "refused.h"

enum { MOST_RANKS = 16, MOST_PRINTED = 60 };

/* One case in so many has long vectors. */
#ifndef LONG_ONES
#define LONG_ONES 100
#endif

/* A call over ranks, beside that of a row; and whether its room may be cut otherwise than what is read. */
typedef struct Over {
    const char *name;
    bool spreads;
    CvlStatus (*call)(CvlRanks *ranks, const Given *g, CvlRankSegments *const *segments);
} Over;

#define OVER(name, spreads, arguments)                                                                \
    static CvlStatus over_##name(CvlRanks *ranks, const Given *g, CvlRankSegments *const *segments) { \
        return (void)segments, cvl_##name##_mpi arguments;                                            \
    }
#include "rank_rows.h"
#undef OVER
#define OVER(name, spreads, arguments) {"cvl_" #name, spreads, over_##name},
static const Over overs[] = {
#include "rank_rows.h"
};
#undef OVER

enum { OVERS = sizeof overs / sizeof *overs };

static const Row *row_of(const Over *over) {
    size_t k = 0;
    while (k < ROWS && strcmp(rows[k].name, over->name) != 0) k++;
    return k < ROWS ? &rows[k] : NULL;
}

/* ---- numbers at random, the same on each rank ---- */

/* Of a long vector also such that their sums pass 32 bits behind some thousands of them. */
static int32_t number(int style) {
    static const int32_t few[] = {0, 1, -1, 2, 31, 32, 5, INT32_MAX, INT32_MIN, -7};
    if (style == 0) return few[below(sizeof few / sizeof *few)];
    if (style == 1) return (int32_t)below(9) + 1;
    if (style == 3) return (int32_t)below(1 << 19);
    return (int32_t)any() - (int32_t)any();
}

/* ---- a case ---- */

/* How long vectors are: a few elements, some blocks of 4,096, or more than a window of 2^18 places beside short ones. */
typedef enum Style { SHORT, BLOCKS, WINDOWS } Style;

typedef struct Pieces {
    int32_t *lengths;
    size_t count, starts;
    int goes_on;
} Pieces;

/* How long arrays are goes by their extents; a room that may be cut otherwise than what is read has one of its own. */
enum { SPREAD = 30, EXTENTS };

typedef struct Case {
    const Row *row;
    const Over *over;
    int ranks;
    Style style;
    size_t counts[EXTENTS], cut[EXTENTS][MOST_RANKS + 1];
    Given whole;
    void *before[MOST_OPERANDS];              /* what stands in a room that is joined */
    Pieces pieces[MOST_OPERANDS][MOST_RANKS]; /* of lengths, for each rank */
    int shorter, shorter_rank;                /* an operand whose last element is left out, or -1, and the rank that has it */
    int64_t negative;                         /* the segment of which a piece is below 0, or -1 */
} Case;

static int reads(const Row *row, size_t k) { return role_of(row, k) == ROLE_READS; }
static int is_over(const Row *row, size_t k) { return row->operands[k].is_over; }
static int is_cut_by(const Row *row, size_t k) { return role_of(row, k) == ROLE_LENGTHS && row->model != MAKE_DESCRIPTOR; }
static size_t extent_in(const Case *c, size_t k) {
    return c->over->spreads && is_room(c->row, k) ? SPREAD : extent_of(c->row, k);
}

/* The first lengths that add up to an extent, or how many operands there are. */
static size_t lengths_for(const Row *row, Extent extent) {
    size_t k = 0;
    while (k < count_of(row) && (role_of(row, k) != ROLE_LENGTHS || extent_of(row, k) != extent)) k++;
    return k;
}

static void cut_anywhere(Case *c, int extent) {
    size_t *cut = c->cut[extent];
    cut[0] = 0, cut[c->ranks] = c->counts[extent];
    for (int r = 1; r < c->ranks; r++) cut[r] = one_in(4) ? 0 : below(c->counts[extent] + 1);
    for (int r = 1; r < c->ranks; r++) {
        for (int q = r; q > 1 && cut[q] < cut[q - 1]; q--) {
            const size_t kept = cut[q];
            cut[q] = cut[q - 1], cut[q - 1] = kept;
        }
    }
}

/* ---- lengths, and the pieces that ranks have of them ---- */

static size_t trues_of(const uint8_t *flags, size_t from, size_t to) {
    size_t count = 0;
    for (size_t k = from; k < to; k++) count += flags[k] != 0;
    return count;
}

static void make_lengths(Case *c, size_t k, size_t segments) {
    int32_t *lengths = malloc((segments + 1) * sizeof *lengths);
    size_t total = 0;
    const int style = (int)below(3), other = k != lengths_for(c->row, EXTENT_N);
    /* segments of a long vector are many, or so few that they cross blocks and windows */
    const size_t each = c->style == SHORT || segments > 1000 ? 0 : (c->style == BLOCKS ? 20000 : 300000) / (segments + 1);
    for (size_t s = 0; s < segments; s++) {
        lengths[s] = style == 0 ? (int32_t)below(3) : style == 1 ? (one_in(3) ? (int32_t)below(12) : 0) : 1 + (int32_t)below(5);
        lengths[s] += (int32_t)below(2 * each);
        if (other && one_in(2)) lengths[s] += (int32_t)below(4);
        total += (size_t)lengths[s];
    }
    c->whole.at[k] = lengths, c->whole.len[k] = segments;
    c->counts[extent_in(c, k)] = total;
}

static void add_piece(Pieces *p, int32_t length, int goes_on) {
    /* room for twice as many, where there is none for one more */
    if ((p->count & (p->count - 1)) == 0)
        p->lengths = realloc(p->lengths, (p->count == 0 ? 1 : 2 * p->count) * sizeof *p->lengths);
    p->lengths[p->count++] = length;
    if (goes_on) p->goes_on = 1;
    else p->starts++;
}

/* Each rank takes what is left of the segment that is open, and segments that start in its range; empty ones at a cut at random. */
static void make_pieces(Case *c, size_t k) {
    const int32_t *lengths = c->whole.at[k];
    const size_t *cut = c->cut[extent_in(c, k)], segments = c->whole.len[k];
    size_t next = 0;
    int32_t left = 0;
    for (int r = 0; r < c->ranks; r++) {
        Pieces *p = &c->pieces[k][r];
        size_t room = cut[r + 1] - cut[r];
        const int last = r + 1 == c->ranks;
        memset(p, 0, sizeof *p);
        if (next > 0 && ((left > 0 && room > 0) || one_in(3))) {
            const int32_t taken = (size_t)left < room ? left : (int32_t)room;
            add_piece(p, taken, 1);
            left -= taken, room -= (size_t)taken;
        }
        while (next < segments && left == 0 && (room > 0 || last || one_in(2))) {
            const int32_t taken = (size_t)lengths[next] < room ? lengths[next] : (int32_t)room;
            if (lengths[next] > 0 && room == 0 && !one_in(3)) break;
            add_piece(p, taken, 0);
            left = lengths[next++] - taken, room -= (size_t)taken;
        }
    }
}

/* Segments start in the ranks of their first pieces. */
static void cut_segments(Case *c, size_t k) {
    c->cut[EXTENT_SEGMENTS][0] = 0;
    for (int r = 0; r < c->ranks; r++) c->cut[EXTENT_SEGMENTS][r + 1] = c->cut[EXTENT_SEGMENTS][r] + c->pieces[k][r].starts;
}

/* ---- indices ---- */

/* Indices at random, or now and then such that most go on from the one before them. */
static void make_any_indices(int32_t *index, size_t count, size_t places) {
    const int runs = one_in(3);
    for (size_t k = 0; k < count; k++) {
        const int goes_on = runs && k > 0 && !one_in(5) && (size_t)index[k - 1] + 1 < places;
        index[k] = goes_on ? index[k - 1] + 1 : (int32_t)below(places);
    }
}

/* Indices of one segment: into so many places, each once if there may be no two. */
static void make_indices(int32_t *index, size_t count, size_t places, int once) {
    if (once && count <= places) {
        int32_t *all = malloc((places + 1) * sizeof *all);
        for (size_t k = 0; k < places; k++) all[k] = (int32_t)k;
        for (size_t k = 0; k < count; k++) {
            const size_t other = k + below(places - k);
            index[k] = all[other], all[other] = all[k];
        }
        free(all);
    } else {
        make_any_indices(index, count, places);
    }
}

static void plant_faults(int32_t *index, size_t count, size_t places) {
    static const int32_t bad[] = {-1, INT32_MIN, INT32_MAX};
    const size_t faults = one_in(3) ? 1 + below(2) : 0;
    for (size_t f = 0; f < faults && count > 0; f++) {
        const size_t at = below(count), style = below(3);
        if (style == 0) index[at] = (int32_t)places;
        else if (style == 1) index[at] = bad[below(3)];
        else index[at] = index[below(count)];
    }
}

/* Spreads the indices of those places whose flags are true. */
static void only_true(int32_t *index, const uint8_t *flags, size_t from, size_t to, int once) {
    const size_t trues = trues_of(flags, from, to);
    int32_t *own = malloc((trues + 1) * sizeof *own);
    size_t at = 0;
    make_indices(own, trues, trues, once);
    for (size_t k = from; k < to; k++) index[k] = flags[k] ? own[at++] : (int32_t)any();
    free(own);
}

static void fill_index(Case *c, size_t k) {
    const Row *row = c->row;
    const Extent extent = extent_of(row, k);
    const size_t own = lengths_for(row, extent == EXTENT_SEGMENTS ? EXTENT_N : extent);
    const size_t mask = operand_for(row, USE_MASK), all = count_of(row), room = operand(row, ROLE_ROOM);
    const int senders = operand_for(row, USE_INDEX) == 0 || is_over(row, room), columns = use_of(row, k) == USE_COLUMNS;
    const int back = row->model == BACK_PERMUTE || row->model == SEG_BACK_PERMUTE, select = mask < all && !senders;
    const int defaults = row->model == DEFAULT_PERMUTE || row->model == SEG_DEFAULT_PERMUTE;
    const size_t other = back ? lengths_for(row, EXTENT_N) : defaults || senders ? lengths_for(row, EXTENT_M) : own;
    int32_t *index = c->whole.at[k];
    const uint8_t *flags = mask < all ? c->whole.at[mask] : NULL;
    const int once = !senders && !back && extent != EXTENT_SEGMENTS;
    size_t at = 0;
    if (own == all) {
        const size_t places = columns || defaults || senders ? c->counts[EXTENT_M] : c->counts[EXTENT_N];
        if (select) only_true(index, flags, 0, c->whole.len[k], once);
        else make_indices(index, c->whole.len[k], places, once && !columns);
        plant_faults(index, c->whole.len[k], select ? c->counts[EXTENT_TRUES] : places);
        return;
    }
    if (columns) {
        make_indices(index, c->whole.len[k], c->counts[EXTENT_M], 0);
        plant_faults(index, c->whole.len[k], c->counts[EXTENT_M]);
        return;
    }
    for (size_t s = 0; s < c->whole.len[own]; s++) {
        const size_t count = extent == EXTENT_SEGMENTS ? 1 : (size_t)((int32_t *)c->whole.at[own])[s],
                     places = (size_t)((int32_t *)c->whole.at[other])[s];
        if (select) only_true(index, flags, at, at + count, once);
        else make_indices(index + at, count, places, once);
        if (one_in(6)) plant_faults(index + at, count, select ? trues_of(flags, at, at + count) : places);
        at += count;
    }
}

/* The lengths of the two sides of a merge by segments: as many as its flags, or now and then one more in a segment and one less in another. */
static void count_sides(Case *c) {
    const Row *row = c->row;
    const size_t own = lengths_for(row, EXTENT_N), mask = operand_for(row, USE_MASK);
    const size_t sides[] = {lengths_for(row, EXTENT_TRUES), lengths_for(row, EXTENT_FALSES)};
    for (int side = 0; side < 2 && own < count_of(row); side++) {
        const size_t k = sides[side];
        if (k == count_of(row)) continue;
        int32_t *lengths = c->whole.at[k];
        size_t at = 0;
        for (size_t s = 0; s < c->whole.len[own]; s++) {
            const size_t to = at + (size_t)((int32_t *)c->whole.at[own])[s], trues = trues_of(c->whole.at[mask], at, to);
            lengths[s] = (int32_t)(side == 0 ? trues : to - at - trues);
            at = to;
        }
        const size_t more = below(c->whole.len[k]), less = below(c->whole.len[k]);
        if (one_in(5) && c->whole.len[k] > 0 && lengths[less] > 0) lengths[less]--, lengths[more]++;
        for (int r = 0; r < c->ranks; r++) free(c->pieces[k][r].lengths);
        make_pieces(c, k);
    }
}

/* Where slices begin: each within the source, or now and then not, or where it ends. */
static void fill_starts(Case *c, size_t k) {
    const int32_t *lengths = c->whole.at[lengths_for(c->row, EXTENT_TOTAL)];
    const int64_t source = (int64_t)c->counts[EXTENT_N];
    int32_t *starts = c->whole.at[k];
    for (size_t s = 0; s < c->whole.len[k]; s++) {
        const int64_t last = source - lengths[s];
        starts[s] = last < 0 ? (int32_t)below(c->counts[EXTENT_N] + 1) : (int32_t)below((size_t)last + 1);
        if (one_in(30)) starts[s] = one_in(2) ? -1 - (int32_t)below(2) : (int32_t)(last + 1);
    }
}

/* ---- the arrays of the whole ---- */

static void fill(Case *c, size_t k) {
    const Kind kind = kind_of(c->row, k);
    const int style = (int)below(c->style == SHORT ? 3 : 4), unclean = one_in(4), narrows = c->row->model == BYTES_FROM_INTS;
    for (size_t j = 0; j < c->whole.len[k]; j++) {
        if (kind == KIND_INTS) ((int32_t *)c->whole.at[k])[j] = narrows && !one_in(9) ? (int32_t)below(256) : number(style);
        else if (kind == KIND_SUMS)
            ((int64_t *)c->whole.at[k])[j] = below(200) == 0 ? INT64_MAX : number(style) * (style == 2 ? INT64_C(1) << 31 : 1);
        else if (kind == KIND_BYTES) ((uint8_t *)c->whole.at[k])[j] = (uint8_t)below(256);
        else ((uint8_t *)c->whole.at[k])[j] = (uint8_t)(one_in(2) ? 0 : unclean ? 1 + below(255) : 1);
    }
}

static void make_offsets(Case *c, size_t k) {
    int32_t *offsets = malloc((c->counts[EXTENT_SEGMENTS] + 1) * sizeof *offsets);
    offsets[0] = 0;
    for (size_t r = 0; r < c->counts[EXTENT_SEGMENTS]; r++) offsets[r + 1] = offsets[r] + (int32_t)below(4);
    c->counts[EXTENT_N] = (size_t)offsets[c->counts[EXTENT_SEGMENTS]];
    c->whole.at[k] = offsets, c->whole.len[k] = c->counts[EXTENT_SEGMENTS] + 1;
    cut_anywhere(c, EXTENT_SEGMENTS);
    for (int r = 0; r <= c->ranks; r++) c->cut[EXTENT_N][r] = (size_t)offsets[c->cut[EXTENT_SEGMENTS][r]];
}

/* The rows and columns of a matrix, which now and then are none of it. */
static void make_matrix(Case *c) {
    const size_t many = operand_for(c->row, USE_ROW_COUNT), columns = operand_for(c->row, USE_COLUMN_COUNT);
    const size_t most = c->style == SHORT ? 8 : c->style == BLOCKS ? 200 : 600;
    if (many == count_of(c->row)) return;
    c->whole.number[many] = (int64_t)below(most), c->whole.number[columns] = (int64_t)below(most);
    c->counts[EXTENT_N] = (size_t)(c->whole.number[many] * c->whole.number[columns]);
    if (one_in(8)) c->whole.number[many]++;
}

/* How many elements a vector has: also of a long case some vectors have a few. */
static size_t length_of(Style style, size_t few) {
    if (style == SHORT || one_in(3)) return below(few);
    return style == BLOCKS ? 10000 + below(20000) : (1 << 18) + below(1 << 16);
}

static void make_counts(Case *c) {
    const Row *row = c->row;
    const size_t most = one_in(6) ? 40 : 9;
    for (int e = 0; e < EXTENTS; e++) c->counts[e] = length_of(c->style, most);
    if (one_in(3)) c->counts[EXTENT_M] += c->counts[EXTENT_N];
    for (size_t k = 0; k < count_of(row); k++) {
        if (role_of(row, k) == ROLE_LENGTHS) make_lengths(c, k, c->counts[EXTENT_SEGMENTS]);
    }
    if (uses(row, USE_STARTS)) c->counts[EXTENT_N] += 10;
    make_matrix(c);
    c->counts[SPREAD] = c->counts[EXTENT_N], c->counts[EXTENT_BOTH] = c->counts[EXTENT_N] + c->counts[EXTENT_M];
    for (int e = 1; e < EXTENTS; e++) cut_anywhere(c, e);
    for (size_t k = 0; k < count_of(row); k++) {
        if (extent_in(c, k) == EXTENT_OFFSETS) make_offsets(c, k);
        if (is_cut_by(row, k)) make_pieces(c, k), cut_segments(c, k);
    }
}

/* How many elements the ranks keep before each of them, where flags say. */
static void cut_trues(Case *c) {
    const size_t f = operand_for(c->row, USE_MASK);
    if (f == count_of(c->row)) return;
    c->counts[EXTENT_TRUES] = c->counts[EXTENT_ROOM] = trues_of(c->whole.at[f], 0, c->whole.len[f]);
    c->counts[EXTENT_FALSES] = c->whole.len[f] - c->counts[EXTENT_TRUES];
    cut_anywhere(c, EXTENT_TRUES), cut_anywhere(c, EXTENT_FALSES);
    count_sides(c);
    for (int r = 0; r <= c->ranks; r++) c->cut[EXTENT_ROOM][r] = trues_of(c->whole.at[f], 0, c->cut[EXTENT_N][r]);
}

/* ---- runs of equal neighbours ---- */

static int is_of_runs(const Row *row) { return row->model >= RUN_LENGTHS && row->model <= SEG_RUN_COUNTS; }

static int64_t element(const Case *c, size_t k, size_t at) {
    if (kind_of(c->row, k) == KIND_INTS) return ((const int32_t *)c->whole.at[k])[at];
    return ((const uint8_t *)c->whole.at[k])[at] != 0;
}

/* How many runs begin before each rank: one where a segment starts, and one where an element differs from that before it. */
static void cut_runs(Case *c, size_t k) {
    const size_t lengths = lengths_for(c->row, EXTENT_N), n = c->whole.len[k];
    const size_t segments = lengths < count_of(c->row) ? c->whole.len[lengths] : 0;
    size_t segment = 0, start = 0, runs = 0;
    int r = 0;
    for (size_t at = 0; at < n; at++) {
        int begins = at == 0;
        for (; segment < segments && start == at; segment++, begins = 1)
            start += (size_t)((int32_t *)c->whole.at[lengths])[segment];
        for (; c->cut[EXTENT_N][r] == at; r++) c->cut[EXTENT_ROOM][r] = runs;
        runs += (size_t)(begins || element(c, k, at) != element(c, k, at - 1));
    }
    for (; r <= c->ranks; r++) c->cut[EXTENT_ROOM][r] = runs;
    c->counts[EXTENT_ROOM] = runs;
}

/* Has an element as the one before it, so often that runs cross ranks. */
static void make_runs(Case *c, size_t k) {
    const size_t n = c->whole.len[k], size = size_of(kind_of(c->row, k)), mean = one_in(3) ? n + 1 : 1 + below(6);
    char *const at = c->whole.at[k];
    for (size_t j = 1; j < n; j++) {
        if (!one_in(mean)) memcpy(at + j * size, at + (j - 1) * size, size);
    }
    cut_runs(c, k);
}

static void make_number(Case *c, size_t k) {
    const Role role = role_of(c->row, k);
    const Kind kind = kind_of(c->row, k);
    if (role == ROLE_PLACE) c->whole.number[k] = (int64_t)below(c->counts[EXTENT_N] + 1) - one_in(9);
    if (role == ROLE_VALUE && kind != KIND_SIZES) c->whole.number[k] = kind == KIND_INTS ? number(0) : one_in(2);
    if (role == ROLE_COUNT) c->whole.number[k] = (int64_t)c->counts[EXTENT_COUNT];
}

/* An array that is read, or a room that is joined, with what stands in it before. */
static void make_array(Case *c, size_t k) {
    const size_t count = c->counts[extent_in(c, k)], size = size_of(kind_of(c->row, k));
    c->whole.len[k] = count;
    c->whole.at[k] = malloc((count + 1) * size);
    fill(c, k);
    if (use_of(c->row, k) == USE_MASK) cut_trues(c);
    if (is_of_runs(c->row)) make_runs(c, k);
    if (!is_over(c->row, k)) return;
    c->before[k] = malloc((count + 1) * size);
    memcpy(c->before[k], c->whole.at[k], count * size);
}

static void make_arrays(Case *c) {
    const Row *row = c->row;
    for (size_t k = 0; k < count_of(row); k++) {
        make_number(c, k);
        if ((reads(row, k) || is_over(row, k)) && extent_of(row, k) != EXTENT_OFFSETS) make_array(c, k);
    }
    for (size_t k = 0; k < count_of(row); k++) {
        if (use_of(row, k) == USE_STARTS) fill_starts(c, k);
        if (reads(row, k) && (use_of(row, k) == USE_INDEX || use_of(row, k) == USE_COLUMNS)) fill_index(c, k);
    }
    for (size_t k = 0; k < count_of(row); k++) {
        if (is_room(row, k) && !is_over(row, k)) c->whole.len[k] = c->counts[extent_in(c, k)];
        if (is_written(row, k) && !is_room(row, k)) c->whole.len[k] = 1;
        if (c->whole.at[k] != NULL || c->whole.len[k] == 0) continue;
        c->whole.at[k] = malloc((c->whole.len[k] + 1) * size_of(kind_of(row, k)));
        memset(c->whole.at[k], 0x5a, c->whole.len[k] * size_of(kind_of(row, k)));
    }
}

/* Leaves out the last element of an operand now and then, in the rank that has it; or says an operator of another family. */
static void spoil(Case *c) {
    const Row *row = c->row;
    c->shorter = -1;
    if (row->operators != 0 && !row->is_call && one_in(12)) c->whole.op = (uint32_t)below(40);
    if (!one_in(6)) return;
    const size_t k = below(count_of(row)), extent = extent_in(c, k);
    const int is_counted = (reads(row, k) || is_room(row, k)) && extent != EXTENT_OFFSETS &&
        (!row->is_call || extent == EXTENT_ROOM);
    if (!is_counted || c->whole.len[k] == 0) return;
    for (int r = 0; r < c->ranks; r++) {
        if (c->cut[extent][r] < c->cut[extent][r + 1]) c->shorter_rank = r;
    }
    c->shorter = (int)k;
    c->whole.len[k]--;
    if (is_of_runs(row) && reads(row, k)) cut_runs(c, k);
}

/* Makes a piece of a segment less than 0 now and then. */
static void spoil_lengths(Case *c, size_t k) {
    const int rank = (int)below((size_t)c->ranks);
    Pieces *p = &c->pieces[k][rank];
    if (c->negative >= 0 || p->count == 0 || !one_in(10)) return;
    const size_t at = below(p->count);
    size_t first = 0;
    for (int r = 0; r < rank; r++) first += c->pieces[k][r].starts;
    c->negative = (int64_t)(first + at) - (p->goes_on != 0);
    p->lengths[at] = -1 - (int32_t)below(3);
    ((int32_t *)c->whole.at[k])[c->negative] = -1;
}

static Case make_case(const Over *over, int ranks) {
    const Row *row = row_of(over);
    Case c;
    memset(&c, 0, sizeof c);
    c.row = row, c.over = over, c.ranks = ranks, c.negative = -1;
    c.style = !one_in(LONG_ONES) ? SHORT : one_in(4) ? WINDOWS : BLOCKS;
    make_counts(&c);
    make_arrays(&c);
    c.whole.op = operator_from(row, (uint32_t)below(32));
    spoil(&c);
    for (size_t k = 0; k < count_of(row); k++) {
        if (is_cut_by(row, k)) spoil_lengths(&c, k);
        if (row->model == MAKE_DESCRIPTOR && k == 0 && c.whole.len[k] > 0 && one_in(3))
            ((int32_t *)c.whole.at[k])[below(c.whole.len[k])] = -1;
    }
    return c;
}

static void free_case(Case *c) {
    for (size_t k = 0; k < count_of(c->row); k++) {
        free(c->whole.at[k]), free(c->before[k]);
        for (int r = 0; r < c->ranks; r++) free(c->pieces[k][r].lengths);
    }
}

/* ---- a rank's part ---- */

typedef struct Own {
    Given g;
    CvlRankSegments *segments[MOST_OPERANDS];
    size_t from[MOST_OPERANDS]; /* where each array begins in the whole */
} Own;

static void take_array(const Case *c, size_t k, int rank, Own *own) {
    const int by_offsets = extent_of(c->row, k) == EXTENT_OFFSETS, by_segments = by_offsets || role_of(c->row, k) == ROLE_LENGTHS;
    const size_t extent = by_segments ? EXTENT_SEGMENTS : extent_in(c, k), size = size_of(kind_of(c->row, k));
    const size_t from = c->cut[extent][rank], n = c->cut[extent][rank + 1] - from + (size_t)by_offsets;
    own->from[k] = from, own->g.len[k] = n;
    /* an array of no elements may be null */
    if (n == 0 && ((size_t)rank + k) % 2 == 0) return;
    own->g.at[k] = malloc((n + 1) * size);
    int32_t *offsets = own->g.at[k];
    const char *whole = is_over(c->row, k) ? c->before[k] : c->whole.at[k];
    if (is_room(c->row, k) && !is_over(c->row, k)) memset(own->g.at[k], 0x5a, (n + 1) * size);
    else if (n > 0) memcpy(own->g.at[k], whole + from * size, n * size);
    for (size_t r = by_offsets ? n : 0; r-- > 0;) offsets[r] -= offsets[0];
    if (c->shorter == (int)k && c->shorter_rank == rank) own->g.len[k]--;
}

static Own take(const Case *c, int rank) {
    const Row *row = c->row;
    Own own;
    memset(&own, 0, sizeof own);
    own.g.op = c->whole.op;
    for (size_t k = 0; k < count_of(row); k++) {
        const int is_counted = role_of(row, k) == ROLE_COUNT;
        own.g.number[k] = is_counted ? (int64_t)(c->cut[EXTENT_COUNT][rank + 1] - c->cut[EXTENT_COUNT][rank])
                                     : c->whole.number[k];
        if (is_array(row, k) && !is_cut_by(row, k)) take_array(c, k, rank, &own);
        if (is_written(row, k) && !is_room(row, k)) own.g.at[k] = memset(malloc(8), 0x5a, 8);
    }
    return own;
}

static void free_own(Own *own) {
    for (size_t k = 0; k < MOST_OPERANDS; k++) {
        free(own->g.at[k]);
        cvl_rank_segments_free(own->segments[k]);
    }
}

/* ---- what is compared ---- */

static int my_rank;

static int is_as_before(const Case *c, const Own *own, size_t k) {
    const uint8_t *bytes = own->g.at[k];
    const size_t size = size_of(kind_of(c->row, k)), count = is_room(c->row, k) ? own->g.len[k] * size : size;
    if (is_over(c->row, k)) return count == 0 || memcmp(bytes, (const char *)c->before[k] + own->from[k] * size, count) == 0;
    for (size_t j = 0; j < count; j++) {
        if (bytes[j] != 0x5a) return 0;
    }
    return 1;
}

/* Whether a rank's room is its part of the whole's, and a count that of the whole, or how many elements the rank keeps. */
static int is_cut_of(const Case *c, const Own *own, size_t k, int rank) {
    const size_t size = size_of(kind_of(c->row, k));
    if (role_of(c->row, k) == ROLE_TOLD && (uses(c->row, USE_MASK) || is_of_runs(c->row))) {
        size_t sentinel;
        memset(&sentinel, 0x5a, sizeof sentinel);
        if (*(size_t *)c->whole.at[k] == sentinel) return is_as_before(c, own, k);
        return *(size_t *)own->g.at[k] == c->cut[EXTENT_ROOM][rank + 1] - c->cut[EXTENT_ROOM][rank];
    }
    if (!is_room(c->row, k)) return memcmp(own->g.at[k], c->whole.at[k], size) == 0;
    return own->g.len[k] == 0 ||
        memcmp(own->g.at[k], (const char *)c->whole.at[k] + own->from[k] * size, own->g.len[k] * size) == 0;
}

static int is_right(const Case *c, const Own *own, CvlStatus expected, CvlStatus status, int rank) {
    if (status.number != expected.number || status.place != expected.place) return 0;
    for (size_t k = 0; k < count_of(c->row); k++) {
        const int room_at_fault = expected.number != CVL_DONE && is_room(c->row, k);
        if (!is_written(c->row, k)) continue;
        if (room_at_fault ? !is_as_before(c, own, k) : !is_cut_of(c, own, k, rank)) return 0;
    }
    return 1;
}

/* ---- running ---- */

static long cases, long_cases, done, at_fault, refusals, by_number[128];

/* The first elements of an operand. */
static void print_elements(const Row *row, size_t k, const void *at, size_t count) {
    for (size_t j = 0; at != NULL && j < count && j < MOST_PRINTED; j++) {
        fprintf(stderr, " %d", kind_of(row, k) == KIND_INTS ? ((const int32_t *)at)[j] : ((const uint8_t *)at)[j]);
    }
}

static void print_case(const Case *c) {
    for (size_t k = 0; k < count_of(c->row); k++) {
        fprintf(stderr, "  operand %zu (%zu):", k, c->whole.len[k]);
        print_elements(c->row, k, c->whole.at[k], c->whole.len[k]);
        fprintf(stderr, " number %lld; cut", (long long)c->whole.number[k]);
        for (int r = 0; r <= c->ranks; r++) fprintf(stderr, " %zu", c->cut[extent_in(c, k)][r]);
        for (int r = 0; r < c->ranks && role_of(c->row, k) == ROLE_LENGTHS; r++) {
            fprintf(stderr, " |%s", c->pieces[k][r].goes_on ? " .." : "");
            for (size_t p = 0; p < c->pieces[k][r].count && p < MOST_PRINTED; p++)
                fprintf(stderr, " %d", c->pieces[k][r].lengths[p]);
        }
        fprintf(stderr, "\n");
    }
}

static void fail(const Case *c, const Own *own, CvlStatus expected, CvlStatus status, uint64_t seed) {
    fprintf(
        stderr, "rank %d of %d: %s with operator %u answers %u at %lld, not %u at %lld (seed %llu), or has another room:\n",
        my_rank, c->ranks, c->row->name, c->whole.op, status.number, (long long)status.place, expected.number,
        (long long)expected.place, (unsigned long long)seed);
    print_case(c);
    for (size_t k = 0; k < count_of(c->row); k++) {
        if (!is_written(c->row, k)) continue;
        fprintf(stderr, "  own operand %zu:", k);
        print_elements(c->row, k, own->g.at[k], is_room(c->row, k) ? own->g.len[k] : 1);
        fprintf(stderr, "\n");
    }
    fflush(stderr);
    MPI_Abort(MPI_COMM_WORLD, 1);
}

/* Makes the descriptor of pieces whose lengths are gone then. */
static CvlStatus make_descriptor(CvlRanks *ranks, const Pieces *p, CvlRankSegments **made) {
    int32_t *const own = malloc((p->count + 1) * sizeof *own);
    if (p->count > 0) memcpy(own, p->lengths, p->count * sizeof *own);
    const CvlStatus status = cvl_rank_segments_new(ranks, (CvlLengths){own, p->count}, p->goes_on, made);
    for (size_t k = 0; k < p->count; k++) own[k] = 3000000;
    free(own);
    return status;
}

/* Makes the descriptors of a rank's pieces; whether all are made. */
static int make_descriptors(CvlRanks *ranks, const Case *c, int rank, Own *own, CvlStatus *status) {
    for (size_t k = 0; k < count_of(c->row); k++) {
        if (!is_cut_by(c->row, k)) continue;
        *status = make_descriptor(ranks, &c->pieces[k][rank], &own->segments[k]);
        if (status->number != CVL_DONE) return 0;
    }
    return 1;
}

/* Makes the call, which gives back what it takes of memory. */
static CvlStatus make_call(CvlRanks *ranks, const Case *c, const Own *own) {
    const long before = blocks;
    const CvlStatus status = c->over->call(ranks, &own->g, own->segments);
    if (blocks != before) {
        fprintf(
            stderr, "rank %d of %d: %s with operator %u keeps %ld blocks of memory\n", my_rank, c->ranks, c->row->name,
            c->whole.op, blocks - before);
        MPI_Abort(MPI_COMM_WORLD, 1);
    }
    return status;
}

/* Refuses each request for memory of one rank in turn: all ranks tell 100, with the rooms as before, or the fault that comes first. */
static void refuse_all(CvlRanks *ranks, const Case *c, CvlStatus expected, int rank, uint64_t seed) {
    const int unlucky = (int)below((size_t)c->ranks);
    for (long k = 0, more = 1; more && k < 60; k++) {
        Own own = take(c, rank);
        CvlStatus status;
        if (!make_descriptors(ranks, c, rank, &own, &status)) fail(c, &own, expected, status, seed);
        asked = 0, refused = 0, refuse_at = rank == unlucky ? k : -1;
        status = make_call(ranks, c, &own);
        refuse_at = -1;
        int hit = refused, any_hit = 0;
        MPI_Allreduce(&hit, &any_hit, 1, MPI_INT, MPI_MAX, MPI_COMM_WORLD);
        const CvlStatus none = {CVL_NO_RESOURCES, -1};
        const int same = status.number == expected.number && expected.number != CVL_DONE;
        if (any_hit && !same && status.number != CVL_NO_RESOURCES) fail(c, &own, none, status, seed);
        for (size_t j = 0; j < count_of(c->row) && any_hit; j++) {
            if (is_room(c->row, j) && !is_as_before(c, &own, j)) fail(c, &own, none, status, seed);
        }
        refusals += any_hit, more = any_hit;
        free_own(&own);
    }
}

static void try_one(CvlRanks *ranks, const Over *over, int rank, int size, uint64_t seed) {
    state = seed;
    Case c = make_case(over, size);
    const CvlStatus expected = c.row->call(&c.whole);
    Own own = take(&c, rank);
    CvlStatus status;
    cases++, long_cases += c.style != SHORT;
    if (c.negative >= 0) {
        const CvlStatus negative = {CVL_NEGATIVE_LENGTH, c.negative};
        const int made = make_descriptors(ranks, &c, rank, &own, &status);
        if (made || status.number != negative.number || status.place != negative.place) fail(&c, &own, negative, status, seed);
        by_number[CVL_NEGATIVE_LENGTH]++, at_fault++;
        free_own(&own), free_case(&c);
        return;
    }
    if (!make_descriptors(ranks, &c, rank, &own, &status)) fail(&c, &own, expected, status, seed);
    status = make_call(ranks, &c, &own);
    if (!is_right(&c, &own, expected, status, rank)) fail(&c, &own, expected, status, seed);
    if (expected.number == CVL_DONE) done++;
    else at_fault++;
    if (expected.number < 128) by_number[expected.number]++;
    free_own(&own);
    if (one_in(c.style == SHORT ? 8 : 30)) refuse_all(ranks, &c, expected, rank, seed);
    free_case(&c);
}

int main(int words, char **word) {
    CvlRanks *ranks;
    int size, more = 1;
    MPI_Init(&words, &word);
    MPI_Comm_rank(MPI_COMM_WORLD, &my_rank);
    MPI_Comm_size(MPI_COMM_WORLD, &size);
    if (cvl_ranks_new(MPI_COMM_WORLD, &ranks).number != CVL_DONE) MPI_Abort(MPI_COMM_WORLD, 2);
    const double seconds = words > 1 ? atof(word[1]) : 1, from = MPI_Wtime();
    uint64_t seed = words > 2 ? strtoull(word[2], NULL, 10) : 1;
    const char *only = words > 3 ? word[3] : NULL;
    while (more) {
        for (size_t k = 0; k < OVERS; k++) {
            if (only == NULL || strcmp(only, overs[k].name) == 0) try_one(ranks, &overs[k], my_rank, size, seed++);
        }
        more = MPI_Wtime() - from < seconds;
        MPI_Bcast(&more, 1, MPI_INT, 0, MPI_COMM_WORLD);
    }
    if (my_rank == 0) {
        printf(
            "%d ranks: %ld cases of %zu calls, %ld of them long, %ld done, %ld at fault, %ld refusals;", size, cases,
            (size_t)OVERS, long_cases, done, at_fault, refusals);
        for (int k = 1; k < 128; k++) {
            if (by_number[k]) printf(" %d: %ld", k, by_number[k]);
        }
        printf("\n");
    }
    cvl_ranks_free(ranks);
    MPI_Finalize();
    return 0;
}

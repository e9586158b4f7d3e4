/*
 * Nested texts over ranks beside the plain calls on the whole text: read where the text is cut at any white space, with words and brackets
 * where none may stand, rooms that are too short, and each request for memory refused on one rank in turn; and written of vectors whose segments
 * are cut anywhere.
 *
 *     nests SECONDS [SEED]
 */
#include <mpi.h>

#include <stdio.h>
#include <stdlib.h>
#include <string.h>

#include "cvl_mpi.h"
#include "random.h"
#include "refused.h"

enum { MOST_RANKS = 16, MOST = 4096 };

static CvlRanks *ranks;
static int rank, size;

/* ---- the whole ---- */

static char text[MOST];
static size_t text_len;

static void put(const char *word) {
    const size_t length = strlen(word);
    if (text_len + length > MOST - 64) return;
    memcpy(text + text_len, word, length);
    text_len += length;
}

/* White space, which may be left out beside a bracket. */
static void put_white(int needed) {
    static const char *const white[] = {" ", "\n", "\t", "  ", "\r\n"};
    if (needed || one_in(2)) put(white[below(5)]);
}

static void put_number(void) {
    static const char *const numbers[] = {"0", "-7", "2147483647", "-2147483648", "31", "007", "-0"};
    put(numbers[below(7)]);
}

/* A word or a bracket that may stand where none may. */
static void put_fault(void) {
    static const char *const faults[] = {"[", "]", "12", "x", "2147483648", "-", "1-", "+1", "[]", "]["};
    put_white(1), put(faults[below(10)]), put_white(1);
}

static void make_text(void) {
    const size_t lists = below(6), spoilt = one_in(2) ? 20 : 100000;
    text_len = 0;
    put_white(0), put("["), put_white(0);
    for (size_t s = 0; s < lists; s++) {
        const size_t n = below(one_in(5) ? 12 : 4);
        put("["), put_white(0);
        for (size_t k = 0; k < n; k++) {
            put_number(), put_white(k + 1 < n);
            if (one_in(spoilt)) put_fault();
        }
        put("]"), put_white(0);
        if (one_in(spoilt)) put_fault();
    }
    if (!one_in(8)) put("]");
    put_white(0);
    if (one_in(12)) put_fault();
}

static int is_white(char byte) { return byte == ' ' || byte == '\n' || byte == '\t' || byte == '\r'; }

/* Ascending places, each behind white space, at the beginning or at the end. */
static void cut_text(size_t *cut) {
    cut[0] = 0, cut[size] = text_len;
    for (int r = 1; r < size; r++) {
        size_t at = one_in(5) ? 0 : below(text_len + 1);
        while (at > 0 && at < text_len && !is_white(text[at - 1])) at++;
        cut[r] = at;
        for (int q = r; q > 1 && cut[q] < cut[q - 1]; q--) {
            const size_t kept = cut[q];
            cut[q] = cut[q - 1], cut[q - 1] = kept;
        }
    }
}

/* ---- what is compared ---- */

static void fail(const char *what, CvlStatus status, CvlStatus expected) {
    fprintf(
        stderr, "rank %d of %d: %s: %u at %lld, not %u at %lld: %.*s\n", rank, size, what, status.number, (long long)status.place,
        expected.number, (long long)expected.place, (int)text_len, text);
    MPI_Abort(MPI_COMM_WORLD, 1);
}

static int is(CvlStatus a, CvlStatus b) { return a.number == b.number && a.place == b.place; }

/* What the ranks have, one after another, on each of them; of how many elements. */
static size_t gathered(const void *own, size_t count, size_t bytes, void *whole) {
    int counts[MOST_RANKS], from[MOST_RANKS], all = 0, mine = (int)(count * bytes);
    MPI_Allgather(&mine, 1, MPI_INT, counts, 1, MPI_INT, MPI_COMM_WORLD);
    for (int r = 0; r < size; r++) from[r] = all, all += counts[r];
    MPI_Allgatherv(own, mine, MPI_BYTE, whole, counts, from, MPI_BYTE, MPI_COMM_WORLD);
    return (size_t)all / bytes;
}

static long read_done, read_at_fault, written, refusals;

/* ---- reading ---- */

typedef struct Read {
    int32_t numbers[MOST], lengths[MOST];
    size_t count, pieces;
    bool goes_on;
    CvlStatus status;
} Read;

static void read_own(const size_t *cut, size_t room, size_t lengths_room, Read *got) {
    memset(got->numbers, 0x5a, sizeof got->numbers), memset(got->lengths, 0x5a, sizeof got->lengths);
    got->count = got->pieces = 77, got->goes_on = 0;
    asked = 0, refused = 0;
    const long before = blocks;
    const size_t length = cut[rank + 1] - cut[rank];
    char *own = malloc(length + 1);
    memcpy(own, text + cut[rank], length);
    got->status = cvl_seg_read_ints_mpi(
        ranks, own, length, got->numbers, room, &got->count, got->lengths, lengths_room, &got->pieces, &got->goes_on);
    free(own);
    if (blocks != before) fail("memory is kept", got->status, got->status);
}

static int is_untouched(const Read *got) {
    for (size_t k = 0; k < MOST; k++) {
        if (got->numbers[k] != 0x5a5a5a5a || got->lengths[k] != 0x5a5a5a5a) return 0;
    }
    return 1;
}

/* The lengths of the whole's lists from the pieces of the ranks. */
static size_t joined_lengths(const Read *got, int32_t *lengths) {
    static int32_t pieces[MOST * MOST_RANKS];
    int32_t own[MOST];
    size_t lists = 0;
    for (size_t p = 0; p < got->pieces; p++) own[p] = got->lengths[p] * 2 + (p == 0 && got->goes_on);
    const size_t all = gathered(own, got->pieces, sizeof *own, pieces);
    for (size_t p = 0; p < all; p++) {
        if (pieces[p] & 1) lengths[lists - 1] += pieces[p] / 2;
        else lengths[lists++] = pieces[p] / 2;
    }
    return lists;
}

static void try_read(void) {
    static int32_t numbers[MOST], lengths[MOST], all[MOST], found[MOST];
    static Read got;
    size_t cut[MOST_RANKS + 1], count = 0, lists = 0;
    make_text(), cut_text(cut);
    const CvlStatus expected = cvl_seg_read_ints(text, text_len, numbers, MOST, &count, lengths, MOST, &lists);
    read_own(cut, MOST, MOST, &got);
    if (!is(got.status, expected)) fail("read", got.status, expected);
    if (expected.number != CVL_DONE) {
        read_at_fault++;
        if (!is_untouched(&got) || got.count != 77 || got.pieces != 77) fail("a room after a fault", got.status, expected);
    } else {
        read_done++;
        if (gathered(got.numbers, got.count, sizeof *all, all) != count || memcmp(all, numbers, count * sizeof *all) != 0)
            fail("numbers", got.status, expected);
        if (joined_lengths(&got, found) != lists || memcmp(found, lengths, lists * sizeof *found) != 0)
            fail("lengths", got.status, expected);
        const int unlucky = (int)below((size_t)size), of_lengths = one_in(2);
        const Read kept = got;
        const size_t needed = of_lengths ? kept.pieces : kept.count;
        int can_be_short = rank == unlucky && needed > 0, any_short = 0;
        MPI_Allreduce(&can_be_short, &any_short, 1, MPI_INT, MPI_MAX, MPI_COMM_WORLD);
        read_own(cut, can_be_short && !of_lengths ? needed - 1 : MOST, can_be_short && of_lengths ? needed - 1 : MOST, &got);
        const CvlStatus too_short = {any_short ? CVL_LENGTH_MISMATCH : CVL_DONE, -1};
        if (!is(got.status, too_short) || (any_short && !is_untouched(&got)) || got.count != kept.count ||
            got.pieces != kept.pieces) {
            fail("a room that is too short", got.status, too_short);
        }
    }
    const int unlucky = (int)below((size_t)size);
    for (long k = 0, more = one_in(6); more && k < 20; k++) {
        const CvlStatus none = {CVL_NO_RESOURCES, -1};
        /* the first request is this program's own, for the rank's part of the text */
        refuse_at = rank == unlucky ? k + 1 : -1;
        read_own(cut, MOST, MOST, &got);
        refuse_at = -1;
        int any_hit = 0;
        MPI_Allreduce(&refused, &any_hit, 1, MPI_INT, MPI_MAX, MPI_COMM_WORLD);
        if (any_hit && (!is(got.status, none) || !is_untouched(&got))) fail("no memory", got.status, none);
        refusals += any_hit, more = any_hit;
    }
}

/* ---- writing ---- */

/* Segments cut anywhere: the pieces of this rank. */
typedef struct Pieces {
    int32_t lengths[MOST];
    size_t count, from, elements;
    int goes_on;
} Pieces;

static void add(Pieces *p, int32_t length, int goes_on) {
    p->lengths[p->count++] = length;
    if (goes_on) p->goes_on = 1;
}

static void make_pieces(const int32_t *lengths, size_t segments, const size_t *cut, Pieces *own) {
    static Pieces all[MOST_RANKS];
    size_t next = 0;
    int32_t left = 0;
    memset(all, 0, sizeof all);
    for (int r = 0; r < size; r++) {
        Pieces *p = &all[r];
        size_t room = cut[r + 1] - cut[r];
        p->from = cut[r], p->elements = room;
        if (next > 0 && ((left > 0 && room > 0) || one_in(3))) {
            const int32_t taken = (size_t)left < room ? left : (int32_t)room;
            add(p, taken, 1);
            left -= taken, room -= (size_t)taken;
        }
        while (next < segments && left == 0 && (room > 0 || r + 1 == size || one_in(2))) {
            const int32_t taken = (size_t)lengths[next] < room ? lengths[next] : (int32_t)room;
            if (lengths[next] > 0 && room == 0 && !one_in(3)) break;
            add(p, taken, 0);
            left = lengths[next++] - taken, room -= (size_t)taken;
        }
    }
    *own = all[rank];
}

static CvlStatus write_own(
    const Pieces *own, const int32_t *a, const bool *flags, const CvlRankSegments *segments, char *room, size_t room_len,
    size_t *count) {
    asked = 0, refused = 0;
    const long before = blocks;
    const CvlStatus status = flags != NULL
        ? cvl_seg_write_bools_mpi(ranks, flags + own->from, own->elements, segments, room, room_len, count)
        : cvl_seg_write_ints_mpi(ranks, a + own->from, own->elements, segments, room, room_len, count);
    if (blocks != before) fail("memory is kept", status, status);
    return status;
}

static void try_write(void) {
    static int32_t lengths[64], a[MOST];
    static bool marks[MOST];
    static char whole[MOST], own_text[MOST], kept_text[MOST], all[MOST];
    static Pieces own;
    size_t cut[MOST_RANKS + 1], total = 0, count = 0, own_count = 0;
    const size_t segments = below(7);
    CvlRankSegments *held = NULL;
    for (size_t s = 0; s < segments; s++) total += (size_t)(lengths[s] = (int32_t)below(one_in(4) ? 9 : 3));
    for (size_t k = 0; k < total; k++) a[k] = (int32_t)any(), marks[k] = one_in(2);
    for (int r = 0; r <= size; r++) cut[r] = r == 0 ? 0 : r == size ? total : below(total + 1);
    for (int r = 1; r < size; r++) {
        for (int q = r; q > 1 && cut[q] < cut[q - 1]; q--) {
            const size_t kept = cut[q];
            cut[q] = cut[q - 1], cut[q - 1] = kept;
        }
    }
    make_pieces(lengths, segments, cut, &own);
    const CvlLengths pieces = {own.lengths, own.count}, of_whole = {lengths, segments};
    const bool *const flags = one_in(3) ? marks : NULL;
    const CvlStatus done = {CVL_DONE, -1};
    CvlStatus status = cvl_rank_segments_new(ranks, pieces, own.goes_on != 0, &held);
    if (!is(status, done)) fail("a descriptor", status, done);
    /* which has its own lengths */
    for (size_t p = 0; p < own.count; p++) own.lengths[p] = 3000000;
    status = flags ? cvl_seg_write_bools(marks, total, of_whole, whole, MOST, &count)
                   : cvl_seg_write_ints(a, total, of_whole, whole, MOST, &count);
    if (!is(status, done)) fail("the whole", status, done);
    status = write_own(&own, a, flags, held, own_text, MOST, &own_count);
    if (!is(status, done)) fail("write", status, done);
    text_len = count;
    memcpy(text, whole, count);
    if (gathered(own_text, own_count, 1, all) != count || memcmp(all, whole, count) != 0) fail("another text", status, done);
    int can_be_short = rank == size - 1 && own_count > 0;
    const size_t needed = own_count;
    memcpy(kept_text, own_text, needed);
    memset(own_text, 0x5a, sizeof own_text);
    MPI_Bcast(&can_be_short, 1, MPI_INT, size - 1, MPI_COMM_WORLD);
    const CvlStatus too_short = {can_be_short ? CVL_LENGTH_MISMATCH : CVL_DONE, -1};
    status = write_own(&own, a, flags, held, own_text, rank == size - 1 && can_be_short ? needed - 1 : MOST, &own_count);
    if (!is(status, too_short) || own_count != needed || (can_be_short && own_text[0] != 0x5a))
        fail("a room that is too short", status, too_short);
    const int unlucky = (int)below((size_t)size);
    for (long k = 0, more = one_in(6); more && k < 20; k++) {
        const CvlStatus none = {CVL_NO_RESOURCES, -1};
        memset(own_text, 0x5a, sizeof own_text);
        refuse_at = rank == unlucky ? k : -1;
        status = write_own(&own, a, flags, held, own_text, MOST, &own_count);
        refuse_at = -1;
        int any_hit = 0;
        MPI_Allreduce(&refused, &any_hit, 1, MPI_INT, MPI_MAX, MPI_COMM_WORLD);
        /* a text for which less memory does is written */
        const int is_written = is(status, done) && own_count == needed && memcmp(own_text, kept_text, needed) == 0;
        if (any_hit && !is_written && (!is(status, none) || own_text[0] != 0x5a)) fail("no memory to write", status, none);
        refusals += any_hit, more = any_hit;
    }
    cvl_rank_segments_free(held);
    written++;
}

int main(int words, char **word) {
    int more = 1;
    MPI_Init(&words, &word);
    MPI_Comm_rank(MPI_COMM_WORLD, &rank);
    MPI_Comm_size(MPI_COMM_WORLD, &size);
    if (cvl_ranks_new(MPI_COMM_WORLD, &ranks).number != CVL_DONE) MPI_Abort(MPI_COMM_WORLD, 2);
    const double seconds = words > 1 ? atof(word[1]) : 1, from = MPI_Wtime();
    uint64_t seed = words > 2 ? strtoull(word[2], NULL, 10) : 1;
    while (more) {
        for (int k = 0; k < 50; k++) {
            state = seed++;
            try_read();
            try_write();
        }
        more = MPI_Wtime() - from < seconds;
        MPI_Bcast(&more, 1, MPI_INT, 0, MPI_COMM_WORLD);
    }
    if (rank == 0)
        printf(
            "%d ranks: %ld nested texts read, %ld at fault, %ld written, %ld refusals\n", size, read_done, read_at_fault, written,
            refusals);
    cvl_ranks_free(ranks);
    MPI_Finalize();
    return 0;
}

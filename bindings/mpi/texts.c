/* Texts over ranks: a file that is read by all, cut at white space, and written by all; and the integers and booleans of such texts. */
#include "shares.h"
#include "texts.h"

enum { CVL_CHUNK = 1 << 12, CVL_MOST_READ = 1 << 30 };

/* What each call, or its room, adds to the number of calls on texts. */
enum { READ = 1, READ_ROOM, WRITE_INTS, WRITE_BOOLS, READ_FILE, WRITE_FILE };

/* ---- the integers of a text ---- */

static size_t words_in(const char *text, size_t text_len) {
    size_t words = 0;
    bool between = 1;
    for (size_t k = 0; k < text_len; k++) {
        const bool white = cvl_is_white(text[k]);
        words += between && !white;
        between = white;
    }
    return words;
}

/* Agrees on a status whose place, if there is one, is that in the whole. */
static CvlStatus agree(CvlRanks *ranks, CvlStatus status, uint32_t call, bool *short_room) {
    uint64_t none;
    return cvl_agreed(ranks, status, CVL_CALL_TEXT + call, 0, UINT64_MAX, short_room, &none);
}

CvlStatus cvl_read_ints_mpi(CvlRanks *ranks, const char *text, size_t text_len, int32_t *out, size_t out_len, size_t *count) {
    bool short_room = 0;
    size_t read;
    uint64_t all;
    if (!cvl_are_ranks(ranks)) return cvl_status(CVL_NO_DESCRIPTOR, -1);
    if (!cvl_is_one_call(ranks, CVL_CALL_TEXT + READ)) return cvl_status(CVL_UNKNOWN_CALL, -1);
    const size_t words = words_in(text, text_len);
    int32_t *const aside = malloc((words + 1) * sizeof *aside);
    CvlStatus status = aside == NULL ? cvl_status(CVL_NO_RESOURCES, -1) : cvl_read_ints(text, text_len, aside, words, &read);
    if (cvl_meet(text, text_len, 1, out, out_len, sizeof *out)) status = cvl_overlap();
    status = cvl_agreed(ranks, status, CVL_CALL_TEXT + READ, words, CVL_MOST_ELEMENTS, &short_room, &all);
    if (status.number == CVL_DONE) {
        /* the room is compared last, since only the text says how long the result is */
        short_room = words > out_len;
        status = agree(ranks, short_room ? cvl_status(CVL_LENGTH_MISMATCH, -1) : cvl_done(), READ_ROOM, &short_room);
        *count = words;
        if (status.number == CVL_DONE && words > 0) memcpy(out, aside, words * sizeof *out);
    }
    free(aside);
    return status;
}

/* ---- the text of a vector ---- */

size_t cvl_length_of(const CvlWritten *w) { return w->length - 2 - w->front - w->back + w->first + w->last + w->follows; }

void cvl_put_text(const CvlWritten *w, char *text) {
    const size_t inner = w->length - 2 - w->front - w->back;
    if (w->first) *text++ = '[';
    if (w->follows) *text++ = ' ';
    if (inner > 0) memcpy(text, w->whole + 1 + w->front, inner);
    text += inner;
    if (w->last) *text = ']';
}

/* The rank's own elements as a text: of integers or of booleans. */
static CvlStatus write_own(const void *a, size_t a_len, bool are_bools, CvlWritten *w) {
    CvlStatus status = are_bools ? cvl_write_bools(a, a_len, NULL, 0, &w->length) : cvl_write_ints(a, a_len, NULL, 0, &w->length);
    if (status.number != CVL_LENGTH_MISMATCH) return status;
    w->whole = malloc(w->length);
    if (w->whole == NULL) return cvl_status(CVL_NO_RESOURCES, -1);
    return are_bools ? cvl_write_bools(a, a_len, w->whole, w->length, &w->length)
                     : cvl_write_ints(a, a_len, w->whole, w->length, &w->length);
}

static CvlStatus write_text(
    CvlRanks *ranks, const void *a, size_t a_len, bool are_bools, char *text, size_t text_len, size_t *count) {
    CvlWritten w = {NULL, 2, 0, 0, 0, 0, 0};
    const uint32_t call = are_bools ? WRITE_BOOLS : WRITE_INTS;
    bool short_room = 0;
    if (!cvl_are_ranks(ranks)) return cvl_status(CVL_NO_DESCRIPTOR, -1);
    if (!cvl_is_one_call(ranks, CVL_CALL_TEXT + call)) return cvl_status(CVL_UNKNOWN_CALL, -1);
    CvlStatus status = cvl_meet(a, a_len, are_bools ? 1 : sizeof(int32_t), text, text_len, 1)
        ? cvl_overlap()
        : write_own(a, a_len, are_bools, &w);
    const int64_t before = cvl_before(ranks, cvl_fold(CVL_JOIN_COUNTS, 0, 0, (int64_t)a_len, 0)).low;
    w.first = ranks->rank == 0, w.last = ranks->rank + 1 == ranks->size, w.follows = before > 0 && a_len > 0;
    if (status.number == CVL_DONE && cvl_length_of(&w) > text_len) {
        status = cvl_status(CVL_LENGTH_MISMATCH, -1);
        short_room = 1;
    }
    status = agree(ranks, status, call, &short_room);
    if (status.number == CVL_DONE || short_room) *count = cvl_length_of(&w);
    if (status.number == CVL_DONE) cvl_put_text(&w, text);
    free(w.whole);
    return status;
}

CvlStatus cvl_write_ints_mpi(CvlRanks *ranks, const int32_t *a, size_t a_len, char *out, size_t out_len, size_t *count) {
    return write_text(ranks, a, a_len, 0, out, out_len, count);
}

CvlStatus cvl_write_bools_mpi(CvlRanks *ranks, const bool *a, size_t a_len, char *out, size_t out_len, size_t *count) {
    return write_text(ranks, a, a_len, 1, out, out_len, count);
}

/* ---- files ---- */

static bool read_at(MPI_File file, uint64_t from, char *bytes, size_t count) {
    for (size_t at = 0; at < count;) {
        const int some = count - at < CVL_MOST_READ ? (int)(count - at) : CVL_MOST_READ;
        MPI_Status status;
        int got = 0;
        if (MPI_File_read_at(file, (MPI_Offset)(from + at), bytes + at, some, MPI_CHAR, &status) != MPI_SUCCESS) return 0;
        MPI_Get_count(&status, MPI_CHAR, &got);
        if (got <= 0) return 0;
        at += (size_t)got;
    }
    return 1;
}

/* The first place behind white space, from another place on, or the end: neighbours find the same one. */
static bool find_cut(MPI_File file, uint64_t size, uint64_t *place) {
    char chunk[CVL_CHUNK];
    if (*place == 0 || *place >= size) return 1;
    for (uint64_t from = *place - 1; from < size; from += CVL_CHUNK) {
        const size_t count = size - from < CVL_CHUNK ? (size_t)(size - from) : CVL_CHUNK;
        if (!read_at(file, from, chunk, count)) return 0;
        for (size_t k = 0; k < count; k++) {
            if (!cvl_is_white(chunk[k])) continue;
            *place = from + k + 1;
            return 1;
        }
    }
    *place = size;
    return 1;
}

static CvlStatus read_share(const CvlRanks *ranks, MPI_File file, char **text, size_t *text_len) {
    const uint64_t rank = (uint64_t)ranks->rank, all = (uint64_t)ranks->size;
    MPI_Offset bytes = 0;
    if (MPI_File_get_size(file, &bytes) != MPI_SUCCESS) return cvl_status(CVL_BAD_INPUT, -1);
    const uint64_t size = (uint64_t)bytes;
    uint64_t from = cvl_even_start(size, all, rank), to = cvl_even_start(size, all, rank + 1);
    if (!find_cut(file, size, &from) || !find_cut(file, size, &to)) return cvl_status(CVL_BAD_INPUT, -1);
    *text_len = (size_t)(to - from);
    *text = malloc(*text_len + 1);
    if (*text == NULL) return cvl_status(CVL_NO_RESOURCES, -1);
    return read_at(file, from, *text, *text_len) ? cvl_done() : cvl_status(CVL_BAD_INPUT, -1);
}

CvlStatus cvl_rank_text_read(CvlRanks *ranks, const char *path, char **text, size_t *text_len) {
    MPI_File file;
    char *own = NULL;
    size_t own_len = 0;
    bool none = 0;
    *text = NULL;
    if (!cvl_are_ranks(ranks)) return cvl_status(CVL_NO_DESCRIPTOR, -1);
    if (!cvl_is_one_call(ranks, CVL_CALL_TEXT + READ_FILE)) return cvl_status(CVL_UNKNOWN_CALL, -1);
    const bool opened = MPI_File_open(ranks->comm, path, MPI_MODE_RDONLY, MPI_INFO_NULL, &file) == MPI_SUCCESS;
    CvlStatus status = opened ? read_share(ranks, file, &own, &own_len) : cvl_status(CVL_BAD_INPUT, -1);
    if (opened) MPI_File_close(&file);
    status = agree(ranks, status, READ_FILE, &none);
    if (status.number == CVL_DONE) *text = own, *text_len = own_len;
    else free(own);
    return status;
}

void cvl_rank_text_free(char *text) { free(text); }

static bool write_at(MPI_File file, uint64_t from, const char *bytes, size_t count) {
    for (size_t at = 0; at < count;) {
        const int some = count - at < CVL_MOST_READ ? (int)(count - at) : CVL_MOST_READ;
        if (MPI_File_write_at(file, (MPI_Offset)(from + at), bytes + at, some, MPI_CHAR, MPI_STATUS_IGNORE) != MPI_SUCCESS)
            return 0;
        at += (size_t)some;
    }
    return 1;
}

CvlStatus cvl_rank_text_write(CvlRanks *ranks, const char *path, const char *text, size_t text_len) {
    MPI_File file;
    bool none = 0;
    if (!cvl_are_ranks(ranks)) return cvl_status(CVL_NO_DESCRIPTOR, -1);
    if (!cvl_is_one_call(ranks, CVL_CALL_TEXT + WRITE_FILE)) return cvl_status(CVL_UNKNOWN_CALL, -1);
    const uint64_t from = (uint64_t)cvl_before(ranks, cvl_fold(CVL_JOIN_COUNTS, 0, 0, (int64_t)text_len, 0)).low;
    const uint64_t all = (uint64_t)cvl_all(ranks, cvl_fold(CVL_JOIN_COUNTS, 0, 0, (int64_t)text_len, 0)).low;
    bool done = MPI_File_open(ranks->comm, path, MPI_MODE_WRONLY | MPI_MODE_CREATE, MPI_INFO_NULL, &file) == MPI_SUCCESS;
    if (done) {
        done = MPI_File_set_size(file, (MPI_Offset)all) == MPI_SUCCESS && write_at(file, from, text, text_len);
        done = MPI_File_close(&file) == MPI_SUCCESS && done;
    }
    return agree(ranks, done ? cvl_done() : cvl_status(CVL_BAD_INPUT, -1), WRITE_FILE, &none);
}

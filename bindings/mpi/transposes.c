/*
 * Transposes over ranks: from the places alone each rank knows what goes where, so only elements move, each once. Senders and receivers
 * walk the result in the order of its places.
 */
#include "ranks.h"
#include "shares.h"

typedef struct Matrix {
    uint64_t rows, columns;
    uint64_t from, to; /* this rank's part of the source, or of the result */
} Matrix;

/* The elements of a column that stand in this rank's part of the source: from one row to another. */
static void rows_here(const Matrix *m, uint64_t column, uint64_t *first, uint64_t *last) {
    *first = m->from <= column ? 0 : (m->from - column + m->columns - 1) / m->columns;
    *last = m->to <= column ? 0 : (m->to - column + m->columns - 1) / m->columns;
}

/* ---- what is sent: by columns, the rank of each element's place in the result. ranks->offsets are the result's. ---- */

static void count_sent(CvlRanks *ranks, const Matrix *m) {
    int owner = 0;
    memset(ranks->sends, 0, (size_t)ranks->size * sizeof *ranks->sends);
    for (uint64_t column = 0; column < m->columns && m->from < m->to; column++) {
        uint64_t row, last;
        rows_here(m, column, &row, &last);
        while (row < last) {
            const uint64_t place = column * m->rows + row, end = ranks->offsets[owner + 1];
            const uint64_t count = place >= end ? 0 : last - row < end - place ? last - row : end - place;
            ranks->sends[owner] += (int)count, row += count;
            if (row < last) owner++;
        }
    }
}

/* Where this rank's part of the source begins, and behind how many elements of its first row; and how many rows on it ends, and behind how many of
 * the last one. */
typedef struct Part {
    const Matrix *matrix;
    uint64_t first, before, rows, after;
} Part;

/* Where an element stands in the order of the result: behind those of the columns before and of the rows before in its own. */
static uint64_t sent_at(const Part *part, uint64_t row, uint64_t column) {
    const uint64_t more = column < part->after ? column : part->after, less = column < part->before ? column : part->before;
    return column * part->rows + more - less + row - part->first - (column < part->before);
}

/* A tile of the matrix. A cache holds it with what it turns into, so that each line of memory is read once, and written once. */
enum { TILE_ROWS = 64, TILE_COLUMNS = 16 };
typedef struct Tile {
    uint64_t row, rows, column, columns;
} Tile;

/* Defines a function that puts a tile into the order of the result. Loops of a known length take half of the time of others. */
#define PUT_TILE(name, type, tile_rows, tile_columns)                                            \
    static void name(const Part *part, const Tile *t, const type *source, type *sent) {          \
        type turned[TILE_COLUMNS][TILE_ROWS];                                                    \
        const uint64_t rows = tile_rows, columns = tile_columns, stride = part->matrix->columns; \
        const type *from = source + (t->row * stride + t->column - part->matrix->from);          \
        for (uint64_t r = 0; r < rows; r++, from += stride)                                      \
            for (uint64_t c = 0; c < columns; c++) turned[c][r] = from[c];                       \
        for (uint64_t c = 0; c < columns; c++)                                                   \
            memcpy(sent + sent_at(part, t->row, t->column + c), turned[c], rows * sizeof(type)); \
    }
PUT_TILE(put_whole_tile, int32_t, TILE_ROWS, TILE_COLUMNS)
PUT_TILE(put_ints, int32_t, t->rows, t->columns)
PUT_TILE(put_bytes, uint8_t, t->rows, t->columns)

/* Puts the elements of the tile's rows from its column on up to another one. */
static void put_rows(const Part *part, Tile t, uint64_t to, const void *source, void *sent, size_t size) {
    for (; t.column < to; t.column += t.columns) {
        t.columns = to - t.column < TILE_COLUMNS ? to - t.column : TILE_COLUMNS;
        if (size == sizeof(bool)) put_bytes(part, &t, source, sent);
        else if (t.rows == TILE_ROWS && t.columns == TILE_COLUMNS) put_whole_tile(part, &t, source, sent);
        else put_ints(part, &t, source, sent);
    }
}

/* Whole rows go together, and what a rank has of others alone. */
static void fill(const Matrix *m, const void *source, void *sent, size_t size) {
    if (m->from == m->to) return;
    const uint64_t first = m->from / m->columns;
    const Part part = {m, first, m->from % m->columns, m->to / m->columns - first, m->to % m->columns};
    for (uint64_t place = m->from; place < m->to;) {
        const uint64_t column = place % m->columns, left = m->to - place, whole = column > 0 ? 0 : left / m->columns;
        const Tile t = {place / m->columns, whole == 0 ? 1 : whole < TILE_ROWS ? whole : TILE_ROWS, column, 0};
        const uint64_t to = left < m->columns - column ? column + left : m->columns;
        put_rows(&part, t, to, source, sent, size);
        place += t.rows * (to - column);
    }
}

/* ---- what is received: by places of the result, the rank of each element's place in the source. ranks->offsets are the source's. ---- */

/* From a place of the result on, the elements of one column that come from one rank. */
typedef struct Run {
    int owner;
    uint64_t count;
} Run;

static Run run_at(const CvlRanks *ranks, const Matrix *m, uint64_t place) {
    const uint64_t column = place / m->rows, row = place % m->rows,
                   left = m->rows - row < m->to - place ? m->rows - row : m->to - place;
    const int owner = cvl_owner(ranks, row * m->columns + column);
    const uint64_t rows = (ranks->offsets[owner + 1] - column + m->columns - 1) / m->columns - row;
    const Run run = {owner, rows < left ? rows : left};
    return run;
}

static void count_received(CvlRanks *ranks, const Matrix *m) {
    memset(ranks->receives, 0, (size_t)ranks->size * sizeof *ranks->receives);
    for (uint64_t place = m->from; place < m->to;) {
        const Run run = run_at(ranks, m, place);
        ranks->receives[run.owner] += (int)run.count, place += run.count;
    }
}

static void write(CvlRanks *ranks, const Matrix *m, const char *got, char *out, size_t size) {
    for (uint64_t place = m->from; place < m->to;) {
        const Run run = run_at(ranks, m, place);
        const size_t from = (size_t)ranks->receive_from[run.owner], bytes = (size_t)run.count * size;
        memcpy(out + (size_t)(place - m->from) * size, got + from * size, bytes);
        ranks->receive_from[run.owner] += (int)run.count, place += run.count;
    }
}

/* ---- the call ---- */

/* Whether all ranks have the same numbers, and whether these make a matrix of all elements. */
static void look(CvlCall *c, uint64_t total, Matrix *m) {
    int64_t mine[4], all[4];
    m->rows = c->in[CVL_AS_ROWS].number, m->columns = c->in[CVL_AS_COLUMNS].number;
    mine[0] = (int64_t)m->rows, mine[1] = -1 - mine[0], mine[2] = (int64_t)m->columns, mine[3] = -1 - mine[2];
    MPI_Allreduce(mine, all, 4, MPI_INT64_T, MPI_MAX, c->ranks->comm);
    if (all[0] != -1 - all[1] || all[2] != -1 - all[3]) cvl_say(c, cvl_status(CVL_UNKNOWN_CALL, -1));
    const bool is_matrix = m->rows == 0 || m->columns == 0 ? total == 0 : total / m->rows == m->columns && total % m->rows == 0;
    if (!is_matrix) cvl_say(c, cvl_status(CVL_LENGTH_MISMATCH, -1));
}

static void move(CvlCall *c, Matrix *m, void *sent, void *got, size_t size) {
    CvlRanks *const ranks = c->ranks;
    const CvlSlot source = c->in[CVL_AS_A], out = c->in[CVL_AS_OUT];
    cvl_offsets(ranks, source.number);
    const uint64_t from = ranks->offsets[ranks->rank], to = ranks->offsets[ranks->rank + 1];
    cvl_offsets(ranks, out.number);
    const uint64_t out_from = ranks->offsets[ranks->rank], out_to = ranks->offsets[ranks->rank + 1];
    m->from = from, m->to = to;
    count_sent(ranks, m);
    fill(m, source.at, sent, size);
    cvl_offsets(ranks, source.number);
    m->from = out_from, m->to = out_to;
    count_received(ranks, m);
    cvl_lay_out(ranks->sends, ranks->send_from, ranks->size);
    cvl_lay_out(ranks->receives, ranks->receive_from, ranks->size);
    cvl_send(ranks, sent, got, size);
    write(ranks, m, got, cvl_room(c), size);
}

CvlStatus cvl_transpose_over_ranks(CvlCall *c) {
    Matrix m = {0};
    const CvlSlot source = c->in[CVL_AS_A], out = c->in[CVL_AS_OUT];
    const size_t size = cvl_room_size(c);
    const uint64_t total = cvl_offsets(c->ranks, source.number);
    if (cvl_offsets(c->ranks, out.number) != total) cvl_say(c, cvl_status(CVL_LENGTH_MISMATCH, -1));
    look(c, total, &m);
    cvl_clean(c);
    void *const sent = c->status.number == CVL_DONE ? cvl_take(c, source.number, size) : NULL;
    void *const got = c->status.number == CVL_DONE ? cvl_take(c, out.number, size) : NULL;
    if (cvl_agree(c, source.number)) move(c, &m, sent, got, size);
    free(sent), free(got);
    return c->status;
}

/* texts.c: texts of vectors, in files, and long ones. */
#include "test.h"

void try_texts(void) {
    static const char path[] = "over_ranks_text";
    int32_t a[MOST], back[MOST];
    bool flags[MOST];
    char text[1024], *read = NULL;
    size_t count = 0, read_len = 0;
    const size_t n = rank == 1 ? 0 : own_count(rank);
    fill(a);
    for (size_t k = 0; k < n; k++) a[k] = rank * 1000000 - (int32_t)k;
    check(
        "no room",
        is(cvl_write_ints_mpi(ranks, a, n, text, rank == size - 1 ? 0 : sizeof text, &count), CVL_LENGTH_MISMATCH, -1) &&
            count < sizeof text);
    check(
        "written",
        is(cvl_write_ints_mpi(ranks, a, n, text, count, &count), CVL_DONE, -1) && (rank > 0 || memcmp(text, "[0", 2) == 0));
    check("the last bracket", rank < size - 1 || text[count - 1] == ']');
    /* the integers alone, with other white space and an end of line */
    for (size_t k = 0; k < count; k++) text[k] = text[k] == '[' || text[k] == ']' ? '\n' : text[k];
    char longer[sizeof text];
    memset(longer, '7', sizeof longer);
    check("a long file", is(cvl_rank_text_write(ranks, path, longer, sizeof longer), CVL_DONE, -1));
    check("a shorter one in its place", is(cvl_rank_text_write(ranks, path, text, count), CVL_DONE, -1));
    check("from a file", is(cvl_rank_text_read(ranks, path, &read, &read_len), CVL_DONE, -1));
    memset(back, 0, sizeof back);
    count = 99;
    check(
        "no room for integers",
        is(cvl_read_ints_mpi(ranks, read, read_len, back, 0, &count), CVL_LENGTH_MISMATCH, -1) && is_filled(back, MOST, 0));
    check("integers", is(cvl_read_ints_mpi(ranks, read, read_len, back, MOST, &count), CVL_DONE, -1));
    int32_t same[MOST];
    check("as they were", is(cvl_spread_ints(ranks, back, count, same, n), CVL_DONE, -1) && memcmp(same, a, n * sizeof *a) == 0);
    if (rank == size - 1 && read_len > 1) read[read_len - 2] = 'x';
    uint64_t from = 0, total = 0;
    check("words", is(cvl_share(ranks, count, &from, &total), CVL_DONE, -1));
    int has_bad = rank == size - 1 && read_len > 1;
    has_bad = any_rank(has_bad);
    if (has_bad)
        check("a bad word", is(cvl_read_ints_mpi(ranks, read, read_len, back, MOST, &count), CVL_BAD_INPUT, (int64_t)total - 1));
    cvl_rank_text_free(read);
    for (size_t k = 0; k < n; k++) flags[k] = k % 2 == 0;
    check("booleans", is(cvl_write_bools_mpi(ranks, flags, n, text, sizeof text, &count), CVL_DONE, -1));
    check("of the first rank", rank > 0 || memcmp(text, size == 1 ? "[T]" : "[T", count) == 0);
    MPI_Barrier(MPI_COMM_WORLD);
    if (rank == 0) remove(path);
    check("no file", is(cvl_rank_text_read(ranks, "no/such/file", &read, &read_len), CVL_BAD_INPUT, -1));
}

/* Texts of more than 4 MiB in each rank; the last word of the whole is at fault. */
void try_long_texts(void) {
    const size_t n = 4500000;
    int32_t *const a = malloc(n * sizeof *a), *const back = malloc(n * sizeof *back);
    char *const text = malloc(2 * n + 1);
    size_t length = 0, count = 0;
    check("memory for long texts", a != NULL && back != NULL && text != NULL);
    if (any_rank(a == NULL || back == NULL || text == NULL)) return;
    for (size_t k = 0; k < n; k++) a[k] = (int32_t)((k + (size_t)rank) % 10);
    check(
        "a long text",
        is(cvl_write_ints_mpi(ranks, a, n, text, 2 * n + 1, &length), CVL_DONE, -1) && length == 2 * n + (rank == size - 1));
    if (rank == 0) text[0] = ' ';
    if (rank == size - 1) text[length - 1] = ' ';
    check(
        "read back",
        is(cvl_read_ints_mpi(ranks, text, length, back, n, &count), CVL_DONE, -1) && count == n &&
            memcmp(a, back, n * sizeof *a) == 0);
    if (rank == size - 1) text[length - 2] = 'x';
    const CvlStatus status = cvl_read_ints_mpi(ranks, text, length, back, n, &count);
    check("a bad last word", is(status, CVL_BAD_INPUT, (int64_t)n * size - 1) && memcmp(a, back, n * sizeof *a) == 0);
    free(a), free(back), free(text);
}

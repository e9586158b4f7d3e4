/*
 * A breadth search over ranks: vertices and their edges are spread. In each round the vertices that were reached last mark their edges, and
 * the first senders of each vertex say over which edge it is reached.
 */
#include "spread.h"

#include <string.h>

enum { VERTICES = 30000, MOST_ROUNDS = 1000 };

static int32_t degree(uint64_t vertex) { return (int32_t)(noise(vertex) % 3) + 1; }
static int32_t neighbour(uint64_t vertex, int32_t k) { return (int32_t)(noise(vertex * 4 + (uint64_t)k + VERTICES) % VERTICES); }

/* The same by one thread. */
static void search_alone(int32_t *level) {
    int32_t *queue = memory(VERTICES, sizeof *queue);
    size_t first = 0, last = 1;
    for (size_t v = 0; v < VERTICES; v++) level[v] = v == 0 ? 0 : -1;
    while (first < last) {
        const int32_t v = queue[first++];
        for (int32_t k = 0; k < degree((uint64_t)v); k++) {
            const int32_t to = neighbour((uint64_t)v, k);
            if (level[to] < 0) level[to] = level[v] + 1, queue[last++] = to;
        }
    }
    free(queue);
}

/* The rounds of a search: from which vertices on the rank has them, and the edges behind them. */
static void search(CvlRankSegments *edges_of, const int32_t *to, size_t edges, int32_t *level, size_t n) {
    bool *reached = memory(n, 1), *marked = memory(edges, 1);
    int32_t *senders = memory(n, sizeof *senders), more = 1;
    for (int32_t round = 0; more > 0 && round < MOST_ROUNDS; round++) {
        for (size_t v = 0; v < n; v++) reached[v] = level[v] == round;
        must(cvl_dis_veb_mpi(ranks, reached, edges_of, marked, edges));
        must(cvl_select_first_senders_mpi(ranks, to, edges, marked, edges, senders, n));
        for (size_t v = 0; v < n; v++) {
            reached[v] = senders[v] >= 0 && level[v] < 0;
            if (reached[v]) level[v] = round + 1;
        }
        must(cvl_cnt_lub_mpi(ranks, reached, n, &more));
    }
    free(reached), free(marked), free(senders);
}

int main(int words, char **word) {
    const int rank = begin(&words, &word);
    uint64_t from;
    size_t n, edges = 0;
    must(cvl_even_share(ranks, VERTICES, &from, &n));
    int32_t *lengths = memory(n, sizeof *lengths), *to = memory(4 * n, sizeof *to), *level = memory(n, sizeof *level);
    for (size_t v = 0; v < n; v++) {
        lengths[v] = degree(from + v), level[v] = from + v == 0 ? 0 : -1;
        for (int32_t k = 0; k < lengths[v]; k++) to[edges++] = neighbour(from + v, k);
    }
    CvlRankSegments *edges_of;
    must(cvl_rank_segments_new(ranks, (CvlLengths){lengths, n}, 0, &edges_of));
    search(edges_of, to, edges, level, n);

    int is_right = 1;
    int32_t *whole = whole_on(rank, level, n, VERTICES), *wanted = memory(VERTICES, sizeof *wanted), reached = 0;
    search_alone(wanted);
    for (size_t v = 0; v < VERTICES; v++) reached += wanted[v] >= 0;
    if (rank == 0) is_right = memcmp(whole, wanted, VERTICES * sizeof *wanted) == 0;
    if (rank == 0)
        printf("breadth search: %d of %d vertices reached, %s\n", reached, VERTICES, is_right ? "as by one thread" : "WRONG");
    cvl_rank_segments_free(edges_of);
    free(lengths), free(to), free(level), free(whole), free(wanted);
    return end(is_right);
}

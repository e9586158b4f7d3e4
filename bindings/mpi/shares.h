/*
 * shares.h: which rank has a place of a spread vector, even shares, where sorted keys are cut, and exact sums and products: arithmetic of calls over
 * ranks, without MPI.
 */
#ifndef CVL_MPI_SHARES_H
#define CVL_MPI_SHARES_H

#include <stddef.h>
#include <stdint.h>

/*@ predicate ascend{L}(uint64_t *offsets, integer n) = \forall integer j, k; 0 <= j <= k <= n ==> offsets[j] <= offsets[k];

    logic integer counted{L}(int *counts, integer n) = n <= 0 ? 0 : counted(counts, n - 1) + counts[n - 1]; */

/*
 * The rank that has a place, where ranks begin at these offsets: the last one that begins at it or before. Without a branch on what is
 * found, since random places would mislead it.
 */
/*@ requires 1 <= size && \valid_read(offsets + (0 .. size)) && ascend(offsets, size) && offsets[0] <= place;
    assigns \nothing;
    ensures 0 <= \result < size && offsets[\result] <= place;
    ensures \result + 1 < size ==> place < offsets[\result + 1]; */
static inline int cvl_owner_of(const uint64_t *offsets, int size, uint64_t place) {
    int low = 0, n = size;
    /*@ loop invariant 0 <= low && 1 <= n && low + n <= size && offsets[low] <= place;
        loop invariant low + n < size ==> place < offsets[low + n];
        loop assigns low, n;
        loop variant n; */
    while (n > 1) {
        const int half = n / 2;
        low += place >= offsets[low + half] ? half : 0;
        n -= half;
    }
    return low;
}

/* Where the elements for each rank begin, if they stand in the order of the ranks, and how many there are in all. */
/*@ requires 0 <= size && \valid_read(counts + (0 .. size - 1)) && \valid(from + (0 .. size - 1));
    requires \separated(counts + (0 .. size - 1), from + (0 .. size - 1));
    requires \forall integer r; 0 <= r < size ==> 0 <= counts[r];
    requires \forall integer r; 0 <= r <= size ==> 0 <= counted(counts, r) <= INT32_MAX;
    assigns from[0 .. size - 1];
    ensures \forall integer r; 0 <= r < size ==> from[r] == counted{Pre}(counts, r);
    ensures \result == counted{Pre}(counts, size); */
static inline size_t cvl_lay_out(const int *counts, int *from, int size) {
    size_t all = 0;
    /*@ loop invariant 0 <= r <= size && all == counted{Pre}(counts, r);
        loop invariant \forall integer q; 0 <= q < size ==> counts[q] == \at(counts[q], Pre);
        loop invariant \forall integer q; 0 <= q < r ==> from[q] == counted{Pre}(counts, q);
        loop assigns r, all, from[0 .. size - 1];
        loop variant size - r; */
    for (int r = 0; r < size; r++) {
        from[r] = (int)all;
        all += (size_t)counts[r];
    }
    return all;
}

/* How many places two ranges have in common. */
/*@ requires from <= to && other_from <= other_to;
    assigns \nothing;
    ensures \let first = \max(from, other_from); \let last = \min(to, other_to); \result == \max(0, last - first); */
static inline uint64_t cvl_common(uint64_t from, uint64_t to, uint64_t other_from, uint64_t other_to) {
    const uint64_t first = from > other_from ? from : other_from, last = to < other_to ? to : other_to;
    return last > first ? last - first : 0;
}

/* Where a rank begins if so many places are shared evenly: the first ranks have one more if there is a rest. */
/*@ requires 1 <= ranks <= INT32_MAX && rank <= ranks;
    assigns \nothing;
    ensures \result == rank * (total / ranks) + \min(rank, total % ranks);
    ensures rank == 0 ==> \result == 0;
    ensures rank == ranks ==> \result == total; */
static inline uint64_t cvl_even_start(uint64_t total, uint64_t ranks, uint64_t rank) {
    const uint64_t each = total / ranks, more = total % ranks;
    /*@ assert rank * each <= ranks * each <= total && ranks * each + more == total; */
    /*@ assert rank * each + \min(rank, more) <= total; */
    return rank * each + (rank < more ? rank : more);
}

/* How many of ascending keys are at most so much. */
/*@ requires \valid_read(keys + (0 .. n - 1));
    requires \forall integer j, k; 0 <= j <= k < n ==> keys[j] <= keys[k];
    assigns \nothing;
    ensures 0 <= \result <= n;
    ensures \forall integer k; 0 <= k < \result ==> keys[k] <= most;
    ensures \forall integer k; \result <= k < n ==> most < keys[k]; */
static inline size_t cvl_up_to(const int32_t *keys, size_t n, int64_t most) {
    size_t low = 0, left = n;
    /*@ loop invariant 0 <= low && low + left <= n;
        loop invariant \forall integer k; 0 <= k < low ==> keys[k] <= most;
        loop invariant \forall integer k; low + left <= k < n ==> most < keys[k];
        loop assigns low, left;
        loop variant left; */
    while (left > 0) {
        const size_t half = left / 2;
        if (keys[low + half] <= most) {
            low += half + 1;
            left -= half + 1;
        } else {
            left = half;
        }
    }
    return low;
}

/* Of keys that equal the one at a cut, how many of a rank's own go before it: those of earlier ranks go first. */
/*@ assigns \nothing;
    ensures \result == \max(0, \min(own, wanted - before)); */
static inline uint64_t cvl_ties_taken(uint64_t wanted, uint64_t before, uint64_t own) {
    if (wanted <= before) return 0;
    return wanted - before < own ? wanted - before : own;
}

/* Whether a sum of two is past 64 bits. */
/*@ assigns \nothing;
    ensures \result != 0 <==> !(INT64_MIN <= a + b <= INT64_MAX); */
static inline int cvl_is_past(int64_t a, int64_t b) { return b > 0 ? a > INT64_MAX - b : a < INT64_MIN - b; }

/* A product as so many times 2^32 and what is left. */
/*@ requires \valid(high);
    assigns *high;
    ensures a * b == *high * 0x100000000 + \result && 0 <= \result <= 0xffffffff; */
static inline int64_t cvl_low_of_product(int32_t a, int32_t b, int64_t *high) {
    const int64_t product = (int64_t)a * b, rest = product % INT64_C(0x100000000),
                  low = rest < 0 ? rest + INT64_C(0x100000000) : rest;
    *high = (product - low) / INT64_C(0x100000000);
    return low;
}

#endif

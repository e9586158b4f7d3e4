/* laws.c: what follows from the contracts of the cuts. The laws are functions, each proved by its loop; none is called. */
#include "../../c/cut.c"

/* Each place belongs to one part, and to no other. */
/*@ requires 0 < parts && is_cut(from, parts, n) && place < n && \valid_read(from + (0 .. parts));
    assigns \nothing;
    ensures \result < parts && from[\result] <= place < from[\result + 1];
    ensures \forall integer k; 0 <= k < parts && from[k] <= place < from[k + 1] ==> k == \result; */
size_t part_of_place(const size_t *from, size_t parts, size_t n, size_t place) {
    size_t k = 0;
    /*@ loop invariant 0 <= k < parts && from[k] <= place;
        loop assigns k;
        loop variant parts - k; */
    while (from[k + 1] <= place) k++;
    return k;
}

/* Lengths of which none is negative have starts that ascend. */
/*@ requires \valid_read(lengths + (0 .. segments - 1)) && \forall integer s; 0 <= s < segments ==> 0 <= lengths[s];
    assigns \nothing;
    ensures \forall integer s, t; 0 <= s <= t <= segments ==> 0 <= start_of(lengths, s) <= start_of(lengths, t); */
void starts_ascend(const int32_t *lengths, size_t segments) {
    /*@ loop invariant 0 <= k <= segments;
        loop invariant \forall integer s, t; 0 <= s <= t <= k ==> 0 <= start_of(lengths, s) <= start_of(lengths, t);
        loop assigns k;
        loop variant segments - k; */
    for (size_t k = 0; k < segments; k++) continue;
}

/* What some lengths in the midst add up to is how far the start behind them is from their first. */
/*@ requires \valid_read(lengths + (0 .. from + count - 1));
    assigns \nothing;
    ensures start_of(lengths + from, count) == start_of(lengths, from + count) - start_of(lengths, from); */
void starts_from(const int32_t *lengths, size_t from, size_t count) {
    /*@ loop invariant 0 <= k <= count && start_of(lengths + from, k) == start_of(lengths, from + k) - start_of(lengths, from);
        loop assigns k;
        loop variant count - k; */
    for (size_t k = 0; k < count; k++) continue;
}

/* Where the first segment of each part is known, they are cut themselves: each segment starts in one part, between its ends. */
/*@ lemma first_is_cut{L}: \forall CvlWork *w; has_segments(w) && knows_starts(w) ==> is_cut(&w->first[0], w->parts, w->segments);
    lemma first_is_within{L}: \forall CvlWork *w, integer k, s; has_segments(w) && knows_starts(w) && 0 <= k < w->parts &&
      w->first[k] <= s < w->first[k + 1] ==> w->from[k] <= start_of(w->lengths, s) <= w->from[k + 1]; */

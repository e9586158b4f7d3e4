/*
 * words.h: what the contracts in bindings/c speak of, and laws of arithmetic that the provers are helped by. It is read before each
 * file that is analysed, and by no compiler of the library.
 */
#ifndef CVL_ANALYSIS_WORDS_H
#define CVL_ANALYSIS_WORDS_H

#include <stddef.h>
#include <stdint.h>

/* C11's atomic numbers and booleans, as one thread at a time sees them. */
#define __FC_STDATOMIC
#define _Atomic
typedef unsigned char atomic_bool;
enum { memory_order_relaxed, memory_order_acquire, memory_order_release };
#define atomic_init(at, value) (*(at) = (value))
#define atomic_load_explicit(at, order) (*(at))
#define atomic_store_explicit(at, value, order) (*(at) = (value))
#define atomic_fetch_add_explicit(at, value, order) (*(at) += (value))
#define atomic_fetch_and_explicit(at, value, order) (*(at) &= (value))
#define atomic_compare_exchange_strong_explicit(at, seen, next, order, other) \
    (*(at) == *(seen) ? (*(at) = (next), 1) : (*(seen) = *(at), 0))
/*@ assigns *at;
    ensures \result == \old(*at) && *at == value; */
static inline unsigned char atomic_exchange(unsigned char *at, unsigned char value) {
    const unsigned char was = *at;
    *at = value;
    return was;
}

/* Unsigned numbers of 64 bits wrap. The tool leaves this out of what it tells its provers. */
/*@ axiomatic Wrapping { axiom wrapped_below: \forall integer x; -SIZE_MAX - 1 <= x < 0 ==> (uint64_t)x == x + SIZE_MAX + 1; } */

/* ---- memory ---- */

/* Whether m bytes from a on and n bytes from b on have one in common. */
/*@ predicate in_common(integer a, integer m, integer b, integer n) = \exists integer p; a <= p < a + m && b <= p < b + n;

    lemma in_common_is: \forall integer a, m, b, n; in_common(a, m, b, n) <==> (m > 0 && n > 0 && a < b + n && b < a + m);
    lemma quotient_below: \forall integer x, s, n; x >= 0 && s > 0 && n >= 0 ==> (x / s < n <==> x < n * s);
    lemma product_of_some: \forall integer n, s; n >= 0 && s > 0 ==> (n * s > 0 <==> n > 0); */

/*
 * What all rooms of a call hold, what it kept of them, and what it tells beside its room: each stands for bytes that a proof doesn't see,
 * and changes where they may. And whether flags that have to be 0 and 1 are copied where they aren't.
 */
extern int rooms, kept, told, made;

/* How often each part of a call has run. */
extern int runs;
/*@ axiomatic Runs { logic integer times{L}(integer part) reads runs; } */

/* ---- flags ---- */

/* Whether so many bytes from an address on are 0 and 1, as an export tells. */
/*@ axiomatic Flags { predicate are_flags(integer address, integer n); } */

/* ---- parts ---- */

/* Parts of n elements: they begin at 0 and end at n, and each begins where the one before it ends. */
/*@ predicate is_cut{L}(size_t *from, integer parts, integer n) =
      from[0] == 0 && from[parts] == n && \forall integer j, k; 0 <= j <= k <= parts ==> from[j] <= from[k]; */

/* Where part k of n elements begins, in even parts, of which the first have one element more. */
/*@ logic integer even_place(integer n, integer parts, integer k) = n / parts * k + (k < n % parts ? k : n % parts);

    lemma even_ascends: \forall integer n, p, j, k; n >= 0 && p > 0 && 0 <= j <= k <= p ==> even_place(n, p, j) <= even_place(n, p, k);
    lemma even_begins: \forall integer n, p; n >= 0 && p > 0 ==> even_place(n, p, 0) == 0;
    lemma even_ends: \forall integer n, p; n >= 0 && p > 0 ==> even_place(n, p, p) == n; */

/* ---- segments ---- */

/* What the first so many lengths add up to: where the segment after them starts. */
/*@ logic integer start_of{L}(int32_t *lengths, integer count) =
      count <= 0 ? 0 : start_of(lengths, count - 1) + lengths[count - 1]; */

/* Segments of n elements: no length is negative, so that their starts ascend, and they add up to n. */
/*@ predicate is_segments{L}(int32_t *lengths, integer segments, integer n) =
      0 <= segments && start_of(lengths, segments) == n && (\forall integer s; 0 <= s < segments ==> 0 <= lengths[s] <= n) &&
      (\forall integer s, t; 0 <= s <= t <= segments ==> 0 <= start_of(lengths, s) <= start_of(lengths, t)); */

/* The first segment that starts at a place or after it: their number where there is none. */
/*@ predicate is_first{L}(int32_t *lengths, integer segments, integer place, integer first) =
      0 <= first <= segments && start_of(lengths, first) >= place &&
      \forall integer s; 0 <= s < first ==> start_of(lengths, s) < place; */

/* Where the even shares of lengths start, and at last where all segments end. */
/*@ predicate are_share_starts{L}(int32_t *lengths, integer segments, size_t *places, integer shares) =
      0 < shares && is_segments(lengths, segments, places[shares]) &&
      \forall integer k; 0 <= k <= shares ==> places[k] == start_of(lengths, even_place(segments, shares, k)); */

/* Offsets of segments are as many as there may be and one more, begin with 0, and never fall. */
/*@ predicate ascends{L}(int32_t *offsets, integer count) = \forall integer s; 0 < s < count ==> offsets[s - 1] <= offsets[s];
    predicate are_offsets{L}(int32_t *offsets, integer count) = 0 < count <= INT32_MAX + 1 && offsets[0] == 0 && ascends(offsets, count);
    predicate first_fall{L}(int32_t *offsets, integer count, integer segment) =
      0 <= segment < count - 1 && offsets[segment + 1] < offsets[segment] && ascends(offsets, segment + 1); */

/* ---- texts ---- */

/*@ predicate is_white_byte(integer byte) = byte == ' ' || byte == '\t' || byte == '\n' || byte == '\r'; */

/* Words stand between white space and, in a nested text, brackets; how many begin among the first bytes, and how many lists. */
/*@ predicate is_between(integer byte, integer nested) = is_white_byte(byte) || (nested != 0 && (byte == '[' || byte == ']'));

    predicate begins_word{L}(char *text, integer nested, integer k) =
      !is_between(text[k], nested) && (k == 0 || is_between(text[k - 1], nested));

    axiomatic Words {
      logic integer words_in{L}(char *text, integer nested, integer n) reads text[0 .. n - 1];
      axiom no_words{L}: \forall char *text, integer nested, n; n <= 0 ==> words_in(text, nested, n) == 0;
      axiom one_word{L}: \forall char *text, integer nested, n; n > 0 && begins_word(text, nested, n - 1) ==>
        words_in(text, nested, n) == words_in(text, nested, n - 1) + 1;
      axiom no_word{L}: \forall char *text, integer nested, n; n > 0 && !begins_word(text, nested, n - 1) ==>
        words_in(text, nested, n) == words_in(text, nested, n - 1);
    }

    logic integer lists_in{L}(char *text, integer nested, integer n) =
      n <= 0 ? 0 : lists_in(text, nested, n - 1) + (nested != 0 && text[n - 1] == '[' ? 1 : 0); */

/* How many bytes a number has in a text: its digits, of which there are at most 10, and a sign; and those of some numbers. */
/*@ logic integer digits_of(integer x) =
      x < 10 ? 1 : x < 100 ? 2 : x < 1000 ? 3 : x < 10000 ? 4 : x < 100000 ? 5 : x < 1000000 ? 6 : x < 10000000 ? 7 :
      x < 100000000 ? 8 : x < 1000000000 ? 9 : 10;

    logic integer written_of(integer number) = (number < 0 ? 1 : 0) + digits_of(\abs(number));

    logic integer written_in{L}(int32_t *a, integer n) = n <= 0 ? 0 : written_in(a, n - 1) + written_of(a[n - 1]);

    lemma digits_more: \forall integer x; 10 <= x < 10000000000 ==> digits_of(x) == 1 + digits_of(x / 10);
    lemma written_at_most: \forall integer x; INT32_MIN <= x <= INT32_MAX ==> 1 <= written_of(x) <= 11; */

/* How many bytes lists have beside those of their elements: brackets, and a space between each two. */
/*@ logic integer around_of(integer count) = count == 0 ? 2 : count + 1;

    logic integer around_in{L}(int32_t *lengths, integer n) =
      n <= 0 ? 0 : around_in(lengths, n - 1) + around_of(lengths[n - 1]); */

/* A text of digits alone, so many, and the number that they say. */
/*@ predicate is_number{L}(char *text, integer n) = \forall integer k; 0 <= k < n ==> '0' <= text[k] <= '9';

    logic integer number_in{L}(char *text, integer n) = n <= 0 ? 0 : 10 * number_in(text, n - 1) + (text[n - 1] - '0'); */

#endif

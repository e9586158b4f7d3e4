/*
 * exports.h: contracts of proved exports, written by hand: what they read and write, and what of their answer the C stands on. It is
 * read beside words.h before each file that is analysed.
 */
#ifndef CVL_ANALYSIS_EXPORTS_H
#define CVL_ANALYSIS_EXPORTS_H

#include "proved.h"

/*@ requires \valid(total_out) && \valid_read(lengths + (0 .. lengths_len - 1));
    requires \separated(total_out, lengths + (0 .. lengths_len - 1));
    assigns *total_out, \result \from lengths[0 .. lengths_len - 1], lengths_len;
    ensures \result.number == CVL_DONE ==> *total_out == start_of(lengths, lengths_len) <= CVL_MOST_ELEMENTS;
    ensures \result.number == CVL_DONE ==> \forall integer s; 0 <= s < lengths_len ==> lengths[s] >= 0;
    ensures \result.number != CVL_DONE ==> *total_out == \old(*total_out);
    ensures \result.number == CVL_DONE || \result.number == CVL_NEGATIVE_LENGTH || \result.number == CVL_TOO_LONG; */
CvlStatus cvl_proved_make_descriptor(const int32_t *lengths, size_t lengths_len, size_t *total_out);

/*@ requires \valid(places + (0 .. places_len - 1));
    assigns places[0 .. places_len - 1], \result \from len, places_len;
    ensures places_len > 1 ==> \result.number == CVL_DONE;
    ensures \result.number == CVL_DONE ==> \forall integer k; 0 <= k < places_len ==> places[k] == even_place(len, places_len - 1, k); */
CvlStatus cvl_proved_even_places(size_t len, size_t *places, size_t places_len);

/*@ requires \valid_read(lengths + (0 .. lengths_len - 1)) && \valid_read(places + (0 .. places_len - 1));
    requires \valid(segment) && \valid(start) && \separated(segment, start);
    assigns *segment, *start, \result \from lengths[0 .. lengths_len - 1], places[0 .. places_len - 1], place;
    ensures are_share_starts(lengths, lengths_len, places, places_len - 1) && place <= places[places_len - 1] ==>
      \result.number == CVL_DONE && is_first(lengths, lengths_len, place, *segment) && *start == start_of(lengths, *segment); */
CvlStatus cvl_proved_first_start(
    const int32_t *lengths, size_t lengths_len, const size_t *places, size_t places_len, size_t place, size_t *segment,
    size_t *start);

/*@ requires \valid_read(text + (0 .. text_len - 1)) && \valid(places + (0 .. places_len - 1));
    requires \separated(text + (0 .. text_len - 1), places + (0 .. places_len - 1));
    assigns places[0 .. places_len - 1], \result \from text[0 .. text_len - 1], text_len, places_len;
    ensures \result.number == CVL_DONE ==> places_len > 1 && is_cut(places, places_len - 1, text_len); */
CvlStatus cvl_proved_white_places(const bool *text, size_t text_len, size_t *places, size_t places_len);

#endif

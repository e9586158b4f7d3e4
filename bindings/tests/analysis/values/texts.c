/* texts.c: texts in parts, and what is asked of a text: steps.c, checks.c and cut_at_white of cut.c. */
#include "drivers.h"

enum { ROOM = 64 };

extern size_t digits_each;

static int32_t length[2] = {1, 0};
static CvlLengths cut = {length, 2};

/* A text of words and spaces by the bits of a pattern, with nothing behind it; and rooms that are too short or long enough. */
ARRAYS(char, text);
static char text_room_2[2], text_room_64[ROOM];
static char *out;
static size_t out_len;

static void fill_text(unsigned pattern) {
    for (size_t n = 1; n <= MOST; n++) {
        for (size_t k = 0; k < n; k++) text[n][k] = (pattern >> k & 1) != 0 ? ' ' : Frama_C_char_interval('0', '9');
    }
}

static void read_text(size_t n) { (void)cvl_read_ints_on(&pool, text[n], n, room[n], n, &count); }
static void read_into_less(size_t n) { (void)cvl_read_ints_on(&pool, text[n], n, room[n > 1], n > 1, &count); }
static void write_ints(size_t n) { (void)cvl_write_ints_on(&pool, ints[n], n, out, out_len, &count); }
static void write_bools(size_t n) { (void)cvl_write_bools_on(&pool, bools[n], n, out, out_len, &count); }

static void cut_at(size_t n) { length[0] = n > 1, length[1] = (int32_t)n - length[0]; }

static void seg_write_ints(size_t n) {
    cut_at(n);
    (void)cvl_seg_write_ints_on(&pool, ints[n], n, cut, out, out_len, &count);
}

static void seg_write_bools(size_t n) {
    cut_at(n);
    (void)cvl_seg_write_bools_on(&pool, bools[n], n, cut, out, out_len, &count);
}

static void in_each_room(Call *call, int requests, size_t steps) {
    out = text_room_2, out_len = sizeof text_room_2;
    each_length(call, requests, steps);
    out = text_room_64, out_len = sizeof text_room_64;
    each_length(call, requests, steps);
}

void reading(void) {
    for (unsigned pattern = 0; pattern < 1 << MOST; pattern++) {
        fill_text(pattern);
        each_length(read_text, 0, 0);
        each_length(read_into_less, 0, 0);
    }
    fill_text(5);
    each_length(read_text, 5, 3);
    fault = CVL_NO_RESOURCES;
    each_length(read_text, 5, 3);
    (void)cvl_many_words(text[MOST], MOST, 1);
}

void writing(void) {
    fill(5, 0);
    fault = CVL_NO_RESOURCES;
    for (digits_each = 1; digits_each <= 11; digits_each += 10) {
        in_each_room(write_ints, 6, 3);
        in_each_room(seg_write_ints, 8, 4);
    }
    in_each_room(write_bools, 7, 4);
    in_each_room(seg_write_bools, 8, 5);
}

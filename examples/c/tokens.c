/*
 * The tokens of a text, those of many lines at once: words, numbers and single signs, without white space and without comments, which
 * go from a # to the end of the line. Letters and digits side by side are one token, whose first byte says whether it is a word or a
 * number. Lines are segments, so that a scan by segments says what stands behind a #. A long text goes piece by piece, each in the
 * same rooms, so that these stay in cache.
 * `examples/c/run tokens` builds it over the library and runs it.
 */
#define CVL_SHORT_NAMES
#include "cvl.h"

#include <ctype.h>
#include <stdio.h>
#include <stdlib.h>
#include <string.h>

enum { BYTES = 256, PIECE = 1 << 18, BLANK = 0, SIGN = 1, NUMBER = 2, WORD = 3 };

/* Where each token begins in the text, how many bytes it has, and its class. Whoever has them frees `starts`. */
typedef struct Tokens {
    int32_t *starts, *lengths, *classes;
    size_t n;
} Tokens;

/* Ends the program where a call is not done. */
static void must(CvlStatus status) {
    if (status.number != CVL_DONE) {
        printf("fault %u at %lld\n", (unsigned)status.number, (long long)status.place);
        exit(EXIT_FAILURE);
    }
}

static void *room(size_t n, size_t size) {
    void *found = calloc(n + 2, size);
    if (found == NULL) exit(EXIT_FAILURE);
    return found;
}

/* Bytes above 127 are letters, so that words of UTF-8 stay whole. */
static int32_t class_of(int byte) {
    return byte > 127 || byte == '_' || isalpha(byte) ? WORD : isdigit(byte) ? NUMBER : isspace(byte) ? BLANK : SIGN;
}

/* What a piece needs for its bytes: as integers, the place of each and of its end, and flags. */
typedef struct Rooms {
    int32_t *bytes, *places, *starts, *lengths;
    bool *flags, *code, *joined, *first, *last;
} Rooms;

/* Rooms for pieces of up to n bytes. Whoever has them frees `bytes` and `flags`. */
static Rooms rooms_for(size_t n) {
    int32_t *const ints = room(4 * n + 4, sizeof *ints);
    bool *const flags = room(5 * n + 1, sizeof *flags);
    return (Rooms){ints,      ints + n,      ints + 2 * n + 1,  ints + 3 * n + 3, flags,
                   flags + n, flags + 2 * n, flags + 3 * n + 1, flags + 4 * n + 1};
}

/* Flags the bytes of a piece outside of comments. What follows the last end of a line is a line, too. */
static void flag_code(size_t from, size_t n, Rooms *r) {
    bool ends_line[BYTES] = {false}, begins[BYTES] = {false};
    size_t lines;
    ends_line['\n'] = begins['#'] = true;
    must(bck_pub(ends_line, BYTES, r->bytes, r->flags, n));
    must(pck_luz(r->places + 1, r->flags, n, r->starts + 1, n, &lines));
    r->starts[0] = (int32_t)from, r->starts[++lines] = (int32_t)(from + n);
    must(sub_wuz(r->starts + 1, r->starts, r->lengths, lines));
    must(bck_pub(begins, BYTES, r->bytes, r->flags, n));
    must(ior_seb(r->flags, (CvlLengths){r->lengths, lines}, r->code, n));
    must(ior_wub(r->code, r->flags, r->code, n));
    must(not_wub(r->code, r->code, n));
}

/* Flags the first and the last byte of each token, and answers the place of the first byte that no text has, or -1. */
static int32_t flag_ends(size_t n, Rooms *r) {
    bool shows[BYTES], goes_on[BYTES], wrong[BYTES];
    int32_t place;
    for (int k = 0; k < BYTES; k++)
        shows[k] = class_of(k) != BLANK, goes_on[k] = class_of(k) >= NUMBER, wrong[k] = shows[k] && iscntrl(k);
    must(bck_pub(wrong, BYTES, r->bytes, r->flags, n));
    must(and_wub(r->flags, r->code, r->flags, n));
    must(cvl_first_true(r->flags, n, &place));
    must(bck_pub(goes_on, BYTES, r->bytes, r->flags, n));
    must(and_wub(r->flags, r->code, r->flags, n));
    // joined[k]: byte k goes on with the token of the byte before it; none before the first and behind the last
    r->joined[0] = r->joined[n] = false;
    if (n > 1) must(and_wub(r->flags + 1, r->flags, r->joined + 1, n - 1));
    must(not_wub(r->joined, r->joined, n + 1));
    must(bck_pub(shows, BYTES, r->bytes, r->flags, n));
    must(and_wub(r->flags, r->code, r->flags, n));
    must(and_wub(r->flags, r->joined, r->first, n));
    must(and_wub(r->flags, r->joined + 1, r->last, n));
    return place;
}

/* Adds the tokens of a piece of n bytes from a place on, and answers the place of the first byte in it that no text has, or -1. */
static int32_t add_tokens(const char *text, size_t from, size_t n, Rooms *r, Tokens *t) {
    int32_t classes[BYTES], *const starts = t->starts + t->n, *const lengths = t->lengths + t->n;
    size_t some;
    for (int k = 0; k < BYTES; k++) classes[k] = class_of(k);
    must(cvl_ints_from_bytes((const uint8_t *)text + from, n, r->bytes, n));
    must(ind_luz((int32_t)from, 1, (int64_t)n + 1, r->places));
    flag_code(from, n, r);
    const int32_t wrong = flag_ends(n, r);
    must(pck_luz(r->places, r->first, n, starts, n, &some));
    must(pck_luz(r->places + 1, r->last, n, lengths, n, &some));
    must(sub_wuz(lengths, starts, lengths, some));
    must(pck_luz(r->bytes, r->first, n, r->starts, n, &some));
    must(bck_puz(classes, BYTES, r->starts, t->classes + t->n, some));
    t->n += some;
    return wrong < 0 ? -1 : (int32_t)from + wrong;
}

/* Where the piece from a place on ends: behind the end of a line, or at the end of the text. */
static size_t end_of_piece(const char *text, size_t n, size_t from) {
    const char *const line = n - from > PIECE ? memchr(text + from + PIECE, '\n', n - from - PIECE) : NULL;
    return line == NULL ? n : (size_t)(line - text) + 1;
}

/* The tokens of a text of n bytes, and at `wrong` the place of the first byte outside of comments that no text has, or -1. */
Tokens tokens_of(const char *text, size_t n, int32_t *wrong) {
    size_t longest = 0;
    for (size_t from = 0, end; from < n; from = end) {
        end = end_of_piece(text, n, from);
        longest = end - from > longest ? end - from : longest;
    }
    Rooms r = rooms_for(longest);
    Tokens t = {room(3 * n, sizeof *t.starts), NULL, NULL, 0};
    t.lengths = t.starts + n, t.classes = t.lengths + n;
    *wrong = -1;
    for (size_t from = 0, end; from < n; from = end) {
        end = end_of_piece(text, n, from);
        const int32_t found = add_tokens(text, from, end - from, &r, &t);
        if (*wrong < 0) *wrong = found;
    }
    free(r.bytes), free(r.flags);
    return t;
}

int main(void) {
    static const char text[] = "y1 = add(x, 40) # the sum\n\nwrite(y1)", *const names[] = {"", "sign", "number", "word"};
    int32_t wrong;
    const Tokens t = tokens_of(text, strlen(text), &wrong);
    for (size_t k = 0; k < t.n; k++) printf("%s %.*s\n", names[t.classes[k]], (int)t.lengths[k], text + t.starts[k]);
    printf("wrong byte: %d\n", (int)wrong);
    free(t.starts);
    return EXIT_SUCCESS;
}

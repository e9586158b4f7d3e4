/* The first fault of a call that is not in order, if it comes before those of the export. */
#include "driver.h"
#include "segments.h"

CvlStatus cvl_count_told(size_t count) { return cvl_status(count > INT64_MAX ? CVL_NEGATIVE_LENGTH : CVL_TOO_LONG, -1); }

/* The fault of lengths or offsets, and what they add up to. */
/*@ requires \valid_read(o) && \valid(total);
    assigns *total; */
static CvlStatus lengths_told(const CvlOperand *o, CvlSlot lengths, size_t most, size_t *total) {
    CvlStatus told;
    if (o->as == CVL_AS_OFFSETS) {
        told = cvl_offsets_told(lengths.at, lengths.number);
        if (told.number == CVL_DONE) *total = (size_t)((const int32_t *)lengths.at)[lengths.number - 1];
        return told;
    }
    if (lengths.number > most) return cvl_status(CVL_TOO_LONG, -1);
    told = cvl_proved_make_descriptor(lengths.at, lengths.number, total);
    return told.number == CVL_DONE && *total > most ? cvl_status(CVL_TOO_LONG, -1) : told;
}

/* The brackets and spaces of a list of so many elements. */
/*@ requires count <= CVL_MOST_ELEMENTS;
    assigns \nothing;
    ensures \result == around_of(count); */
static size_t around(size_t count) { return 2 + (count == 0 ? 0 : count - 1); }

/*@ assigns \nothing;
    ensures \result == written_of(number); */
static size_t digits(int32_t number) {
    size_t count = number < 0 ? 2 : 1;
    /*@ loop invariant 0 <= left <= 2147483648 && 1 <= count && count + digits_of(left) - 1 == written_of(number);
        loop assigns count, left;
        loop variant left; */
    for (int64_t left = number < 0 ? -(int64_t)number : number; left >= 10; left /= 10) count++;
    return count;
}

/*@ requires \valid_read(a + (0 .. count - 1)) && count <= CVL_MOST_ELEMENTS;
    assigns \nothing;
    ensures \result == written_in(a, count) <= 11 * count; */
static size_t all_digits(const int32_t *a, size_t count) {
    size_t length = 0;
    /*@ loop invariant 0 <= k <= count && length == written_in(a, k) <= 11 * k;
        loop assigns k, length;
        loop variant count - k; */
    for (size_t k = 0; k < count; k++) length += digits(a[k]);
    return length;
}

/*@ requires \valid_read(lengths + (0 .. segments - 1));
    requires segments <= CVL_MOST_ELEMENTS && \forall integer s; 0 <= s < segments ==> 0 <= lengths[s];
    assigns \nothing;
    ensures \result == around_in(lengths, segments) <= (CVL_MOST_ELEMENTS + 1) * segments; */
static size_t around_all(const int32_t *lengths, size_t segments) {
    size_t length = 0;
    /*@ loop invariant 0 <= k <= segments;
        loop invariant length == around_in(lengths, k) <= (CVL_MOST_ELEMENTS + 1) * k;
        loop assigns k, length;
        loop variant segments - k; */
    for (size_t k = 0; k < segments; k++) length += around((size_t)lengths[k]);
    return length;
}

/* How long the text of integers or booleans is, in segments or in none. */
/*@ requires count <= CVL_MOST_ELEMENTS && (ints == \null || \valid_read(ints + (0 .. count - 1)));
    requires lengths == \null || (\valid_read(lengths + (0 .. segments - 1)) && segments <= CVL_MOST_ELEMENTS &&
      \forall integer s; 0 <= s < segments ==> 0 <= lengths[s]);
    assigns \nothing;
    ensures \let elements = ints == \null ? count : written_in(ints, count);
      \result == elements + (lengths == \null ? around_of(count) : around_in(lengths, segments) + around_of(segments)); */
static size_t text_length(const int32_t *ints, size_t count, const int32_t *lengths, size_t segments) {
    const size_t length = ints == NULL ? count : all_digits(ints, count);
    return length + (lengths == NULL ? around(count) : around_all(lengths, segments) + around(segments));
}

/* The slot of an operand, or nothing. */
static const CvlSlot *slot_of(const CvlRow *row, const CvlSlot *s, CvlAs as) {
    for (size_t k = 0; k < row->operands; k++) {
        if (row->operand[k].as == as) return &s[k];
    }
    return NULL;
}

/* How long the room has to be, as elements say, or a fault. */
static CvlStatus needed_told(const CvlRow *row, const CvlSlot *s, size_t *needed) {
    const CvlSlot *const a = slot_of(row, s, CVL_AS_A), *const flags = slot_of(row, s, CVL_AS_FLAGS),
                         *const lengths = slot_of(row, s, CVL_AS_LENGTHS);
    int32_t trues = 0;
    if (row->is & CVL_WRITES_TEXT) {
        /* no segments have the text of no elements, so that their array may be null */
        *needed = text_length(
            row->is & CVL_OF_BOOLS ? NULL : a->at, a->number, lengths == NULL ? NULL : lengths->at,
            lengths == NULL ? 0 : lengths->number);
        return cvl_done();
    }
    const CvlStatus counted = cvl_proved_count(flags->at, flags->number, &trues);
    *needed = (size_t)trues;
    return counted;
}

/* The fault of vectors that are merged, whose lengths depend on flags. */
static CvlStatus sides_told(const CvlRow *row, const CvlSlot *s) {
    const CvlSlot *const a = slot_of(row, s, CVL_AS_A), *const b = slot_of(row, s, CVL_AS_B),
                         *const flags = slot_of(row, s, CVL_AS_FLAGS);
    int32_t trues = 0;
    const CvlStatus counted = cvl_proved_count(flags->at, flags->number, &trues);
    if (counted.number != CVL_DONE) return counted;
    const bool fit = (size_t)trues == a->number && flags->number - (size_t)trues == b->number;
    return fit ? cvl_done() : cvl_status(CVL_LENGTH_MISMATCH, -1);
}

/* The fault of a room for two vectors together. */
static CvlStatus appended_told(const CvlRow *row, const CvlSlot *s) {
    const size_t room = slot_of(row, s, CVL_AS_OUT)->number, a = slot_of(row, s, CVL_AS_A)->number,
                 b = slot_of(row, s, CVL_AS_B)->number;
    return room == a + b ? cvl_done() : cvl_status(CVL_LENGTH_MISMATCH, -1);
}

/* Whether a room that begins at a place, or at the first one, ends within so many. */
static bool ends_within(const CvlSlot *lowest, size_t room, size_t places) {
    return lowest == NULL || (lowest->number <= places && room <= places - lowest->number);
}

/* The fault of rows and columns that do not have as many elements as there are, or of a range of their transpose. */
static CvlStatus matrix_told(const CvlRow *row, const CvlSlot *s) {
    const CvlSlot *const lowest = slot_of(row, s, CVL_AS_LOWEST);
    const size_t elements = slot_of(row, s, CVL_AS_A)->number, room = slot_of(row, s, CVL_AS_OUT)->number;
    if (!ends_within(lowest, room, row->most)) return cvl_status(CVL_TOO_LONG, -1);
    const bool are_all = cvl_is_matrix(elements, slot_of(row, s, CVL_AS_ROWS)->number, slot_of(row, s, CVL_AS_COLUMNS)->number);
    return are_all && ends_within(lowest, room, elements) ? cvl_done() : cvl_status(CVL_LENGTH_MISMATCH, -1);
}

/* The fault of a room or of vectors whose length depends on elements, or of the shape of a matrix. */
/*@ requires is_call(row, s);
    assigns told; */
static CvlStatus room_told(const CvlRow *row, const CvlSlot *s) {
    if (row->is & CVL_MERGES) return sides_told(row, s);
    if (row->is & CVL_APPENDS) return appended_told(row, s);
    if (row->is & CVL_TURNS) return matrix_told(row, s);
    const size_t room = slot_of(row, s, CVL_AS_OUT)->number;
    size_t needed;
    if (!(row->is & (CVL_BY_TRUES | CVL_WRITES_TEXT))) return cvl_done();
    const CvlStatus told = needed_told(row, s, &needed);
    if (told.number != CVL_DONE) return told;
    if (needed == room || (needed < room && (row->is & CVL_FRONT))) return cvl_done();
    if (row->is & CVL_FRONT) *(size_t *)slot_of(row, s, CVL_AS_TOLD)->at = needed;
    return cvl_status(CVL_LENGTH_MISMATCH, -1);
}

/* Whether a vector is too long, or a range ends behind the last place that one may have. */
/*@ requires is_call(row, s) && k < row->operands;
    assigns \nothing;
    ensures \result <==> is_too_long(row, s, k); */
static bool is_too_long(const CvlRow *row, const CvlSlot *s, size_t k) {
    if (!(row->operand[k].is & CVL_TOO_MANY)) return 0;
    return row->operand[k].relation == CVL_FROM_LOWEST ? !cvl_is_long_enough(row, s, k) : s[k].number > row->most;
}

/* Whether any is. */
/*@ requires is_call(row, s);
    assigns \nothing;
    ensures \result <==> are_too_long(row, s); */
static bool are_too_long(const CvlRow *row, const CvlSlot *s) {
    /*@ loop invariant 0 <= k <= row->operands && \forall integer j; 0 <= j < k ==> !is_too_long(row, s, j);
        loop assigns k;
        loop variant row->operands - k; */
    for (size_t k = 0; k < row->operands; k++) {
        if (is_too_long(row, s, k)) return 1;
    }
    return 0;
}

/* The first fault of a call's lengths and offsets, in their order, also if they do not add up to what they should. */
typedef struct LengthsTold {
    CvlStatus first;
    bool agree;
} LengthsTold;

/*@ requires is_call(row, s);
    assigns \nothing;
    ensures is_flat(row) ==> \result.first.number == CVL_DONE && \result.agree == 1; */
static LengthsTold all_lengths_told(const CvlRow *row, const CvlSlot *s) {
    LengthsTold all = {cvl_done(), 1};
    /*@ loop invariant 0 <= k <= row->operands && all.first.number == CVL_DONE && (is_flat(row) ==> all.agree == 1);
        loop assigns k, all;
        loop variant row->operands - k; */
    for (size_t k = 0; k < row->operands; k++) {
        const CvlOperand *const o = &row->operand[k];
        size_t total = 0;
        if (o->total == k) continue;
        all.first = lengths_told(o, s[k], row->most, &total);
        if (all.first.number != CVL_DONE) return all;
        if (total != s[o->total].number) all.agree = 0;
    }
    return all;
}

CvlStatus cvl_told(const CvlRow *row, uint32_t op, const CvlSlot *s) {
    if (!cvl_is_known(row, op)) return cvl_status(CVL_UNKNOWN_CALL, -1);
    const LengthsTold lengths = all_lengths_told(row, s);
    if (lengths.first.number != CVL_DONE) return lengths.first;
    if (are_too_long(row, s)) return cvl_status(CVL_TOO_LONG, -1);
    return lengths.agree && cvl_do_agree(row, op, s) ? room_told(row, s) : cvl_status(CVL_LENGTH_MISMATCH, -1);
}

/* Whether the export may answer this although another fault comes first: it checks rooms after memory and elements. */
/*@ assigns \nothing;
    ensures \result ==> status.number != CVL_DONE; */
static bool is_late(CvlStatus status) {
    return status.number == CVL_NO_RESOURCES || status.number == CVL_OVERFLOW ||
        (status.number >= CVL_DIVIDE_BY_ZERO && status.number <= CVL_INDEX_REPEATED);
}

/*@ requires \valid_read(text + (0 .. text_len - 1));
    assigns \nothing;
    ensures \let most = nested ? CVL_MOST_OF_TEXT : CVL_MOST_ELEMENTS;
      \result <==> words_in(text, nested, text_len) > most || lists_in(text, nested, text_len) > most + 1; */
bool cvl_many_words(const char *text, size_t text_len, bool nested) {
    const size_t most = nested ? CVL_MOST_OF_TEXT : CVL_MOST_ELEMENTS;
    size_t words = 0, lists = 0;
    bool inside = 0;
    /*@ loop invariant 0 <= k <= text_len && words == words_in(text, nested, k) <= k && lists == lists_in(text, nested, k) <= k;
        loop invariant inside <==> k > 0 && !is_between(text[k - 1], nested);
        loop assigns k, words, lists, inside;
        loop variant text_len - k; */
    for (size_t k = 0; k < text_len; k++) {
        const char byte = text[k];
        const bool bracket = nested && (byte == '[' || byte == ']');
        const bool white = byte == ' ' || byte == '\t' || byte == '\n' || byte == '\r';
        if (!bracket && !white && !inside) words++;
        if (nested && byte == '[') lists++;
        inside = !bracket && !white;
    }
    return words > most || lists > most + 1;
}

/* Whether a text is too long, or too many words come before it. */
/*@ requires is_call(row, s);
    assigns \nothing; */
static bool is_too_long_to_read(const CvlRow *row, const CvlSlot *s) {
    const CvlSlot *const text = slot_of(row, s, CVL_AS_A), *const before = slot_of(row, s, CVL_AS_VALUE);
    return (before != NULL && before->number > CVL_MOST_ELEMENTS) ||
        cvl_many_words(text->at, text->number, slot_of(row, s, CVL_AS_OTHER_OUT) != NULL);
}

CvlStatus cvl_told_late(const CvlRow *row, uint32_t op, const CvlSlot *s, CvlStatus status) {
    if (row->is & CVL_READS_TEXT) {
        return status.number == CVL_NO_RESOURCES && is_too_long_to_read(row, s) ? cvl_status(CVL_TOO_LONG, -1) : status;
    }
    const CvlStatus before = is_late(status) ? cvl_told(row, op, s) : cvl_done();
    return before.number == CVL_DONE ? status : before;
}

bool cvl_are_flags(const bool *flags, size_t flags_len) { return cvl_proved_are_flags(flags, flags_len); }

void cvl_make_flags(bool *flags, size_t flags_len) { cvl_proved_make_flags(flags, flags_len); }

/*
 * Why the last call of a thread that had a fault is not done. What can be said is looked up when the fault is returned, since arrays may be
 * gone when somebody asks; it is kept as numbers, and put into words only then.
 */
#include "driver.h"

#include <stdarg.h>
#include <stdio.h>

/* What is said of a fault beside its name. */
typedef enum Said {
    SAID_NOTHING,
    SAID_NUMBER,  /* "index is 12" */
    SAID_ELEMENT, /* "index[3] is 12" */
    SAID_LENGTHS, /* "b has 1 elements, and a has 2" */
    SAID_TOTAL,   /* "lengths add up to 5, and a has 6 elements" */
    SAID_ROOM,    /* "out has 1 elements, and has to have 2" */
    SAID_SHARED   /* "out and index share memory" */
} Said;

typedef struct Kept {
    CvlStatus status;
    const CvlRow *row;
    Said said;
    size_t one, other;     /* the operands that it is about, */
    int64_t value;         /* the value at fault */
    size_t number, wanted; /* and how many elements they have */
} Kept;

/* Reached without a call of the loader, which a library for older systems is not linked with. */
#if defined(__GNUC__)
#define CVL_OF_THREAD _Thread_local __attribute__((tls_model("initial-exec")))
#else
#define CVL_OF_THREAD _Thread_local
#endif
static CVL_OF_THREAD Kept last_fault;

/* ---- what can be said ---- */

static bool is_cut(const CvlOperand *o) {
    return o->as == CVL_AS_LENGTHS || o->as == CVL_AS_OTHER_LENGTHS || o->as == CVL_AS_THIRD_LENGTHS;
}

/* The value of an operand at the place of a fault, and whether there is one. */
static bool find_value(Kept *k, const CvlSlot *s, size_t one) {
    const int64_t place = k->status.place;
    k->one = one;
    if (s[one].at == NULL && k->row->operand[one].size == 0) {
        k->value = (int64_t)s[one].number;
        k->said = SAID_NUMBER;
        return 1;
    }
    if (place < 0 || (uint64_t)place >= s[one].number || k->row->operand[one].size != sizeof(int32_t)) return 0;
    k->value = ((const int32_t *)s[one].at)[place];
    k->said = SAID_ELEMENT;
    return 1;
}

/* An element at fault, and how many places an index may name. */
static void find_element(Kept *k, const CvlSlot *s) {
    if (!(k->row->tells >> (k->status.number & 31) & 1) || !find_value(k, s, k->row->about)) return;
    k->other = k->status.number == CVL_INDEX_OUT_OF_RANGE ? k->row->into : CVL_MOST_OPERANDS;
    if (k->other < k->row->operands) k->wanted = s[k->other].number;
}

/* The first negative length, or the count. */
static void find_negative(Kept *k, const CvlSlot *s) {
    for (size_t j = 0; j < k->row->operands; j++) {
        const CvlOperand *const o = &k->row->operand[j];
        if ((is_cut(o) || o->as == CVL_AS_COUNT) && find_value(k, s, j) && k->value < 0) return;
        k->said = SAID_NOTHING;
    }
}

static bool differ(Kept *k, Said said, size_t one, size_t number, size_t other, size_t wanted) {
    if (number == wanted) return 0;
    k->said = said, k->one = one, k->number = number, k->other = other, k->wanted = wanted;
    return 1;
}

/* Whether lengths do not add up to the array that they cut. */
static bool total_differs(Kept *k, const CvlSlot *s, size_t one) {
    const size_t other = k->row->operand[one].total;
    size_t total = 0;
    if (!is_cut(&k->row->operand[one]) || other == one) return 0;
    if (cvl_proved_make_descriptor(s[one].at, s[one].number, &total).number != CVL_DONE) return 0;
    return differ(k, SAID_TOTAL, one, total, other, s[other].number);
}

/* A room that has to be as long as two vectors together, or as what the call has told. */
static void find_room(Kept *k, const CvlSlot *s) {
    size_t together = 0, told = k->row->operands;
    for (size_t j = 0; j < k->row->operands; j++) {
        const unsigned char as = k->row->operand[j].as;
        if (as == CVL_AS_A || as == CVL_AS_B) together += s[j].number;
        if (as == CVL_AS_TOLD) told = j;
    }
    const size_t out = k->row->out, room = s[out].number;
    const bool counts = (k->row->is & (CVL_FRONT | CVL_READS_TEXT)) && told < k->row->operands;
    /* a call that counts has told by now how many there are */
    const size_t needed = counts ? *(const size_t *)s[told].at : together;
    if ((counts && needed > room) || (k->row->is & CVL_APPENDS)) (void)differ(k, SAID_ROOM, out, room, out, needed);
}

/* The first two operands that are not as long as they have to be. */
static void find_lengths(Kept *k, const CvlSlot *s) {
    for (size_t j = 0; j < k->row->operands; j++) {
        const CvlOperand *const o = &k->row->operand[j];
        if (total_differs(k, s, j)) return;
        if (o->relation == CVL_SAME && (o->size != 0 || is_cut(o)) &&
            differ(k, SAID_LENGTHS, j, s[j].number, o->like, s[o->like].number)) {
            /* a room that is as long as a count says */
            if (k->row->operand[o->like].size == 0) k->said = SAID_ROOM;
            return;
        }
    }
    find_room(k, s);
}

/* The first two operands that share memory, and may not. */
static void find_shared(Kept *k, const CvlSlot *s) {
    for (size_t j = 0; j < k->row->operands; j++) {
        for (size_t m = 0; m < k->row->operands; m++) {
            if (!cvl_is_compared(k->row, j, m) || !cvl_do_meet(k->row, s, j, m)) continue;
            k->said = SAID_SHARED, k->one = j, k->other = m;
            if (!(k->row->operand[m].is & CVL_IN_PLACE) || !cvl_is_one(s[j], s[m])) return;
        }
    }
}

CvlStatus cvl_keep_fault(const CvlRow *row, const CvlSlot *s, CvlStatus status) {
    last_fault = (Kept){.status = status, .row = row, .other = CVL_MOST_OPERANDS};
    if (row == NULL) return status;
    switch (status.number) {
    case CVL_LENGTH_MISMATCH: find_lengths(&last_fault, s); break;
    case CVL_NEGATIVE_LENGTH: find_negative(&last_fault, s); break;
    case CVL_OVERLAP: find_shared(&last_fault, s); break;
    default: find_element(&last_fault, s); break;
    }
    return status;
}

/* ---- in words ---- */

/* A text as long as it is, of which as much is written as there is room for. */
typedef struct Text {
    char *at;
    size_t size, length;
} Text;

static void put(Text *text, const char *form, ...) {
    va_list words;
    const bool fits = text->length < text->size;
    va_start(words, form);
    const int made = vsnprintf(fits ? text->at + text->length : NULL, fits ? text->size - text->length : 0, form, words);
    va_end(words);
    if (made > 0) text->length += (size_t)made;
}

static void put_said(Text *text) {
    const char *const *const names = last_fault.row->names;
    const char *const one = names[last_fault.one],
                      *const other = last_fault.other < last_fault.row->operands ? names[last_fault.other] : NULL;
    const long long value = (long long)last_fault.value, place = (long long)last_fault.status.place;
    switch (last_fault.said) {
    case SAID_NOTHING: return;
    case SAID_NUMBER: put(text, ": %s is %lld", one, value); break;
    case SAID_ELEMENT: put(text, ": %s[%lld] is %lld", one, place, value); break;
    case SAID_LENGTHS:
        put(text, ": %s has %zu elements, and %s has %zu", one, last_fault.number, other, last_fault.wanted);
        return;
    case SAID_TOTAL:
        put(text, ": %s add up to %zu, and %s has %zu elements", one, last_fault.number, other, last_fault.wanted);
        return;
    case SAID_ROOM: put(text, ": %s has %zu elements, and has to have %zu", one, last_fault.number, last_fault.wanted); return;
    case SAID_SHARED: put(text, ": %s and %s share memory", one, other); return;
    }
    if (other != NULL) put(text, ", and %s has %zu elements", other, last_fault.wanted);
}

size_t cvl_explain(CvlStatus status, char *text, size_t size) {
    Text made = {text, size, 0};
    if (size != 0) text[0] = 0;
    if (status.number == CVL_DONE) return 0;
    put(&made, "fault %lu %s", (unsigned long)status.number, cvl_fault_name(status.number));
    if (status.place >= 0) put(&made, " at %lld", (long long)status.place);
    if (last_fault.row != NULL && last_fault.status.number == status.number && last_fault.status.place == status.place)
        put_said(&made);
    return made.length;
}

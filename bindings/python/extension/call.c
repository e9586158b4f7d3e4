/* A call from Python: binds and takes arguments, finds a room, calls the family, and returns its result. */
#include "calls.h"

/* ---- arguments by place and by name ---- */

static PyObject *out_keyword;

static const Operand out_ints = {"out", KIND_ROOM_INTS, EXTENT_NONE, NULL},
                     out_flags = {"out", KIND_ROOM_FLAGS, EXTENT_NONE, NULL},
                     out_bytes = {"out", KIND_ROOM_BYTES, EXTENT_NONE, NULL},
                     out_sums = {"out", KIND_ROOM_SUMS, EXTENT_NONE, NULL}, over_ints = {"out", KIND_ROOM_INTS, EXTENT_M, NULL},
                     over_flags = {"out", KIND_ROOM_FLAGS, EXTENT_M, NULL}, over_sums = {"out", KIND_ROOM_SUMS, EXTENT_M, NULL};

int cvl_keywords_ready(void) {
    out_keyword = PyUnicode_InternFromString("out");
    if (out_keyword == NULL) return -1;
    for (int k = 0; k < cvl_families_count; k++) {
        for (int j = 0; j < cvl_families[k].count; j++) {
            Operand *operand = &cvl_families[k].operands[j];
            operand->keyword = PyUnicode_InternFromString(operand->name);
            if (operand->keyword == NULL) return -1;
        }
    }
    return 0;
}

static int takes_out(const Family *family) { return family->gives <= GIVES_FRONT_FLAGS || family->gives == GIVES_READ; }

/* Whether the room holds what stands before. Then the caller has to give one, also by its place. */
static int is_over(const Family *family) { return family->gives >= GIVES_OVER_INTS && family->gives <= GIVES_OVER_SUMS; }

const Operand *cvl_out_of(const Family *family) {
    switch (family->gives) {
    case GIVES_FLAGS:
    case GIVES_FRONT_FLAGS: return &out_flags;
    case GIVES_BYTES: return &out_bytes;
    case GIVES_SUMS: return &out_sums;
    case GIVES_OVER_INTS: return &over_ints;
    case GIVES_OVER_FLAGS: return &over_flags;
    case GIVES_OVER_SUMS: return &over_sums;
    default: return &out_ints;
    }
}

/* The operand of a name, the number of operands for `out`, or -1. */
static int place_of(const Family *family, PyObject *name) {
    for (int k = 0; k < family->count; k++) {
        if (name == family->operands[k].keyword) return k;
    }
    if (name == out_keyword) return takes_out(family) ? family->count : -1;
    for (int k = 0; k < family->count; k++) {
        if (PyUnicode_Compare(name, family->operands[k].keyword) == 0) return k;
    }
    return takes_out(family) && PyUnicode_Compare(name, out_keyword) == 0 ? family->count : -1;
}

static int bind(const Row *row, PyObject *const *arguments, Py_ssize_t count, PyObject *keywords, PyObject **bound) {
    const Family *family = row->family;
    const Py_ssize_t named = keywords == NULL ? 0 : PyTuple_Size(keywords);
    const int required = family->count + is_over(family);
    if (count > required) {
        PyErr_Format(PyExc_TypeError, "%s() takes %d positional arguments but %zd were given", row->name, required, count);
        return -1;
    }
    for (int k = 0; k <= family->count; k++) bound[k] = k < count ? arguments[k] : NULL;
    for (Py_ssize_t k = 0; k < named; k++) {
        PyObject *name = PyTuple_GetItem(keywords, k);
        const int place = place_of(family, name);
        if (place < 0 || bound[place] != NULL) {
            const char *said = place < 0 ? "an unexpected keyword argument" : "multiple values for argument";
            PyErr_Format(PyExc_TypeError, "%s() got %s '%U'", row->name, said, name);
            return -1;
        }
        bound[place] = arguments[count + k];
    }
    for (int k = 0; k < required; k++) {
        if (bound[k] != NULL) continue;
        PyErr_Format(
            PyExc_TypeError, "%s() missing 1 required argument: '%s'", row->name,
            k < family->count ? family->operands[k].name : "out");
        return -1;
    }
    return 0;
}

/* Numbers that stand for arrays become as long as the first argument that is one. */
static int spread(Frame *frame) {
    const Family *family = frame->row->family;
    int first = 0, numbers = 0;
    for (int k = 0; k < family->count; k++) numbers += frame->given[k].spread;
    if (numbers == 0) return 0;
    while (first < family->count && frame->given[first].spread) first++;
    if (first == family->count) {
        PyErr_Format(
            PyExc_TypeError,
            "%s takes a number in the place of an array beside an array, and there is none; write "
            "numpy.array([%s], dtype=%s)",
            frame->row->name, family->operands[0].name,
            family->operands[0].kind == KIND_INTS ? cvl_ints.written : cvl_flags.written);
        return -1;
    }
    if (cvl_look(frame) < 0) return -1;
    for (int k = 0; k < family->count; k++) {
        if (frame->given[k].spread && cvl_spread(frame, k, frame->given[first].count) < 0) return -1;
    }
    return 0;
}

/* Takes an argument. An array of numpy's own type, as most are, is read later. */
static int take_one(PyObject *object, const Operand *operand, const Row *row, Given *given) {
    if (!PyArray_CheckExact(object) || cvl_needs[operand->kind].flags == 0) return cvl_take_argument(object, operand, row, given);
    given->array = (PyArrayObject *)object;
    return 0;
}

int cvl_begin(Frame *frame, const Row *row, PyObject *const *arguments, Py_ssize_t count, PyObject *keywords, PyObject **bound) {
    const Family *family = row->family;
    PyObject **const out = &bound[family->count];
    frame->row = row;
    frame->out = cvl_out_of(family);
    frame->room = frame->second = (Given){.at = NULL};
    frame->no_memory = frame->over_ranks = 0;
    for (int k = 0; k < family->count; k++) frame->given[k] = (Given){.at = NULL};
    if (bind(row, arguments, count, keywords, bound) < 0) return -1;
    if (*out == Py_None && !is_over(family)) *out = NULL;
    for (int k = 0; k < family->count; k++) {
        if (take_one(bound[k], &family->operands[k], row, &frame->given[k]) < 0) return -1;
    }
    if (*out != NULL && take_one(*out, frame->out, row, &frame->room) < 0) return -1;
    return family->spreads ? spread(frame) : 0;
}

void cvl_let_go(Frame *frame) {
    for (int k = 0; k < frame->row->family->count; k++) Py_XDECREF(frame->given[k].held);
    Py_XDECREF(frame->room.held);
    Py_XDECREF(frame->second.held);
}

/* ---- the call itself ---- */

/* Calls the family, which gives a status, or -1 with an exception. Other threads of the interpreter run meanwhile if the call is long. */
static int make(Frame *frame) {
    const Family *family = frame->row->family;
    if (cvl_look(frame) < 0) return -1;
    size_t much = frame->room.count;
    for (int k = 0; k < family->count; k++) much += frame->given[k].count;
    PyThreadState *state = much < MUCH ? NULL : PyEval_SaveThread();
    frame->status = cvl_make(frame);
    if (state != NULL) PyEval_RestoreThread(state);
    return 0;
}

/*
 * Raises the first fault of a call for which there is no memory. The family is called so that it has a fault at the latest when lengths are
 * compared, and touches no element.
 */
static void refuse(Frame *frame, int has_room) {
    const Family *family = frame->row->family;
    size_t counts[MOST_OPERANDS], needed;
    if (cvl_look(frame) < 0) return;
    for (int k = 0; k < family->count; k++) {
        Given *given = &frame->given[k];
        counts[k] = given->count;
        if (!given->spread || given->held != NULL) continue;
        given->count += given->count == 0 || given->count > family->most ? 1 : (size_t)-1;
    }
    const CvlStatus status = cvl_make(frame);
    for (int k = 0; k < family->count; k++) frame->given[k].count = counts[k];
    const int fits = !has_room || (cvl_measure(frame, &needed) && frame->room.count == needed);
    if (status.number == CVL_DONE || (status.number == CVL_LENGTH_MISMATCH && cvl_lengths_agree(frame) && fits)) {
        if (!PyErr_Occurred()) PyErr_SetString(PyExc_MemoryError, "there is no memory for the result");
    } else if (!PyErr_Occurred()) {
        cvl_tell(frame, status, has_room);
    }
}

/* Makes a call, and answers whether it is done; else there is an exception. */
static int done(Frame *frame, int has_room) {
    if (make(frame) < 0) return 0;
    if (frame->status.number == CVL_DONE) return 1;
    cvl_tell(frame, frame->status, has_room);
    return 0;
}

/* A new room for the result. */
static int find_room(Frame *frame) {
    const Family *family = frame->row->family;
    size_t needed;
    if (cvl_look(frame) < 0) return -1;
    if (!cvl_measure(frame, &needed) || needed > family->most) {
        frame->no_memory = 1;
        return 0;
    }
    return cvl_new_room(frame, &frame->room, needed, cvl_needs[frame->out->kind].element);
}

static int fill(Frame *frame, PyObject *out) {
    if (out == NULL && find_room(frame) < 0) return 0;
    if (frame->no_memory) {
        refuse(frame, out != NULL);
        return 0;
    }
    return done(frame, out != NULL);
}

/* ---- texts ---- */

/* A text of at most so many bytes is written on the stack first, and a longer one in memory of its own. */
enum { SHORT = 512 };

/*
 * Makes a call that reports how long its result is: first without a room, and then with one. Answers whether there is one to be filled, or
 * -1. A count that was not reported was no count.
 */
static int ask(Frame *frame) {
    frame->told = frame->told_second = SIZE_MAX;
    if (make(frame) < 0) return -1;
    if (frame->status.number == CVL_DONE) return 0;
    if (frame->status.number == CVL_LENGTH_MISMATCH && frame->told != SIZE_MAX) return 1;
    cvl_tell(frame, frame->status, 0);
    return -1;
}

/*
 * Makes a call again with rooms as long as it needs. If another thread writes its argument meanwhile, it reports other counts, and there
 * may be memory in the rooms that nobody wrote.
 */
static int fill_asked(Frame *frame) {
    const size_t told = frame->told, told_second = frame->told_second;
    if (frame->no_memory) PyErr_NoMemory();
    if (frame->no_memory || make(frame) < 0) return 0;
    if (frame->told != told || frame->told_second != told_second) cvl_tell_change();
    else if (frame->status.number != CVL_DONE) cvl_tell(frame, frame->status, 0);
    return !PyErr_Occurred();
}

static PyObject *read_text(Frame *frame, PyObject *out) {
    if (out != NULL) return done(frame, 1) ? cvl_front(&frame->room, out, frame->told) : NULL;
    const int more = ask(frame);
    if (more < 0 || cvl_new_room(frame, &frame->room, more ? frame->told : 0, &cvl_ints) < 0) return NULL;
    return fill_asked(frame) ? Py_NewRef(frame->room.held) : NULL;
}

static PyObject *read_nested(Frame *frame) {
    const int more = ask(frame);
    if (more < 0 || cvl_new_room(frame, &frame->room, more ? frame->told : 0, &cvl_ints) < 0) return NULL;
    if (cvl_new_room(frame, &frame->second, more ? frame->told_second : 0, &cvl_ints) < 0 || !fill_asked(frame)) return NULL;
    PyObject *segments = cvl_segments_of(frame->second.held);
    return segments == NULL ? NULL : Py_BuildValue("ON", frame->room.held, segments);
}

/* A text of ASCII. What is written is not known to be that before it is looked at, since another thread may write its argument. */
static PyObject *write_text(Frame *frame) {
    char here[SHORT];
    const int more = ask(frame);
    if (more < 0) return NULL;
    frame->room.count = more ? frame->told : 0;
    if (frame->room.count > sizeof here) {
        frame->room.held = PyBytes_FromStringAndSize(NULL, (Py_ssize_t)frame->room.count);
        if (frame->room.held == NULL) return NULL;
    }
    char *const at = frame->room.held == NULL ? here : PyBytes_AsString(frame->room.held);
    frame->room.at = at;
    return !more || fill_asked(frame) ? PyUnicode_DecodeASCII(at, (Py_ssize_t)frame->room.count, NULL) : NULL;
}

/* ---- what is returned ---- */

static PyObject *array_result(Frame *frame, PyObject *out) {
    if (!fill(frame, out)) return NULL;
    return Py_NewRef(out == NULL ? frame->room.held : out);
}

static PyObject *front_result(Frame *frame, PyObject *out) {
    return fill(frame, out) ? cvl_front(&frame->room, out, frame->told) : NULL;
}

static PyObject *single_result(Frame *frame) {
    if (!done(frame, 0)) return NULL;
    switch (frame->row->family->gives) {
    case GIVES_INT: return PyLong_FromLong(frame->single.number);
    case GIVES_FLAG: return PyBool_FromLong(frame->single.flag != 0);
    case GIVES_SUM: return PyLong_FromLongLong(frame->single.sum);
    case GIVES_LENGTH: return PyLong_FromSize_t(frame->given[0].count);
    default: return PyLong_FromSize_t(frame->told);
    }
}

/* The lengths that a call was given, in a new array, if they are some. */
static PyObject *lengths_result(Frame *frame) {
    const Given *lengths = &frame->given[0];
    if (!done(frame, 0) || cvl_new_room(frame, &frame->room, lengths->count, &cvl_ints) < 0) return NULL;
    if (frame->no_memory) return PyErr_NoMemory();
    if (cvl_look(frame) < 0) return NULL;
    if (lengths->count != frame->room.count) {
        cvl_tell_change();
        return NULL;
    }
    if (lengths->count != 0) memcpy(frame->room.at, lengths->at, lengths->count * sizeof(int32_t));
    return Py_NewRef(frame->room.held);
}

static PyObject *result(Frame *frame, PyObject **bound, PyObject *out) {
    switch (frame->row->family->gives) {
    case GIVES_INTS:
    case GIVES_FLAGS:
    case GIVES_BYTES:
    case GIVES_SUMS:
    case GIVES_OVER_INTS:
    case GIVES_OVER_FLAGS:
    case GIVES_OVER_SUMS: return array_result(frame, out);
    case GIVES_FRONT_INTS:
    case GIVES_FRONT_FLAGS: return front_result(frame, out);
    case GIVES_SEGMENTS: return fill(frame, NULL) ? cvl_segments_of(frame->room.held) : NULL;
    case GIVES_CUT: return cvl_look(frame) < 0 ? NULL : cvl_segments_of(bound[0]);
    case GIVES_LENGTHS: return lengths_result(frame);
    case GIVES_READ: return read_text(frame, out);
    case GIVES_READ_NESTED: return read_nested(frame);
    case GIVES_TEXT: return write_text(frame);
    case GIVES_NOTHING: return done(frame, 0) ? Py_NewRef(Py_None) : NULL;
    default: return single_result(frame);
    }
}

PyObject *cvl_call_from_python(const Row *row, PyObject *const *arguments, Py_ssize_t count, PyObject *keywords) {
    PyObject *bound[MOST_OPERANDS + 1], *found = NULL;
    Frame frame;
    if (cvl_begin(&frame, row, arguments, count, keywords, bound) == 0) found = result(&frame, bound, bound[row->family->count]);
    cvl_let_go(&frame);
    return found;
}

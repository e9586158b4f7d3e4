/*
 * How cvl.mpi takes the arguments of its calls, and what it says of its faults: by the same functions as plain calls. Its table
 * of calls is in Python, and names kinds, extents and results.
 */
#include "calls.h"

typedef struct Word {
    const char *name;
    int number;
} Word;

static const Word kinds[] = {
    {"ints", KIND_INTS},
    {"index", KIND_INDEX},
    {"flags", KIND_FLAGS},
    {"bytes", KIND_BYTES},
    {"segments", KIND_RANK_SEGMENTS},
    {"int", KIND_INT},
    {"flag", KIND_FLAG},
    {"operator", KIND_OPERATOR},
    {"wide", KIND_WIDE},
    {"size", KIND_SIZE},
    {NULL, 0},
};

static const Word extents[] = {
    {"n", EXTENT_N},         {"m", EXTENT_M},           {"segments", EXTENT_SEGMENTS}, {"total", EXTENT_TOTAL},
    {"trues", EXTENT_TRUES}, {"falses", EXTENT_FALSES}, {"offsets", EXTENT_OFFSETS},   {NULL, 0},
};

/* What a call gives: one value, or an array, which may stand in the caller's room. */
static const Word results[] = {
    {"one", GIVES_INT},
    {"ints", GIVES_INTS},
    {"flags", GIVES_FLAGS},
    {"bytes", GIVES_BYTES},
    {"sums", GIVES_SUMS},
    {"over_ints", GIVES_OVER_INTS},
    {"over_flags", GIVES_OVER_FLAGS},
    {"over_sums", GIVES_OVER_SUMS},
    {"front_ints", GIVES_FRONT_INTS},
    {"front_flags", GIVES_FRONT_FLAGS},
    {NULL, 0},
};

/* The number of a word, or -1 with an exception. */
static int number_of(const Word *words, const char *name) {
    for (; words->name != NULL; words++) {
        if (strcmp(words->name, name) == 0) return words->number;
    }
    PyErr_Format(PyExc_SystemError, "no table has the word %s", name);
    return -1;
}

static int read_operand(PyObject *said, Operand *operand) {
    const char *kind, *extent;
    if (!PyArg_ParseTuple(said, "Usz", &operand->keyword, &kind, &extent)) return -1;
    const int number = number_of(kinds, kind), long_as = extent == NULL ? EXTENT_NONE : number_of(extents, extent);
    operand->kind = (Kind)number;
    operand->extent = (Extent)long_as;
    operand->name = PyUnicode_AsUTF8AndSize(operand->keyword, NULL);
    return operand->name == NULL || number < 0 || long_as < 0 ? -1 : 0;
}

/* The row of a call: its name, its operands, what it gives, and whether a number may stand for an array. */
static int read_row(PyObject *said, Row *row, Family *family) {
    PyObject *operands;
    const char *gives;
    if (!PyArg_ParseTuple(said, "sO!sp", &row->name, &PyTuple_Type, &operands, &gives, &family->spreads)) return -1;
    const int number = number_of(results, gives);
    if (number < 0) return -1;
    family->gives = (Gives)number;
    family->count = (int)PyTuple_Size(operands);
    family->most = SIZE_MAX;
    if (family->count > MOST_OPERANDS) {
        PyErr_Format(PyExc_SystemError, "%s has too many operands", row->name);
        return -1;
    }
    for (int k = 0; k < family->count; k++) {
        if (read_operand(PyTuple_GetItem(operands, k), &family->operands[k]) < 0) return -1;
    }
    row->family = family;
    return 0;
}

/* An argument as it is taken: an array, the segments that were given, or a number. */
static PyObject *taken(const Given *given, Kind kind, PyObject *object) {
    if (kind == KIND_RANK_SEGMENTS) return Py_NewRef(object);
    if (given->array != NULL) return Py_NewRef((PyObject *)given->array);
    return given->held != NULL ? Py_NewRef(given->held) : PyLong_FromLongLong(given->number);
}

/* All arguments of a frame, then the room as an array and as it was given, or None twice. */
static PyObject *all_taken(Frame *frame, PyObject **bound) {
    const Family *family = frame->row->family;
    const int count = family->count;
    PyObject *found = PyList_New(count + 2), *out = bound[count];
    for (int k = 0; found != NULL && k < count; k++) {
        PyObject *one = taken(&frame->given[k], family->operands[k].kind, bound[k]);
        if (one == NULL) Py_CLEAR(found);
        else PyList_SetItem(found, k, one);
    }
    if (found == NULL) return NULL;
    PyList_SetItem(found, count, Py_NewRef(out == NULL ? Py_None : (PyObject *)frame->room.array));
    PyList_SetItem(found, count + 1, Py_NewRef(out == NULL ? Py_None : out));
    return found;
}

static PyObject *take(PyObject *self, PyObject *const *arguments, Py_ssize_t count, PyObject *keywords) {
    PyObject *bound[MOST_OPERANDS + 1], *found = NULL;
    Family family;
    Row row = {.op = 0};
    Frame frame;
    (void)self;
    if (count == 0 || !PyTuple_Check(arguments[0])) return PyErr_Format(PyExc_TypeError, "take() takes the row of a call first");
    if (read_row(arguments[0], &row, &family) < 0) return NULL;
    if (cvl_begin(&frame, &row, arguments + 1, count - 1, keywords, bound) == 0 && cvl_look(&frame) == 0) {
        found = frame.no_memory ? PyErr_NoMemory() : all_taken(&frame, bound);
    }
    cvl_let_go(&frame);
    return found;
}

/* ---- what is said of a fault ---- */

/* An argument as `take` gave it; of segments how many start in this rank, and how many elements they have here. */
static int retake(PyObject *object, Kind kind, Given *given) {
    Py_ssize_t starts, total;
    *given = (Given){.at = NULL};
    if (kind == KIND_RANK_SEGMENTS) {
        if (!PyArg_ParseTuple(object, "nn", &starts, &total)) return -1;
        given->count = (size_t)starts;
        given->number = total;
    } else if (PyArray_Check(object)) {
        given->array = (PyArrayObject *)object;
    } else {
        given->number = PyLong_AsLongLong(object);
    }
    return PyErr_Occurred() ? -1 : 0;
}

static PyObject *said(PyObject *self, PyObject *words) {
    PyObject *row_said, *given;
    Family family;
    Row row = {.op = 0};
    Frame frame = {.row = &row, .over_ranks = 1};
    CvlStatus status;
    unsigned int number;
    long long place;
    (void)self;
    if (!PyArg_ParseTuple(words, "OO!IL", &row_said, &PyList_Type, &given, &number, &place)) return NULL;
    if (read_row(row_said, &row, &family) < 0) return NULL;
    if (PyList_Size(given) <= family.count) return PyErr_Format(PyExc_TypeError, "said() takes what take() gave");
    for (int k = 0; k < family.count; k++) {
        if (retake(PyList_GetItem(given, k), family.operands[k].kind, &frame.given[k]) < 0) return NULL;
    }
    PyObject *room = PyList_GetItem(given, family.count);
    frame.out = cvl_out_of(&family);
    if (PyArray_Check(room)) frame.room.array = (PyArrayObject *)room;
    status = (CvlStatus){number, place};
    /* how long the room has to be is known in Python */
    return cvl_said(&frame, status, number == CVL_OVERLAP && PyArray_Check(room));
}

static PyObject *about(PyObject *self, PyObject *words) {
    PyObject *row_said;
    Family family;
    Row row = {.op = 0};
    unsigned int number;
    (void)self;
    if (!PyArg_ParseTuple(words, "OI", &row_said, &number) || read_row(row_said, &row, &family) < 0) return NULL;
    for (int k = 0; k < family.count; k++) {
        if (cvl_is_about(number, &family.operands[k])) return PyLong_FromLong(k);
    }
    Py_RETURN_NONE;
}

/* ---- indices of 64 bits ---- */

static PyObject *narrowed(PyObject *self, PyObject *index) {
    Frame frame = {.no_memory = 0};
    Given wide = {.at = NULL}, room = {.at = NULL};
    (void)self;
    if (!PyArray_Check(index) || !PyArray_EquivTypes(PyArray_DESCR((PyArrayObject *)index), cvl_sums.descr))
        return Py_NewRef(index);
    wide.at = PyArray_DATA((PyArrayObject *)index);
    wide.count = (size_t)PyArray_SIZE((PyArrayObject *)index);
    if (cvl_new_room(&frame, &room, wide.count, &cvl_ints) < 0) return NULL;
    if (frame.no_memory) return PyErr_NoMemory();
    PyThreadState *state = wide.count < MUCH ? NULL : PyEval_SaveThread();
    const CvlStatus status = cvl_narrow_index(wide.at, wide.count, room.at, room.count);
    if (state != NULL) PyEval_RestoreThread(state);
    if (status.number == CVL_DONE) return room.held;
    Py_DECREF(room.held);
    return PyErr_Format(PyExc_SystemError, "an index was narrowed into another length");
}

/* ---- the functions ---- */

PyDoc_STRVAR(
    doc_take,
    "take(row, *arguments, **named)\n"
    "\n"
    "The arguments of a call over ranks as its plain call takes them, or what that raises; then the caller's room, as an array\n"
    "and as it was given, or None twice. The row has the name of the call, its operands with their kinds and extents, what the\n"
    "call gives, and whether a number may stand for an array.");

PyDoc_STRVAR(
    doc_said,
    "said(row, given, number, place)\n"
    "\n"
    "What the plain call says of a fault, or None: of the arguments that take() gave, with two numbers in the place of\n"
    "segments, how many start in this rank and how many elements they have here. The place is this rank's own.");

PyDoc_STRVAR(
    doc_about,
    "about(row, number)\n"
    "\n"
    "The place of the operand that a fault of this number is about, or None.");

PyDoc_STRVAR(
    doc_narrowed,
    "narrowed(index)\n"
    "\n"
    "An index that take() gave in 32 bits: a new array if it has 64, in which one that is outside 32 bits is -1.");

PyMethodDef cvl_rank_methods[] = {
    {"take", (PyCFunction)(void (*)(void))take, METH_FASTCALL | METH_KEYWORDS, doc_take},
    {"said", said, METH_VARARGS, doc_said},
    {"about", about, METH_VARARGS, doc_about},
    {"narrowed", narrowed, METH_O, doc_narrowed},
    {NULL, NULL, 0, NULL},
};

/* Lengths of segments that nobody can change, on which `cvl.Segments` stands. */
#include "calls.h"
#include <structmember.h>

/* Calls read the lengths here, since a program may change the shape, the kind and the memory of an array. */
typedef struct Lengths {
    PyObject_HEAD PyObject *bytes; /* whose memory has the lengths */
    CvlLengths lengths;            /* in that memory */
    PyObject *offsets; /* bytes where each starts and where the last one ends, once somebody asks for them, or nothing */
    Py_ssize_t total;
} Lengths;

CvlLengths cvl_cut_lengths(PyObject *segments) { return ((Lengths *)segments)->lengths; }

PyObject *cvl_segments_of(PyObject *lengths) {
    static PyObject *type;
    if (type == NULL) {
        PyObject *module = PyImport_ImportModule("cvl.segments");
        if (module != NULL) type = PyObject_GetAttrString(module, "Segments");
        Py_XDECREF(module);
    }
    return type == NULL ? NULL : PyObject_CallFunctionObjArgs(type, lengths, NULL);
}

/* Integers in an array of its own, over the memory of bytes, which nobody can write. */
static PyObject *over_bytes(PyObject *bytes) {
    npy_intp count = (npy_intp)(PyBytes_Size(bytes) / (Py_ssize_t)sizeof(int32_t));
    Py_INCREF((PyObject *)cvl_ints.descr);
    PyObject *array = PyArray_NewFromDescr(&PyArray_Type, cvl_ints.descr, 1, &count, NULL, PyBytes_AsString(bytes), 0, NULL);
    if (array == NULL) return NULL;
    PyArray_UpdateFlags((PyArrayObject *)array, NPY_ARRAY_C_CONTIGUOUS | NPY_ARRAY_F_CONTIGUOUS | NPY_ARRAY_ALIGNED);
    if (PyArray_SetBaseObject((PyArrayObject *)array, Py_NewRef(bytes)) < 0) Py_CLEAR(array);
    return array;
}

static PyObject *as_array(PyObject *self, void *unused) {
    (void)unused;
    return over_bytes(((Lengths *)self)->bytes);
}

/* The offsets, which are found once. Two threads may both find them, and the first has them kept. */
static PyObject *offsets_array(PyObject *self, void *unused) {
    Lengths *found = (Lengths *)self;
    const size_t count = found->lengths.segments;
    (void)unused;
    if (found->offsets == NULL) {
        PyObject *bytes = PyBytes_FromStringAndSize(NULL, (Py_ssize_t)((count + 1) * sizeof(int32_t)));
        if (bytes == NULL) return NULL;
        int32_t *offsets = (int32_t *)(void *)PyBytes_AsString(bytes);
        PyThreadState *state = count < MUCH ? NULL : PyEval_SaveThread();
        const CvlStatus status = cvl_int_scan(CVL_ADD, found->lengths.lengths, count, offsets, count);
        if (state != NULL) PyEval_RestoreThread(state);
        offsets[count] = (int32_t)found->total;
        if (status.number == CVL_DONE && found->offsets == NULL) found->offsets = bytes;
        else Py_DECREF(bytes);
        if (status.number != CVL_DONE) return PyErr_NoMemory();
    }
    return over_bytes(found->offsets);
}

static const Operand operand = {"lengths", KIND_INTS, EXTENT_TOTAL, NULL};
static Family family = {1, {{"lengths", KIND_INTS, EXTENT_TOTAL, NULL}}, GIVES_CUT, EXTENT_NONE, 0, 0, 0, NULL, NULL};
static const Row row = {"Segments", &family, 0};

/* A copy of the numbers of a frame, once they are taken. */
static PyObject *copied(Frame *frame, PyObject *given) {
    const Given *found = &frame->given[0];
    if (cvl_take_argument(given, &operand, &row, &frame->given[0]) < 0 || cvl_look(frame) < 0) return NULL;
    return PyBytes_FromStringAndSize(found->at, (Py_ssize_t)(found->count * sizeof(int32_t)));
}

/* The lengths, if they are some. */
static PyObject *lengths_new(PyTypeObject *type, PyObject *arguments, PyObject *keywords) {
    static char *names[] = {"lengths", NULL};
    PyObject *given, *self = NULL;
    Frame frame = {.row = &row};
    size_t total = 0;
    if (!PyArg_ParseTupleAndKeywords(arguments, keywords, "O", names, &given)) return NULL;
    PyObject *bytes = copied(&frame, given);
    if (bytes != NULL) {
        const CvlLengths lengths = {(const int32_t *)(const void *)PyBytes_AsString(bytes), frame.given[0].count};
        const CvlStatus status = cvl_make_descriptor(lengths, &total);
        if (status.number != CVL_DONE) cvl_tell(&frame, status, 0);
        else self = PyType_GenericAlloc(type, 0);
        if (self != NULL) ((Lengths *)self)->lengths = lengths;
    }
    Py_XDECREF(frame.given[0].held);
    if (self == NULL) {
        Py_XDECREF(bytes);
        return NULL;
    }
    ((Lengths *)self)->bytes = bytes;
    ((Lengths *)self)->total = (Py_ssize_t)total;
    return self;
}

static void lengths_dealloc(PyObject *self) {
    PyTypeObject *type = Py_TYPE(self);
    const freefunc release = (freefunc)PyType_GetSlot(type, Py_tp_free);
    Py_CLEAR(((Lengths *)self)->bytes);
    Py_CLEAR(((Lengths *)self)->offsets);
    release(self);
    Py_DECREF(type);
}

static Py_ssize_t lengths_length(PyObject *self) { return (Py_ssize_t)cvl_cut_lengths(self).segments; }

/* Whether two have the same lengths. */
static PyObject *lengths_compare(PyObject *self, PyObject *other, int op) {
    if (!PyObject_TypeCheck(self, cvl_lengths_type) || !PyObject_TypeCheck(other, cvl_lengths_type) ||
        (op != Py_EQ && op != Py_NE)) {
        Py_RETURN_NOTIMPLEMENTED;
    }
    const CvlLengths a = cvl_cut_lengths(self), b = cvl_cut_lengths(other);
    const int same = a.segments == b.segments && memcmp(a.lengths, b.lengths, a.segments * sizeof *a.lengths) == 0;
    return PyBool_FromLong(same == (op == Py_EQ));
}

static Py_hash_t lengths_hash(PyObject *self) { return PyObject_Hash(((Lengths *)self)->bytes); }

static PyGetSetDef computed[] = {
    {"lengths", as_array, NULL, "How long each segment is, a new array each time, which nobody can write.", NULL},
    {"offsets", offsets_array, NULL, "Where each segment starts, and where the last one ends: one more than there are segments.",
     NULL},
    {NULL, NULL, NULL, NULL, NULL},
};

static PyMemberDef members[] = {
    {"total", T_PYSSIZET, offsetof(Lengths, total), READONLY, "How many elements the segments have in all."},
    {NULL, 0, 0, 0, NULL},
};

static PyType_Slot slots[] = {
    {Py_tp_doc, "Lengths of segments that nobody can change. `cvl.Segments` is what a program makes."},
    {Py_tp_new, (void *)lengths_new},
    {Py_tp_dealloc, (void *)lengths_dealloc},
    {Py_sq_length, (void *)lengths_length},
    {Py_tp_richcompare, (void *)lengths_compare},
    {Py_tp_hash, (void *)lengths_hash},
    {Py_tp_getset, computed},
    {Py_tp_members, members},
    {0, NULL},
};

/* Python 3.9 has no flag for a type that programs cannot change. */
#ifndef Py_TPFLAGS_IMMUTABLETYPE
#define Py_TPFLAGS_IMMUTABLETYPE 0
#endif

static PyType_Spec spec = {
    .name = "cvl._calls.Lengths",
    .basicsize = sizeof(Lengths),
    .flags = Py_TPFLAGS_DEFAULT | Py_TPFLAGS_BASETYPE | Py_TPFLAGS_IMMUTABLETYPE,
    .slots = slots,
};

PyTypeObject *cvl_lengths_type;

int cvl_lengths_ready(void) {
    if (cvl_lengths_type == NULL) cvl_lengths_type = (PyTypeObject *)PyType_FromSpec(&spec);
    return cvl_lengths_type == NULL ? -1 : 0;
}

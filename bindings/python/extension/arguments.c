/* Arguments of calls: taken as a call takes them, and never copied or converted. */
#include "calls.h"

/* ---- the type of an argument, where it is none that a call takes ---- */

PyObject *cvl_type_name(PyObject *object) {
    PyObject *const type = (PyObject *)Py_TYPE(object);
    PyObject *name = PyObject_GetAttrString(type, "__name__");
    if (name == NULL || (PyType_GetFlags(Py_TYPE(object)) & Py_TPFLAGS_HEAPTYPE) != 0) return name;
    PyObject *module = PyObject_GetAttrString(type, "__module__"), *whole = NULL;
    if (module != NULL) {
        const int is_plain = PyUnicode_Check(module) && PyUnicode_CompareWithASCIIString(module, "builtins") == 0;
        whole = is_plain ? Py_NewRef(name) : PyUnicode_FromFormat("%S.%U", module, name);
    }
    Py_XDECREF(module);
    Py_DECREF(name);
    return whole;
}

/* Raises that an argument is of a type that the call does not take. The form has its name, its type, and its name again. */
static int refuse_type(PyObject *object, const char *form, const char *name) {
    PyObject *type = cvl_type_name(object);
    if (type != NULL) PyErr_Format(PyExc_TypeError, form, name, type, name);
    Py_XDECREF(type);
    return -1;
}

/* ---- texts ---- */

/* A text is a `str`, or memory that holds bytes. */
static int take_text(PyObject *object, const Operand *operand, const Row *row, Given *given) {
    if (PyArray_Check(object)) return cvl_take_array(object, operand, row, given);
    if (PyUnicode_Check(object)) {
        Py_ssize_t count;
        given->at = (void *)PyUnicode_AsUTF8AndSize(object, &count);
        given->count = (size_t)count;
        return given->at == NULL ? -1 : 0;
    }
    Py_buffer bytes;
    PyObject *view = cvl_view(object, &bytes);
    if (view == NULL && !PyErr_ExceptionMatches(PyExc_TypeError)) return -1;
    PyErr_Clear();
    if (view == NULL || bytes.itemsize != 1 || !PyBuffer_IsContiguous(&bytes, 'C')) {
        refuse_type(object, "%s is no text, a str or bytes side by side, but a %U", operand->name);
        Py_XDECREF(view);
        return -1;
    }
    given->held = view;
    given->at = bytes.buf;
    given->count = (size_t)bytes.len;
    return 0;
}

/* ---- single values ---- */

/* The whole number that an object is. One beyond 64 bits is the least or the greatest of these, and sets `beyond`. */
static int whole_number(PyObject *object, const char *name, int64_t *number, int *beyond) {
    if (!PyIndex_Check(object)) {
        return refuse_type(
            object,
            PyFloat_Check(object) ? "%s is no whole number but a %U; int(%s) would cut its fraction"
                                  : "%s is no whole number but a %U; write int(%s)",
            name);
    }
    PyObject *found = PyNumber_Index(object);
    if (found == NULL) return -1;
    *number = PyLong_AsLongLongAndOverflow(found, beyond);
    Py_DECREF(found);
    if (*beyond != 0) *number = *beyond < 0 ? INT64_MIN : INT64_MAX;
    return PyErr_Occurred() ? -1 : 0;
}

static int take_number(PyObject *object, const char *name, int64_t least, int64_t greatest, const char *fits, Given *given) {
    int beyond = 0;
    if (whole_number(object, name, &given->number, &beyond) < 0) return -1;
    if (beyond == 0 && given->number >= least && given->number <= greatest) return 0;
    PyErr_Format(PyExc_OverflowError, "%s is %S, which does not fit %s", name, object, fits);
    return -1;
}

static int is_flag(PyObject *object) { return PyBool_Check(object) || PyArray_IsScalar(object, Bool); }

static int take_flag(PyObject *object, const char *name, Given *given) {
    if (!is_flag(object)) { return refuse_type(object, "%s is no boolean but a %U; write bool(%s)", name); }
    given->number = PyObject_IsTrue(object);
    return given->number < 0 ? -1 : 0;
}

/* ---- all ---- */

/* Lengths of segments, of a `Segments` or an array. */
static int take_lengths(PyObject *object, const Operand *operand, const Row *row, Given *given) {
    if (!PyObject_TypeCheck(object, cvl_lengths_type)) return cvl_take_array(object, operand, row, given);
    const CvlLengths lengths = cvl_cut_lengths(object);
    given->at = (void *)lengths.lengths;
    given->count = lengths.segments;
    return 0;
}

/* A number that stands for an array of it. */
static int take_spread(PyObject *object, const Operand *operand, Given *given) {
    given->spread = 1;
    if (operand->kind == KIND_FLAGS) return take_flag(object, operand->name, given);
    return take_number(object, operand->name, INT32_MIN, INT32_MAX, "32 bits", given);
}

/* The operator of a number; the call reports one that no family has. */
static int take_operator(PyObject *object, const Operand *operand, const Row *row, Given *given) {
    int beyond = 0;
    if (!PyIndex_Check(object)) return cvl_refuse_operator(object, operand, row);
    if (whole_number(object, operand->name, &given->number, &beyond) < 0) return -1;
    if (given->number < 0 || given->number > UINT32_MAX) given->number = UINT32_MAX;
    return 0;
}

int cvl_take_argument(PyObject *object, const Operand *operand, const Row *row, Given *given) {
    int beyond;
    const char *name = operand->name;
    switch (operand->kind) {
    case KIND_INTS:
    case KIND_INDEX:
    case KIND_FLAGS:
    case KIND_BYTES:
        if (row->family->spreads && cvl_is_number(object)) return take_spread(object, operand, given);
        return cvl_take_array(object, operand, row, given);
    case KIND_TEXT: return take_text(object, operand, row, given);
    case KIND_LENGTHS: return take_lengths(object, operand, row, given);
    case KIND_RANK_SEGMENTS: return 0;
    case KIND_INT: return take_number(object, name, INT32_MIN, INT32_MAX, "32 bits", given);
    case KIND_FLAG: return take_flag(object, name, given);
    case KIND_OPERATOR: return take_operator(object, operand, row, given);
    case KIND_WIDE: return whole_number(object, name, &given->number, &beyond);
    case KIND_SUM: return take_number(object, name, INT64_MIN, INT64_MAX, "64 bits", given);
    case KIND_SIZE: return take_number(object, name, 0, INT64_MAX, "a number of elements", given);
    case KIND_ROOM_INTS:
    case KIND_ROOM_FLAGS:
    case KIND_ROOM_BYTES:
    case KIND_ROOM_SUMS:
    case KIND_ROOM_MARKS: return cvl_take_array(object, operand, row, given);
    }
    return -1;
}

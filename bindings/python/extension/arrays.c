/* Arrays that a call reads, and rooms: kept as they are taken, and read once nothing runs that may change them. */
#include "calls.h"

Element cvl_ints = {NPY_INT32, "int32", "numpy.int32", NULL};
Element cvl_flags = {NPY_BOOL, "bool", "bool", NULL};
Element cvl_bytes = {NPY_UINT8, "uint8", "numpy.uint8", NULL};
Element cvl_marks = {NPY_UINT32, "uint32", "numpy.uint32", NULL};
Element cvl_sums = {NPY_INT64, "int64", "numpy.int64", NULL};

enum { TO_READ = NPY_ARRAY_C_CONTIGUOUS | NPY_ARRAY_ALIGNED, TO_WRITE = TO_READ | NPY_ARRAY_WRITEABLE };

const Need cvl_needs[] = {
    [KIND_INTS] = {&cvl_ints, TO_READ},         [KIND_INDEX] = {&cvl_ints, TO_READ},
    [KIND_FLAGS] = {&cvl_flags, TO_READ},       [KIND_BYTES] = {&cvl_bytes, TO_READ},
    [KIND_LENGTHS] = {&cvl_ints, TO_READ},      [KIND_TEXT] = {NULL, NPY_ARRAY_C_CONTIGUOUS},
    [KIND_ROOM_INTS] = {&cvl_ints, TO_WRITE},   [KIND_ROOM_FLAGS] = {&cvl_flags, TO_WRITE},
    [KIND_ROOM_BYTES] = {&cvl_bytes, TO_WRITE}, [KIND_ROOM_MARKS] = {&cvl_marks, TO_WRITE},
    [KIND_ROOM_SUMS] = {&cvl_sums, TO_WRITE},
};

static PyObject *masked_array;

int cvl_learn_kinds(void) {
    Element *const elements[] = {&cvl_ints, &cvl_flags, &cvl_bytes, &cvl_marks, &cvl_sums};
    for (size_t k = 0; k < sizeof elements / sizeof *elements; k++) {
        elements[k]->descr = PyArray_DescrFromType(elements[k]->number);
        if (elements[k]->descr == NULL) return -1;
    }
    PyObject *module = PyImport_ImportModule("numpy.ma");
    if (module == NULL) return -1;
    masked_array = PyObject_GetAttrString(module, "MaskedArray");
    Py_DECREF(module);
    return masked_array == NULL ? -1 : 0;
}

/* ---- how an array is taken ---- */

static int is_room(const Operand *operand) { return cvl_needs[operand->kind].flags == TO_WRITE; }

int cvl_is_array(const Operand *operand) {
    if (operand->kind == KIND_ROOM_INTS) return operand->extent != EXTENT_NONE;
    return operand->kind == KIND_INTS || operand->kind == KIND_INDEX || operand->kind == KIND_FLAGS ||
        operand->kind == KIND_BYTES;
}

/* How a room is made. A copy of one would be another room, so the message suggests none. */
static PyObject *room_advice(const Operand *operand) {
    const char *const form = operand->extent == EXTENT_NONE
        ? "a room is made by numpy.empty(n, dtype=%s)"
        : "a room that holds what stands before is made by, for instance, numpy.zeros(n, dtype=%s)";
    return PyUnicode_FromFormat(form, cvl_needs[operand->kind].element->written);
}

/* A mask says that elements are missing, which no call knows. */
static int refuse_mask(PyObject *object, const char *name) {
    const int masked = PyObject_IsInstance(object, masked_array);
    if (masked > 0) {
        PyErr_Format(
            PyExc_TypeError, "%s has a mask, which no call looks at; write %s.filled(0) or %s.compressed()", name, name, name);
    }
    return masked == 0 ? 0 : -1;
}

PyObject *cvl_view(PyObject *object, Py_buffer *found) {
    PyObject *view = PyMemoryView_FromObject(object);
    if (view != NULL && PyObject_GetBuffer(view, found, PyBUF_FULL_RO) < 0) Py_CLEAR(view);
    if (view != NULL) {
        Py_buffer given_back = *found;
        PyBuffer_Release(&given_back);
    }
    return view;
}

/* Whether numpy knows the elements of a format of buffers. */
static int is_of_numpy(const char *format) {
    if (format == NULL) return 1;
    if (strchr("@=<>!", *format) != NULL && *format != 0) format++;
    return *format != 0 && strchr("?bBhHiIlLqQfd", *format) != NULL && format[1] == 0;
}

static void refuse_no_room(PyObject *object, const Operand *operand) {
    PyObject *type = cvl_type_name(object), *advice = type == NULL ? NULL : room_advice(operand);
    if (advice != NULL) PyErr_Format(PyExc_TypeError, "%s is no array but a %U; %U", operand->name, type, advice);
    Py_XDECREF(advice);
    Py_XDECREF(type);
}

/*
 * An array over the memory of what is no array, or nothing if numpy would have to copy it, which it also does if it has no memory for the
 * array.
 */
static PyObject *over_memory(PyObject *object, const Operand *operand, const Row *row) {
    Py_buffer memory;
    PyObject *view = cvl_view(object, &memory);
    if (view == NULL) {
        if (!PyErr_ExceptionMatches(PyExc_TypeError)) return NULL;
        PyErr_Clear();
        if (is_room(operand)) refuse_no_room(object, operand);
        else cvl_refuse_array(object, operand, row);
        return NULL;
    }
    PyObject *array = PyArray_FromAny(view, NULL, 0, 0, 0, NULL);
    if (array != NULL && PyArray_DATA((PyArrayObject *)array) != memory.buf) {
        if (is_of_numpy(memory.format)) PyErr_NoMemory();
        else PyErr_Format(PyExc_TypeError, "the elements of %s are of no kind that numpy has", operand->name);
        Py_CLEAR(array);
    }
    Py_DECREF(view);
    return array;
}

int cvl_is_number(PyObject *object) {
    return !PyArray_Check(object) && (PyIndex_Check(object) || PyFloat_Check(object) || PyArray_IsScalar(object, Generic));
}

int cvl_take_array(PyObject *object, const Operand *operand, const Row *row, Given *given) {
    if (PyArray_Check(object)) {
        if (!PyArray_CheckExact(object) && refuse_mask(object, operand->name) < 0) return -1;
        given->held = Py_NewRef(object);
    } else {
        if (!is_room(operand) && cvl_is_number(object)) return cvl_refuse_array(object, operand, row);
        given->held = over_memory(object, operand, row);
    }
    given->array = (PyArrayObject *)given->held;
    return given->held == NULL ? -1 : 0;
}

/* ---- whether it is as a call needs it ---- */

static int has_elements(PyArrayObject *array, const Element *element) {
    return PyArray_DESCR(array) == element->descr || PyArray_EquivTypes(PyArray_DESCR(array), element->descr);
}

static int has_flags(PyArrayObject *array, int flags) { return (PyArray_FLAGS(array) & flags) == flags; }

static void refuse_room(PyArrayObject *array, const char *name, const Element *element, PyObject *advice) {
    if (!has_elements(array, element)) {
        PyErr_Format(
            PyExc_TypeError, "%s has elements of %S, and has to have %s; %U", name, PyArray_DESCR(array), element->name, advice);
    } else if (PyArray_NDIM(array) != 1) {
        PyErr_Format(PyExc_TypeError, "%s has %d dimensions, and has to have one; %U", name, PyArray_NDIM(array), advice);
    } else if (!has_flags(array, TO_READ)) {
        const char *lie = PyArray_IS_C_CONTIGUOUS(array) ? "are not aligned in memory" : "do not lie side by side";
        PyErr_Format(PyExc_TypeError, "the elements of %s %s; %U", name, lie, advice);
    } else {
        PyErr_Format(PyExc_ValueError, "%s may not be written", name);
    }
}

/* Raises why an array is not as a call needs it. */
static int refuse(PyArrayObject *array, const Operand *operand, const Row *row) {
    const Element *element = cvl_needs[operand->kind].element;
    if (element == NULL) {
        PyObject *type = cvl_type_name((PyObject *)array);
        if (type != NULL)
            PyErr_Format(PyExc_TypeError, "%s is no text, a str or bytes side by side, but a %U", operand->name, type);
        Py_XDECREF(type);
    } else if (is_room(operand)) {
        PyObject *advice = room_advice(operand);
        if (advice != NULL) refuse_room(array, operand->name, element, advice);
        Py_XDECREF(advice);
    } else {
        cvl_refuse_array((PyObject *)array, operand, row);
    }
    return -1;
}

/* A text has any number of dimensions. */
static int look_at_text(Given *given, const Operand *operand, const Row *row) {
    PyArrayObject *array = given->array;
    if (PyArray_ITEMSIZE(array) != 1 || !has_flags(array, cvl_needs[KIND_TEXT].flags)) return refuse(array, operand, row);
    given->at = PyArray_DATA(array);
    given->count = (size_t)PyArray_SIZE(array);
    return 0;
}

static int look_at(Given *given, const Operand *operand, const Row *row) {
    PyArrayObject *array = given->array;
    if (array == NULL) return 0;
    const Need *need = &cvl_needs[operand->kind];
    if (need->element == NULL) return look_at_text(given, operand, row);
    const int is_other = !has_elements(array, need->element);
    given->wide = is_other && operand->kind == KIND_INDEX && has_elements(array, &cvl_sums);
    if (PyArray_NDIM(array) != 1 || !has_flags(array, need->flags) || (is_other && !given->wide))
        return refuse(array, operand, row);
    given->at = PyArray_DATA(array);
    given->count = (size_t)PyArray_DIM(array, 0);
    return 0;
}

int cvl_look(Frame *frame) {
    const Family *family = frame->row->family;
    for (int k = 0; k < family->count; k++) {
        if (look_at(&frame->given[k], &family->operands[k], frame->row) < 0) return -1;
    }
    return look_at(&frame->room, frame->out, frame->row);
}

void cvl_tell_change(void) { PyErr_SetString(PyExc_RuntimeError, "an argument was changed during the call"); }

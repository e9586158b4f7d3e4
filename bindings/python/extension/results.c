/* Rooms that are made, and what a call gives. */
#include "calls.h"

/* An array for so many elements. Nothing and no exception if there is no memory for it. */
static PyObject *new_array(size_t count, const Element *element) {
    npy_intp places = (npy_intp)count;
    if (count > (size_t)(NPY_MAX_INTP / 8)) return NULL;
    Py_INCREF((PyObject *)element->descr);
    PyObject *array = PyArray_NewFromDescr(&PyArray_Type, element->descr, 1, &places, NULL, NULL, 0, NULL);
    if (array == NULL && PyErr_ExceptionMatches(PyExc_MemoryError)) PyErr_Clear();
    return array;
}

int cvl_new_room(Frame *frame, Given *room, size_t count, const Element *element) {
    room->held = new_array(count, element);
    if (room->held == NULL) {
        frame->no_memory = 1;
        return PyErr_Occurred() ? -1 : 0;
    }
    room->at = PyArray_DATA((PyArrayObject *)room->held);
    room->count = count;
    return 0;
}

int cvl_spread(Frame *frame, int k, size_t count) {
    Given *given = &frame->given[k];
    const int is_flag = frame->row->family->operands[k].kind == KIND_FLAGS;
    if (count <= frame->row->family->most && cvl_new_room(frame, given, count, is_flag ? &cvl_flags : &cvl_ints) < 0) return -1;
    given->count = count;
    if (given->held == NULL) {
        frame->no_memory = 1;
    } else if (is_flag) {
        memset(given->at, (int)given->number, count);
    } else {
        for (size_t j = 0; j < count; j++) ((int32_t *)given->at)[j] = (int32_t)given->number;
    }
    return 0;
}

PyObject *cvl_front(const Given *room, PyObject *out, size_t count) {
    PyObject *whole = out != NULL && PyArray_Check(out) ? out : room->held;
    if (count == room->count) return Py_NewRef(whole);
    return PySequence_GetSlice(whole, 0, (Py_ssize_t)count);
}

/* Integers of 64 bits as integers of 32, for `cvl.as_ints`. */
#include "calls.h"

/* Numbers are looked at so many at a time: which of them does not fit is asked only where one does not. */
enum { BLOCK = 1024 };

/* Numbers of a block in 32 bits, and whether each fits: then the upper half of what it is above the least number of 32 bits is 0. */
static int narrow_block(const int64_t *numbers, int32_t *found) {
    uint64_t joined = 0;
    for (size_t k = 0; k < BLOCK; k++) {
        joined |= (uint64_t)numbers[k] - (uint64_t)(int64_t)INT32_MIN;
        found[k] = (int32_t)numbers[k];
    }
    return joined >> 32 == 0;
}

/* Numbers in 32 bits, and the first that does not fit, or how many there are. */
static size_t narrow(const int64_t *numbers, int32_t *found, size_t count) {
    size_t k = 0;
    while (count - k >= BLOCK && narrow_block(numbers + k, found + k)) k += BLOCK;
    for (; k < count && numbers[k] >= INT32_MIN && numbers[k] <= INT32_MAX; k++) found[k] = (int32_t)numbers[k];
    return k;
}

/* The room for numbers of 64 bits in 32; no object and no exception of what is no such array, side by side in one dimension. */
static PyArrayObject *room_for(PyObject *numbers) {
    if (!PyArray_CheckExact(numbers) || PyArray_NDIM((PyArrayObject *)numbers) != 1) return NULL;
    if (!PyArray_EquivTypes(PyArray_DESCR((PyArrayObject *)numbers), cvl_sums.descr) ||
        !PyArray_ISCARRAY_RO((PyArrayObject *)numbers))
        return NULL;
    npy_intp count = PyArray_DIM((PyArrayObject *)numbers, 0);
    Py_INCREF((PyObject *)cvl_ints.descr);
    return (PyArrayObject *)PyArray_NewFromDescr(&PyArray_Type, cvl_ints.descr, 1, &count, NULL, NULL, 0, NULL);
}

static PyObject *fitting(PyObject *self, PyObject *numbers) {
    (void)self;
    PyArrayObject *room = room_for(numbers);
    if (room == NULL) return PyErr_Occurred() ? NULL : Py_NewRef(Py_None);
    const size_t count = (size_t)PyArray_DIM(room, 0);
    const int64_t *const from = PyArray_DATA((PyArrayObject *)numbers);
    PyThreadState *state = count < MUCH ? NULL : PyEval_SaveThread();
    const size_t done = narrow(from, PyArray_DATA(room), count);
    if (state != NULL) PyEval_RestoreThread(state);
    if (done == count) return (PyObject *)room;
    Py_DECREF(room);
    return PyLong_FromSize_t(done);
}

PyDoc_STRVAR(
    doc_fitting,
    "fitting(numbers, /)\n"
    "\n"
    "The numbers of an array of int64 in one of int32, or the place of the first that does not fit; None of another object.");

PyMethodDef cvl_conversion_methods[] = {
    {"fitting", fitting, METH_O, doc_fitting},
    {NULL, NULL, 0, NULL},
};

/* How many threads long calls have. */
#include "calls.h"

#include <cvl_parallel.h>
#include <errno.h>

PyDoc_STRVAR(
    doc_get_threads,
    "get_threads($module, /)\n"
    "--\n"
    "\n"
    "How many threads long calls of this process have: what was set last, before that what the variable CVL_NUM_THREADS says,\n"
    "and else 1.\n"
    "\n"
    ">>> import cvl\n"
    ">>> with cvl.threads(3):\n"
    "...     cvl.get_threads()\n"
    "3");

PyDoc_STRVAR(
    doc_set_threads,
    "set_threads($module, count, /)\n"
    "--\n"
    "\n"
    "Says how many threads long calls of this process have from now on, 1 to 64 with the one that calls. It gives how many\n"
    "there were. What a call gives does not change. Where so many can't be started there is an OSError, and as many as before.\n"
    "\n"
    ">>> import cvl\n"
    ">>> before = cvl.set_threads(2)\n"
    ">>> cvl.set_threads(before)\n"
    "2");

static PyObject *get_threads(PyObject *self, PyObject *nothing) {
    (void)self;
    (void)nothing;
    return PyLong_FromSize_t(cvl_threads());
}

static PyObject *set_threads(PyObject *self, PyObject *count) {
    static const Operand operand = {"count", KIND_SIZE, EXTENT_NONE, NULL};
    Given given = {.at = NULL};
    (void)self;
    if (cvl_take_argument(count, &operand, NULL, &given) < 0) return NULL;
    /* this waits for a call of another thread, which may have the interpreter's lock */
    PyThreadState *state = PyEval_SaveThread();
    const size_t before = cvl_threads();
    const int failed = cvl_set_threads((size_t)given.number);
    PyEval_RestoreThread(state);
    if (failed == EINVAL) return PyErr_Format(PyExc_ValueError, "count is %S, and has to be from 1 to %d", count, CVL_MOST_PARTS);
    if (failed != 0) {
        errno = failed;
        return PyErr_SetFromErrno(PyExc_OSError);
    }
    return PyLong_FromSize_t(before);
}

PyMethodDef cvl_thread_methods[] = {
    {"get_threads", get_threads, METH_NOARGS, doc_get_threads},
    {"set_threads", set_threads, METH_O, doc_set_threads},
    {NULL, NULL, 0, NULL},
};

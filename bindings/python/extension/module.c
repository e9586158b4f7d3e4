/*
 * The module cvl._calls: each call, the type of lengths, the version of the library, its threads, and what cvl.mpi, Arrow arrays and
 * cvl.as_ints need.
 */
#define CVL_ASKS_NUMPY
#include "calls.h"

/* The oldest numpy that the module runs with: one from before numpy 2 builds it for its own number and later ones. */
#ifdef NPY_FEATURE_VERSION_STRING
#define NEEDED_NUMPY NPY_FEATURE_VERSION_STRING
#else
#define NEEDED_NUMPY "of a later version"
#endif

static struct PyModuleDef definition = {
    PyModuleDef_HEAD_INIT, .m_name = "cvl._calls",   .m_doc = "The calls of `cvl`, compiled.",
    .m_size = -1,          .m_methods = cvl_methods,
};

/* Says which numpy is needed, if the one that is there is older; else what numpy said stays. */
static PyObject *refuse_numpy(void) {
    PyObject *kind, *said, *trace;
    PyErr_Fetch(&kind, &said, &trace);
    PyObject *numpy = PyImport_ImportModule("numpy"),
             *version = numpy == NULL ? NULL : PyObject_GetAttrString(numpy, "__version__");
    Py_XDECREF(numpy);
    PyErr_Clear();
    if (version != NULL && PyArray_API != NULL && PyArray_GetNDArrayCFeatureVersion() < NPY_FEATURE_VERSION) {
        PyErr_Format(PyExc_ImportError, "cvl needs numpy %s or later, and this is numpy %S", NEEDED_NUMPY, version);
        Py_XDECREF(kind);
        Py_XDECREF(said);
        Py_XDECREF(trace);
    } else {
        PyErr_Restore(kind, said, trace);
    }
    Py_XDECREF(version);
    return NULL;
}

PyMODINIT_FUNC PyInit__calls(void) {
    if (_import_array() < 0) return refuse_numpy();
    if (cvl_learn_kinds() < 0 || cvl_keywords_ready() < 0 || cvl_lengths_ready() < 0) return NULL;
    PyObject *module = PyModule_Create(&definition);
    if (module == NULL) return NULL;
    Py_INCREF((PyObject *)cvl_lengths_type);
    if (PyModule_AddObject(module, "Lengths", (PyObject *)cvl_lengths_type) < 0 ||
        PyModule_AddFunctions(module, cvl_thread_methods) < 0 || PyModule_AddFunctions(module, cvl_rank_methods) < 0 ||
        PyModule_AddFunctions(module, cvl_arrow_methods) < 0 || PyModule_AddFunctions(module, cvl_conversion_methods) < 0 ||
        PyModule_AddIntConstant(module, "MOST_ELEMENTS", CVL_MOST_ELEMENTS) < 0 ||
        PyModule_AddIntConstant(module, "MOST_OF_TEXT", CVL_MOST_OF_TEXT) < 0 ||
        PyModule_AddStringConstant(module, "version", cvl_version()) < 0 ||
        PyModule_AddStringConstant(module, "build", cvl_build()) < 0) {
        Py_CLEAR(module);
    }
    return module;
}

/* Arguments that a call does not take: `cvl._refused` says why, and what to write instead. */
#include "calls.h"

static int is_cut(const Operand *operand) { return operand->kind == KIND_LENGTHS || operand->kind == KIND_RANK_SEGMENTS; }

/* What a program writes for how long an argument has to be: by lengths of segments, or else by another array; None if nothing says it. */
static PyObject *long_as(const Family *family, const Operand *operand) {
    const Operand *like = NULL;
    for (int k = 0; k < family->count; k++) {
        const Operand *other = &family->operands[k];
        if (operand->extent == EXTENT_NONE || other == operand) continue;
        const int over_ranks = other->kind == KIND_RANK_SEGMENTS;
        if (is_cut(other) && operand->extent == EXTENT_SEGMENTS)
            return PyUnicode_FromFormat(over_ranks ? "%s.starts" : "len(%s)", other->name);
        if (is_cut(other) && other->extent == operand->extent)
            return PyUnicode_FromFormat(over_ranks ? "%s.total" : "numpy.sum(%s)", other->name);
        if (like == NULL && cvl_is_array(other) && other->extent == operand->extent) like = other;
    }
    return like == NULL ? Py_NewRef(Py_None) : PyUnicode_FromFormat("len(%s)", like->name);
}

PyObject *cvl_order_of(const Row *row) {
    PyObject *names = PyUnicode_FromString("");
    for (int k = 0; names != NULL && k < row->family->count; k++) {
        PyObject *more = PyUnicode_FromFormat("%U%s%s", names, k == 0 ? "" : ", ", row->family->operands[k].name);
        Py_DECREF(names);
        names = more;
    }
    PyObject *order = names == NULL ? NULL : PyUnicode_FromFormat("%s(%U)", row->name, names);
    Py_XDECREF(names);
    return order;
}

int cvl_has_order(const Row *row, int least) {
    int cuts = 0;
    for (int k = 0; k < row->family->count; k++) cuts += is_cut(&row->family->operands[k]);
    return cuts >= least;
}

/* Calls a function of `cvl._refused`, and raises a TypeError with the text that it gives. */
static int raise_said(const char *name, PyObject *words) {
    PyObject *module = words == NULL ? NULL : PyImport_ImportModule("cvl._refused");
    PyObject *function = module == NULL ? NULL : PyObject_GetAttrString(module, name);
    PyObject *said = function == NULL ? NULL : PyObject_CallObject(function, words);
    if (said != NULL) PyErr_SetObject(PyExc_TypeError, said);
    Py_XDECREF(said);
    Py_XDECREF(function);
    Py_XDECREF(module);
    Py_XDECREF(words);
    return -1;
}

int cvl_refuse_array(PyObject *object, const Operand *operand, const Row *row) {
    const int least = PyObject_TypeCheck(object, cvl_lengths_type) ? 1 : 2;
    PyObject *type = cvl_type_name(object), *length = type == NULL ? NULL : long_as(row->family, operand);
    PyObject *order = length == NULL ? NULL : cvl_has_order(row, least) ? cvl_order_of(row) : Py_NewRef(Py_None);
    PyObject *words = order == NULL
        ? NULL
        : Py_BuildValue("OssOsOO", object, operand->name, cvl_needs[operand->kind].element->name, type, row->name, length, order);
    Py_XDECREF(order);
    Py_XDECREF(length);
    Py_XDECREF(type);
    return raise_said("array", words);
}

int cvl_refuse_operator(PyObject *object, const Operand *operand, const Row *row) {
    PyObject *type = cvl_type_name(object);
    PyObject *words = type == NULL ? NULL : Py_BuildValue("OsOz", object, operand->name, type, row->family->operators);
    Py_XDECREF(type);
    return raise_said("operator", words);
}

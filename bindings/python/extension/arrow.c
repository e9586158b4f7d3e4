/* Arrays of Arrow by its C data interface, in capsules: taken from a producer, and given to a consumer. */
#include "calls.h"
#include <stdlib.h>

typedef struct ArrowSchema ArrowSchema;
typedef struct ArrowArray ArrowArray;

struct ArrowSchema {
    const char *format, *name, *metadata;
    int64_t flags, n_children;
    ArrowSchema **children, *dictionary;
    void (*release)(ArrowSchema *);
    void *private_data;
};

struct ArrowArray {
    int64_t length, null_count, offset, n_buffers, n_children;
    const void **buffers;
    ArrowArray **children, *dictionary;
    void (*release)(ArrowArray *);
    void *private_data;
};

enum { NULLABLE = 2, DEEPEST = 64, BUFFERS = 2 };

static const char schema_name[] = "arrow_schema", array_name[] = "arrow_array", taken_name[] = "cvl.taken";

/* ---- taken ---- */

/* What a producer gave, which is released with the last array over its memory. */
typedef struct Taken {
    ArrowSchema schema;
    ArrowArray array;
} Taken;

static void release_taken(PyObject *capsule) {
    PyObject *type, *value, *traceback;
    PyErr_Fetch(&type, &value, &traceback);
    Taken *taken = PyCapsule_GetPointer(capsule, taken_name);
    if (taken->array.release != NULL) taken->array.release(&taken->array);
    if (taken->schema.release != NULL) taken->schema.release(&taken->schema);
    PyMem_Free(taken);
    PyErr_Restore(type, value, traceback);
}

static PyObject *describe(const ArrowSchema *schema, const ArrowArray *array, int depth);

static PyObject *addresses(const ArrowArray *array) {
    const Py_ssize_t count = array->buffers == NULL ? 0 : (Py_ssize_t)array->n_buffers;
    PyObject *found = PyTuple_New(count);
    for (Py_ssize_t k = 0; found != NULL && k < count; k++) {
        PyObject *address = array->buffers[k] == NULL ? Py_NewRef(Py_None) : PyLong_FromVoidPtr((void *)array->buffers[k]);
        if (address == NULL) Py_CLEAR(found);
        else if (PyTuple_SetItem(found, k, address) < 0) Py_CLEAR(found);
    }
    return found;
}

static PyObject *describe_children(const ArrowSchema *schema, const ArrowArray *array, int depth) {
    PyObject *found = PyTuple_New((Py_ssize_t)array->n_children);
    for (Py_ssize_t k = 0; found != NULL && k < (Py_ssize_t)array->n_children; k++) {
        PyObject *child = describe(schema->children[k], array->children[k], depth + 1);
        if (child == NULL) Py_CLEAR(found);
        else if (PyTuple_SetItem(found, k, child) < 0) Py_CLEAR(found);
    }
    return found;
}

/* An array as Python reads it: its format, length, number of nulls and offset, where its buffers lie, and its children. */
static PyObject *describe(const ArrowSchema *schema, const ArrowArray *array, int depth) {
    const int is_there = schema != NULL && array != NULL && schema->format != NULL && schema->release != NULL &&
        array->release != NULL;
    const int agrees = is_there && schema->n_children == array->n_children && array->n_children >= 0 &&
        array->n_children <= INT32_MAX && (array->n_children == 0 || (schema->children != NULL && array->children != NULL)) &&
        array->length >= 0 && array->offset >= 0 && array->n_buffers >= 0 && array->n_buffers <= DEEPEST && depth < DEEPEST;
    if (!agrees) {
        PyErr_SetString(PyExc_ValueError, "the Arrow array was released before, or it and its schema do not agree");
        return NULL;
    }
    if (schema->dictionary != NULL) {
        PyErr_SetString(PyExc_TypeError, "the Arrow array has a dictionary; decode it first");
        return NULL;
    }
    PyObject *buffers = addresses(array), *children = buffers == NULL ? NULL : describe_children(schema, array, depth);
    if (children == NULL) {
        Py_XDECREF(buffers);
        return NULL;
    }
    return Py_BuildValue(
        "(sLLLNN)", schema->format, (long long)array->length, (long long)array->null_count, (long long)array->offset, buffers,
        children);
}

/* Moves an array out of its capsules, as the interface says: what they had is released by us alone. */
static PyObject *arrow_take(PyObject *self, PyObject *arguments) {
    PyObject *given_schema, *given_array;
    (void)self;
    if (!PyArg_ParseTuple(arguments, "OO:arrow_take", &given_schema, &given_array)) return NULL;
    if (!PyCapsule_IsValid(given_schema, schema_name) || !PyCapsule_IsValid(given_array, array_name)) {
        PyErr_SetString(PyExc_TypeError, "__arrow_c_array__ has to give two capsules, of a schema and an array of Arrow");
        return NULL;
    }
    ArrowSchema *schema = PyCapsule_GetPointer(given_schema, schema_name);
    ArrowArray *array = PyCapsule_GetPointer(given_array, array_name);
    PyObject *described = describe(schema, array, 0);
    Taken *taken = described == NULL ? NULL : PyMem_Malloc(sizeof *taken);
    PyObject *held = taken == NULL ? NULL : PyCapsule_New(taken, taken_name, release_taken);
    if (held == NULL) {
        PyMem_Free(taken);
        Py_XDECREF(described);
        return PyErr_Occurred() ? NULL : PyErr_NoMemory();
    }
    *taken = (Taken){*schema, *array};
    schema->release = NULL;
    array->release = NULL;
    return Py_BuildValue("(NN)", described, held);
}

/* ---- given ---- */

static void release_schema(ArrowSchema *schema) {
    for (int64_t k = 0; k < schema->n_children; k++) {
        if (schema->children[k]->release != NULL) schema->children[k]->release(schema->children[k]);
        free(schema->children[k]);
    }
    free(schema->children);
    schema->release = NULL;
}

/* What an array that was given holds: its buffers, and what has their memory. */
typedef struct Held {
    const void *buffers[BUFFERS];
    PyObject *objects;
} Held;

/* A consumer may release from any thread, and after Python has ended, which has let go of its objects. */
static void let_go(PyObject *objects) {
    if (objects == NULL || !Py_IsInitialized()) return;
    const PyGILState_STATE state = PyGILState_Ensure();
    Py_DECREF(objects);
    PyGILState_Release(state);
}

static void release_array(ArrowArray *array) {
    Held *held = array->private_data;
    for (int64_t k = 0; k < array->n_children; k++) {
        if (array->children[k]->release != NULL) array->children[k]->release(array->children[k]);
        free(array->children[k]);
    }
    free(array->children);
    let_go(held->objects);
    free(held);
    array->release = NULL;
}

static const char *format_of(const char *given) {
    static const char *const formats[] = {"+l", "i", "b"};
    for (size_t k = 0; k < sizeof formats / sizeof *formats; k++) {
        if (strcmp(given, formats[k]) == 0) return formats[k];
    }
    return NULL;
}

static int no_memory(void) {
    PyErr_NoMemory();
    return -1;
}

/* A description in Python: a format, a length, the arrays of its buffers or None, and one child or None. */
static int read_node(PyObject *node, const char **format, Py_ssize_t *length, PyObject **buffers, PyObject **child) {
    const char *given;
    if (!PyArg_ParseTuple(node, "snO!O", &given, length, &PyTuple_Type, buffers, child)) return -1;
    *format = format_of(given);
    if (*format == NULL || PyTuple_Size(*buffers) != BUFFERS) {
        PyErr_SetString(PyExc_ValueError, "no such array is given to Arrow");
        return -1;
    }
    return 0;
}

static int make_schema(PyObject *node, const char *name, ArrowSchema *made) {
    const char *format;
    Py_ssize_t length;
    PyObject *buffers, *child;
    if (read_node(node, &format, &length, &buffers, &child) < 0) return -1;
    *made = (ArrowSchema){.format = format, .name = name, .flags = NULLABLE, .release = release_schema};
    if (child == Py_None) return 0;
    made->children = calloc(1, sizeof *made->children);
    if (made->children == NULL) return no_memory();
    made->children[0] = calloc(1, sizeof **made->children);
    if (made->children[0] == NULL) return no_memory();
    made->n_children = 1;
    return make_schema(child, "item", made->children[0]);
}

static int make_array(PyObject *node, ArrowArray *made) {
    const char *format;
    Py_ssize_t length;
    PyObject *buffers, *child;
    if (read_node(node, &format, &length, &buffers, &child) < 0) return -1;
    Held *held = calloc(1, sizeof *held);
    if (held == NULL) return no_memory();
    *made = (ArrowArray){.length = length, .n_buffers = BUFFERS, .buffers = held->buffers, .private_data = held};
    made->release = release_array;
    held->objects = Py_NewRef(buffers);
    for (Py_ssize_t k = 0; k < BUFFERS; k++) {
        PyObject *array = PyTuple_GetItem(buffers, k);
        if (array == NULL) return -1;
        held->buffers[k] = PyArray_Check(array) ? PyArray_DATA((PyArrayObject *)array) : NULL;
    }
    if (child == Py_None) return 0;
    made->children = calloc(1, sizeof *made->children);
    if (made->children == NULL) return no_memory();
    made->children[0] = calloc(1, sizeof **made->children);
    if (made->children[0] == NULL) return no_memory();
    made->n_children = 1;
    return make_array(child, made->children[0]);
}

/* Capsules that no consumer took from release what they have. */
static void schema_gone(PyObject *capsule) {
    ArrowSchema *schema = PyCapsule_GetPointer(capsule, schema_name);
    if (schema->release != NULL) schema->release(schema);
    free(schema);
}

static void array_gone(PyObject *capsule) {
    ArrowArray *array = PyCapsule_GetPointer(capsule, array_name);
    if (array->release != NULL) array->release(array);
    free(array);
}

static PyObject *capsule_of(void *memory, const char *name, PyCapsule_Destructor gone) {
    if (memory == NULL) return PyErr_NoMemory();
    PyObject *capsule = PyCapsule_New(memory, name, gone);
    if (capsule == NULL) free(memory);
    return capsule;
}

static PyObject *arrow_give(PyObject *self, PyObject *node) {
    (void)self;
    PyObject *schema = capsule_of(calloc(1, sizeof(ArrowSchema)), schema_name, schema_gone);
    PyObject *array = schema == NULL ? NULL : capsule_of(calloc(1, sizeof(ArrowArray)), array_name, array_gone);
    if (array != NULL && make_schema(node, "", PyCapsule_GetPointer(schema, schema_name)) == 0 &&
        make_array(node, PyCapsule_GetPointer(array, array_name)) == 0) {
        return Py_BuildValue("(NN)", schema, array);
    }
    Py_XDECREF(schema);
    Py_XDECREF(array);
    return NULL;
}

PyMethodDef cvl_arrow_methods[] = {
    {"arrow_take", arrow_take, METH_VARARGS, "An array of Arrow out of its capsules: what it is, and what holds its memory."},
    {"arrow_give", arrow_give, METH_O, "The capsules of an array of Arrow over the memory of arrays."},
    {NULL, NULL, 0, NULL},
};

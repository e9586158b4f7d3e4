/* Messages for calls that have no value. */
#include "calls.h"

/* ---- how long arguments are ---- */

static int is_cut(const Operand *operand) { return operand->kind == KIND_LENGTHS || operand->kind == KIND_RANK_SEGMENTS; }

/* What lengths add up to. Whether they are lengths of segments. Segments over ranks say it themselves. */
static int total(const Given *given, const Operand *operand, size_t *found) {
    const CvlLengths lengths = {given->at, given->count};
    if (operand->kind != KIND_RANK_SEGMENTS) return cvl_make_descriptor(lengths, found).number == CVL_DONE;
    *found = (size_t)given->number;
    return 1;
}

static int measure_by(const Given *given, const Operand *operand, Extent extent, size_t most, size_t *needed) {
    int32_t trues;
    switch (extent) {
    case EXTENT_TOTAL: return total(given, operand, needed);
    case EXTENT_TRUES:
        if (cvl_count(given->at, given->count, &trues).number != CVL_DONE) return 0;
        *needed = (size_t)trues;
        return 1;
    case EXTENT_COUNT:
        if (given->number < 0 || (uint64_t)given->number > most) return 0;
        *needed = (size_t)given->number;
        return 1;
    case EXTENT_OFFSETS: *needed = given->count == 0 ? 0 : given->count - 1; return 1;
    default: *needed = given->count; return 1;
    }
}

int cvl_measure(const Frame *frame, size_t *needed) {
    const Family *family = frame->row->family;
    if (family->extent == EXTENT_BOTH) {
        *needed = frame->given[0].count + frame->given[1].count;
        return 1;
    }
    return measure_by(&frame->given[family->by], &family->operands[family->by], family->extent, family->most, needed);
}

CvlStatus cvl_sized(const Frame *frame, int k) {
    const int64_t count = frame->given[k].number;
    if (count < 0) return (CvlStatus){CVL_NEGATIVE_LENGTH, -1};
    if (count > CVL_MOST_ELEMENTS) return (CvlStatus){CVL_TOO_LONG, -1};
    return (CvlStatus){(size_t)count == frame->room.count ? CVL_DONE : CVL_LENGTH_MISMATCH, -1};
}

/* A text on two arguments that have to be equally long, or nothing. `number` is that of the one. */
static PyObject *differ(const char *form, const char *name, size_t number, const char *other, size_t wanted) {
    return number == wanted ? NULL : PyUnicode_FromFormat(form, name, (Py_ssize_t)number, other, (Py_ssize_t)wanted);
}

/* The operand before this one that has to be as long, or -1. Of lengths, those that have as many segments. */
static int alike(const Family *family, int k, Extent extent) {
    for (int j = 0; j < k; j++) {
        const Operand *operand = &family->operands[j];
        if (cvl_is_array(operand) ? operand->extent == extent : extent == EXTENT_SEGMENTS && is_cut(operand)) return j;
    }
    return -1;
}

/* The same of what lengths add up to. */
static PyObject *total_differs(const Frame *frame, int k) {
    const Family *family = frame->row->family;
    const Operand *operand = &family->operands[k];
    size_t found;
    for (int j = 0; j < family->count; j++) {
        const Operand *other = &family->operands[j];
        if (!cvl_is_array(other) || other->extent != operand->extent || !total(&frame->given[k], operand, &found)) continue;
        return differ("%s add up to %zd, and len(%s) is %zd", operand->name, found, other->name, frame->given[j].count);
    }
    return NULL;
}

/* The same of offsets: the first has to be 0, and the last is as much as the next argument has elements. */
static PyObject *offsets_differ(const Frame *frame, int k) {
    const Operand *operands = frame->row->family->operands;
    const Given *given = &frame->given[k];
    const int32_t *offsets = given->at;
    if (given->count == 0) return PyUnicode_FromFormat("len(%s) is 0", operands[k].name);
    if (offsets[0] != 0) return PyUnicode_FromFormat("the first of %s is %d, and has to be 0", operands[k].name, (int)offsets[0]);
    const size_t last = (size_t)offsets[given->count - 1];
    return differ(
        "the last of %s is %zd, and len(%s) is %zd", operands[k].name, last, operands[k + 1].name, frame->given[k + 1].count);
}

/* The first two arguments that are not as long as they have to be, or nothing; then an exception may be set. */
static PyObject *arguments_differ(const Frame *frame) {
    const Family *family = frame->row->family;
    const char *form = "len(%s) is %zd, and len(%s) is %zd";
    PyObject *said = NULL;
    for (int k = 0; said == NULL && !PyErr_Occurred() && k < family->count; k++) {
        const Operand *operand = &family->operands[k];
        const int cuts = is_cut(operand);
        if (!cuts && !cvl_is_array(operand)) continue;
        const int j = alike(family, k, cuts ? EXTENT_SEGMENTS : operand->extent);
        if (j >= 0) said = differ(form, operand->name, frame->given[k].count, family->operands[j].name, frame->given[j].count);
        if (said == NULL && cuts && !PyErr_Occurred()) said = total_differs(frame, k);
        if (said == NULL && operand->extent == EXTENT_OFFSETS && !PyErr_Occurred()) said = offsets_differ(frame, k);
    }
    return said;
}

int cvl_lengths_agree(const Frame *frame) {
    PyObject *said = arguments_differ(frame);
    Py_XDECREF(said);
    return said == NULL;
}

/* How long a room is and has to be, or nothing. */
static PyObject *room_differs(const Frame *frame) {
    const Family *family = frame->row->family;
    const int counts = family->gives == GIVES_FRONT_INTS || family->gives == GIVES_FRONT_FLAGS || family->gives == GIVES_READ;
    size_t needed = frame->told;
    if (!counts && !cvl_measure(frame, &needed)) return NULL;
    return PyUnicode_FromFormat(
        counts ? "len(out) is %zd, and has to be %zd or more" : "len(out) is %zd, and has to be %zd",
        (Py_ssize_t)frame->room.count, (Py_ssize_t)needed);
}

/* ---- which value is at fault ---- */

int cvl_is_about(uint32_t number, const Operand *operand) {
    const char *const name = operand->name;
    switch (number) {
    case CVL_DIVIDE_BY_ZERO:
    case CVL_SHIFT_OUT_OF_RANGE: return strcmp(name, "b") == 0;
    case CVL_INDEX_OUT_OF_RANGE:
    case CVL_INDEX_REPEATED: return strcmp(name, "index") == 0 || strcmp(name, "columns") == 0 || strcmp(name, "starts") == 0;
    case CVL_NEGATIVE_LENGTH: return operand->kind == KIND_LENGTHS || strcmp(name, "lengths") == 0 || strcmp(name, "count") == 0;
    default: return 0;
    }
}

/* Whether an index counts from the start of a segment, or of the whole result of a range; then its bound takes a walk. */
static int counts_elsewhere(const Family *family, const Operand *index) {
    for (int k = 0; k < family->count; k++) {
        const Kind kind = family->operands[k].kind;
        if (kind == KIND_SIZE || (kind == KIND_LENGTHS && strcmp(index->name, "columns") != 0)) return 1;
    }
    return 0;
}

/* How many places an index may name: those of an array of another length than the indices, or else of the result. */
static PyObject *bound_said(const Frame *frame, const Operand *index) {
    const Family *family = frame->row->family;
    int into = -1;
    for (int k = 0; k < family->count; k++) {
        const Extent extent = family->operands[k].extent;
        if (cvl_is_array(&family->operands[k]) && extent != index->extent && extent != EXTENT_OFFSETS) into = k;
    }
    if (into < 0) return PyUnicode_FromFormat("the result has %zd elements", (Py_ssize_t)frame->room.count);
    return PyUnicode_FromFormat("len(%s) is %zd", family->operands[into].name, (Py_ssize_t)frame->given[into].count);
}

/* Whether an argument is one number, or stands for an array of it. */
static int is_one(const Given *given, const Operand *operand) {
    return given->spread || !(cvl_is_array(operand) || operand->kind == KIND_LENGTHS);
}

/* An element, or a number that stands for one, and whether it is known: of a number beyond 64 bits the least or the greatest is kept. */
static int value_at(const Given *given, const Operand *operand, int64_t place, int64_t *value) {
    if (is_one(given, operand)) {
        *value = given->number;
        return *value != INT64_MIN && *value != INT64_MAX;
    }
    if (place < 0 || (uint64_t)place >= given->count) return 0;
    *value = given->wide ? ((const int64_t *)given->at)[place] : ((const int32_t *)given->at)[place];
    return 1;
}

/* "index[3] is 12", or "index is 12" of one number. */
static PyObject *value_said(const Given *given, const Operand *operand, int64_t place, int64_t value) {
    if (is_one(given, operand)) return PyUnicode_FromFormat("%s is %lld", operand->name, (long long)value);
    return PyUnicode_FromFormat("%s[%lld] is %lld", operand->name, (long long)place, (long long)value);
}

/* The same of an index, with what it leads into, unless other ranks have a part of that. */
static PyObject *index_said(const Frame *frame, int k, int64_t place, int64_t value) {
    const Operand *index = &frame->row->family->operands[k];
    PyObject *said = value_said(&frame->given[k], index, place, value);
    if (said == NULL || frame->over_ranks || counts_elsewhere(frame->row->family, index)) return said;
    PyObject *bound = bound_said(frame, index), *both = bound == NULL ? NULL : PyUnicode_FromFormat("%U, and %U", said, bound);
    Py_XDECREF(bound);
    Py_DECREF(said);
    return both;
}

/* The value at fault, or nothing; then an exception may be set. A negative length is looked for among all lengths. */
static PyObject *value_at_fault(const Frame *frame, CvlStatus status) {
    const Family *family = frame->row->family;
    int64_t value;
    for (int k = 0; k < family->count; k++) {
        const Operand *operand = &family->operands[k];
        if (!cvl_is_about(status.number, operand) || !value_at(&frame->given[k], operand, status.place, &value)) continue;
        if (status.number == CVL_INDEX_OUT_OF_RANGE) return index_said(frame, k, status.place, value);
        if (status.number != CVL_NEGATIVE_LENGTH || value < 0) return value_said(&frame->given[k], operand, status.place, value);
    }
    return NULL;
}

/* Whether an argument shares memory with the room: all of it, which some calls allow, or a part. */
static int shares(const Frame *frame, int k, int all) {
    const Operand *operand = &frame->row->family->operands[k];
    const Given *given = &frame->given[k];
    if (given->spread || !(cvl_is_array(operand) || operand->kind == KIND_LENGTHS || operand->kind == KIND_TEXT)) return 0;
    return cvl_shared(given, operand->kind, &frame->room, frame->out->kind) == (all ? SHARED_ALL : SHARED_PART);
}

/* The argument that shares memory with the room, first one that shares a part, or nothing. */
static PyObject *shared_said(const Frame *frame) {
    const Family *family = frame->row->family;
    for (int all = 0; all < 2; all++) {
        for (int k = 0; k < family->count; k++) {
            if (shares(frame, k, all)) return PyUnicode_FromFormat("out and %s share memory", family->operands[k].name);
        }
    }
    return NULL;
}

/* ---- details of a fault ---- */

/* What is said of lengths, or nothing, and how a call takes its arguments if it takes several vectors of lengths: they may be in another order. */
static PyObject *with_order(const Frame *frame, PyObject *said) {
    if (PyErr_Occurred() || !cvl_has_order(frame->row, 2)) return said;
    PyObject *order = cvl_order_of(frame->row), *both = NULL;
    if (order != NULL)
        both = PyUnicode_FromFormat(
            said == NULL ? "%Vthe order of arguments is %U" : "%V; the order of arguments is %U", said, "", order);
    Py_XDECREF(order);
    Py_XDECREF(said);
    return both;
}

static PyObject *lengths_said(const Frame *frame, int has_room) {
    PyObject *said = arguments_differ(frame);
    if (said != NULL) return with_order(frame, said);
    return !PyErr_Occurred() && has_room ? room_differs(frame) : NULL;
}

PyObject *cvl_said(Frame *frame, CvlStatus status, int has_room) {
    PyObject *said;
    if (cvl_look(frame) < 0) {
        if (status.number == CVL_LENGTH_MISMATCH) return NULL;
        PyErr_Clear();
        return Py_NewRef(Py_None);
    }
    switch (status.number) {
    case CVL_LENGTH_MISMATCH: said = lengths_said(frame, has_room); break;
    case CVL_OVERLAP: said = has_room ? shared_said(frame) : NULL; break;
    case CVL_NEGATIVE_LENGTH:
    case CVL_TOO_LONG: said = with_order(frame, value_at_fault(frame, status)); break;
    default: said = value_at_fault(frame, status); break;
    }
    return said == NULL && !PyErr_Occurred() ? Py_NewRef(Py_None) : said;
}

/* ---- exceptions ---- */

static PyObject *fault_type(void) {
    static PyObject *found;
    if (found == NULL) {
        PyObject *module = PyImport_ImportModule("cvl.fault");
        if (module != NULL) found = PyObject_GetAttrString(module, "Fault");
        Py_XDECREF(module);
    }
    return found;
}

void cvl_tell(Frame *frame, CvlStatus status, int has_room) {
    if (status.number == CVL_NO_RESOURCES) {
        PyErr_SetString(PyExc_MemoryError, "the call is out of memory");
        return;
    }
    PyObject *type = fault_type(), *said = type == NULL ? NULL : cvl_said(frame, status, has_room);
    if (said == NULL) return;
    PyObject *place = status.place < 0 ? Py_NewRef(Py_None) : PyLong_FromLongLong(status.place);
    if (place != NULL) {
        PyObject *fault = PyObject_CallFunction(type, "IsOO", status.number, cvl_fault_name(status.number), place, said);
        if (fault != NULL) PyErr_SetObject(type, fault);
        Py_XDECREF(fault);
        Py_DECREF(place);
    }
    Py_DECREF(said);
}

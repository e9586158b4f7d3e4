/*
 * calls.h: what the files of the extension share. A call from Python binds its arguments, takes each as its family in C needs it, finds a
 * room for the result, and calls the family, which reports the first fault in the order of cvl.h. Only what Python alone knows is reported
 * here: what is no array of the kind, and what does not fit.
 *
 * Taking an argument may run code in Python: an `__index__`, a finalizer, another thread. That code may resize an array that was taken
 * before. So an array that is taken is only kept, and `cvl_look` reads where its elements lie and how many there are, after all arguments
 * are taken, and again after anything else that may run such code.
 */
#ifndef CVL_CALLS_H
#define CVL_CALLS_H

#define PY_SSIZE_T_CLEAN
#include <Python.h>

/* One file asks numpy for its functions, and the others use them. Built over numpy 2, the module runs over numpy 1.23 too. */
#define NPY_TARGET_VERSION NPY_1_23_API_VERSION
#define NPY_NO_DEPRECATED_API NPY_1_20_API_VERSION
#define PY_ARRAY_UNIQUE_SYMBOL cvl_numpy_functions
#ifndef CVL_ASKS_NUMPY
#define NO_IMPORT_ARRAY
#endif
#include <numpy/arrayobject.h>
#include <numpy/arrayscalars.h>

#include <cvl.h>

#include <string.h>

#if PY_VERSION_HEX < 0x030A0000
static inline PyObject *Py_NewRef(PyObject *object) {
    Py_INCREF(object);
    return object;
}
#endif

/* From so many elements on other threads of the interpreter run while the library works. */
enum { MUCH = 5000 };

enum { MOST_OPERANDS = 6 };

/* How an argument is taken. */
typedef enum Kind {
    KIND_INTS, /* arrays that are read; an index may be of 64 bits */
    KIND_INDEX,
    KIND_FLAGS,
    KIND_BYTES, /* numbers from 0 to 255 */
    KIND_TEXT,
    KIND_LENGTHS,
    KIND_RANK_SEGMENTS, /* segments over ranks, which are taken as they are */
    KIND_INT, /* one value: of 32 bits, a boolean, an operator, a place or a count, of 64 bits, and one that is not below 0 */
    KIND_FLAG,
    KIND_OPERATOR,
    KIND_WIDE,
    KIND_SUM,
    KIND_SIZE,
    KIND_ROOM_INTS, /* arrays that are written, beside the result */
    KIND_ROOM_FLAGS,
    KIND_ROOM_BYTES,
    KIND_ROOM_SUMS,
    KIND_ROOM_MARKS
} Kind;

/* How many elements an array has, and what lengths add up to; offsets are one more than segments, and both are n and m. */
typedef enum Extent {
    EXTENT_NONE,
    EXTENT_N,
    EXTENT_M,
    EXTENT_BOTH,
    EXTENT_SEGMENTS,
    EXTENT_COUNT,
    EXTENT_TRUES,
    EXTENT_FALSES,
    EXTENT_TOTAL,
    EXTENT_OFFSETS
} Extent;

/* What a call gives. */
typedef enum Gives {
    GIVES_INTS, /* an array, which may stand in the caller's room */
    GIVES_FLAGS,
    GIVES_BYTES,
    GIVES_SUMS,
    GIVES_OVER_INTS, /* the caller's room, which holds what stands before */
    GIVES_OVER_FLAGS,
    GIVES_OVER_SUMS,
    GIVES_FRONT_INTS, /* one that may be shorter than the room, and whose elements are counted */
    GIVES_FRONT_FLAGS,
    GIVES_INT, /* one value */
    GIVES_FLAG,
    GIVES_SUM,
    GIVES_SEGMENTS,    /* segments, of lengths that it writes */
    GIVES_CUT,         /* segments, of the lengths that it is given */
    GIVES_LENGTHS,     /* the lengths that it is given, in an array of their own */
    GIVES_LENGTH,      /* how long its argument is */
    GIVES_READ,        /* integers of a text */
    GIVES_READ_NESTED, /* integers of a text and their segments */
    GIVES_TEXT,
    GIVES_WRITTEN, /* how many places of a caller's room it wrote */
    GIVES_NOTHING  /* nothing: it changes its arguments */
} Gives;

typedef struct Operand {
    const char *name;
    Kind kind;
    Extent extent;
    PyObject *keyword; /* the name, as Python has it */
} Operand;

typedef struct Frame Frame;

/* What calls have in common that differ in their operator alone. */
typedef struct Family {
    int count;
    Operand operands[MOST_OPERANDS];
    Gives gives;
    Extent extent;         /* of the room */
    int by;                /* the operand that says how long the room is */
    int spreads;           /* whether a number may stand for an array of it */
    size_t most;           /* how long the room may be at most */
    const char *operators; /* the names of those that it takes, or nothing */
    CvlStatus (*make)(Frame *frame);
} Family;

typedef struct Row {
    const char *name;
    Family *family;
    uint32_t op;
} Row;

/* Kinds of elements. */
typedef struct Element {
    int number;          /* that of numpy */
    const char *name;    /* as numpy shows it */
    const char *written; /* as it is written in a program */
    PyArray_Descr *descr;
} Element;

extern Element cvl_ints, cvl_flags, cvl_bytes, cvl_marks, cvl_sums;

/*
 * What an array has to have to be an operand: elements of this kind, or of any kind of one byte if it is a text (null); and these flags of
 * numpy. One value needs no flags.
 */
typedef struct Need {
    const Element *element;
    int flags;
} Need;

extern const Need cvl_needs[];

/* An argument as it is taken, and a room. */
typedef struct Given {
    void *at;             /* of an array, once it is looked at */
    size_t count;         /* how many elements it has, or how many lengths */
    int64_t number;       /* of one value */
    int spread;           /* whether that number stands for an array */
    int wide;             /* whether it is an index of 64 bits, once it is looked at */
    PyArrayObject *array; /* the array to look at, or nothing if no code in Python can change it */
    PyObject *held;       /* what was made to reach the memory, or nothing */
} Given;

/* A call that is being made. */
struct Frame {
    const Row *row;
    Given given[MOST_OPERANDS];
    Given room, second; /* the second is that of lengths beside the result */
    const Operand *out; /* what `out` is taken for */
    size_t told, told_second;
    CvlStatus status;
    union {
        int32_t number;
        uint8_t flag;
        int64_t sum;
    } single;
    int no_memory;  /* whether there was no memory for the room or an argument, or the room is known to be too long */
    int over_ranks; /* whether the arguments are a rank's part of longer vectors */
};

/* ---- arrays.c ---- */

/* Each answers -1 if it has set an exception. */
int cvl_take_array(PyObject *object, const Operand *operand, const Row *row, Given *given);
int cvl_learn_kinds(void);

/* Whether an object is a number, and no array of one. */
int cvl_is_number(PyObject *object);

/* Whether an operand is an array that is read, and no lengths or text. */
int cvl_is_array(const Operand *operand);

/*
 * A view of the memory of an object, and where that lies, with the format of its elements; nothing with an exception. The memory stays
 * while the view is kept.
 */
PyObject *cvl_view(PyObject *object, Py_buffer *found);

/*
 * Reads where the elements of all arrays lie and how many there are, or -1 with an exception if one is of the wrong kind. It runs no code
 * in Python, but to say what is wrong.
 */
int cvl_look(Frame *frame);

/* Raises that an argument was changed during the call. */
void cvl_tell_change(void);

/* ---- arguments.c ---- */

/* The name of an object's type as messages have it, with its module if the type is written in C; nothing with an exception. */
PyObject *cvl_type_name(PyObject *object);

/* Takes an argument of a call; -1 with an exception. */
int cvl_take_argument(PyObject *object, const Operand *operand, const Row *row, Given *given);

/* ---- refused.c ---- */

/* Raise that an argument is no array that its operand may be, or no operator, and what to write instead. */
int cvl_refuse_array(PyObject *object, const Operand *operand, const Row *row);
int cvl_refuse_operator(PyObject *object, const Operand *operand, const Row *row);

/* How a call takes its arguments, as "add_sez(a, segments)"; and whether it takes so many lengths, or more. */
PyObject *cvl_order_of(const Row *row);
int cvl_has_order(const Row *row, int least);

/* ---- indices.c ---- */

/* Calls the family of a frame whose arrays were looked at. It runs no code in Python. */
CvlStatus cvl_make(Frame *frame);

/* What memory two arguments share. */
typedef enum Shared { SHARED_NOTHING, SHARED_PART, SHARED_ALL } Shared;
Shared cvl_shared(const Given *a, Kind a_kind, const Given *b, Kind b_kind);

/* ---- results.c ---- */

/* A new room for so many elements; the frame says if there is no memory. */
int cvl_new_room(Frame *frame, Given *room, size_t count, const Element *element);

/* An array with a number in each of so many places, for an argument; the frame says if there is no memory. */
int cvl_spread(Frame *frame, int k, size_t count);

/* The elements at the front of a room. */
PyObject *cvl_front(const Given *room, PyObject *out, size_t count);

/* ---- told.c ---- */

/* Raises the exception of a status. */
void cvl_tell(Frame *frame, CvlStatus status, int has_room);

/* The details of a fault, None if there are none, or nothing with an exception. */
PyObject *cvl_said(Frame *frame, CvlStatus status, int has_room);

/* Whether a fault may be about an operand: a divisor or a shift, an index or a start, or lengths and a count. */
int cvl_is_about(uint32_t number, const Operand *operand);

/* How long the room of a call has to be, and whether that is known. */
int cvl_measure(const Frame *frame, size_t *needed);

/* Raises for a count by which Python alone knows how long the result is, and for a room of another length. */
CvlStatus cvl_sized(const Frame *frame, int k);

/* Whether arguments are as long as they have to be. */
int cvl_lengths_agree(const Frame *frame);

/* ---- lengths.c ---- */

extern PyTypeObject *cvl_lengths_type;

/* Makes the type; -1 with an exception. */
int cvl_lengths_ready(void);

/* Segments of an array of lengths, and the lengths of segments where they lie. */
PyObject *cvl_segments_of(PyObject *lengths);
CvlLengths cvl_cut_lengths(PyObject *segments);

/* ---- call.c ---- */

PyObject *cvl_call_from_python(const Row *row, PyObject *const *arguments, Py_ssize_t count, PyObject *keywords);
int cvl_keywords_ready(void);

/*
 * Begins a call: binds the arguments by place and by name, with the caller's room behind them or nothing, and takes them before
 * an array is read; -1 with an exception. In both cases the frame is let go of at the end.
 */
int cvl_begin(Frame *frame, const Row *row, PyObject *const *arguments, Py_ssize_t count, PyObject *keywords, PyObject **bound);
void cvl_let_go(Frame *frame);

/* What the caller's room is taken for. */
const Operand *cvl_out_of(const Family *family);

/* ---- arrow.c ---- */

extern PyMethodDef cvl_arrow_methods[];

/* ---- conversions.c ---- */

extern PyMethodDef cvl_conversion_methods[];

/* ---- over_ranks.c ---- */

extern PyMethodDef cvl_rank_methods[];

/* ---- threads.c ---- */

extern PyMethodDef cvl_thread_methods[];

/* ---- rows.c, which is generated ---- */

extern Family cvl_families[];
extern const int cvl_families_count;
extern PyMethodDef cvl_methods[];

#endif

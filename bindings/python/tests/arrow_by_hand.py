"""Arrays of Arrow by its C data interface, made and read by ctypes: a producer and a consumer that count what they release."""

import ctypes

import numpy


class Schema(ctypes.Structure):
    pass


class Array(ctypes.Structure):
    pass


RELEASE_SCHEMA, RELEASE_ARRAY = ctypes.CFUNCTYPE(None, ctypes.POINTER(Schema)), ctypes.CFUNCTYPE(None, ctypes.POINTER(Array))
LAST = [("release", ctypes.c_void_p), ("private_data", ctypes.c_void_p)]
Schema._fields_ = [
    *((name, ctypes.c_char_p) for name in ("format", "name", "metadata")),
    *((name, ctypes.c_int64) for name in ("flags", "n_children")),
    ("children", ctypes.POINTER(ctypes.POINTER(Schema))), ("dictionary", ctypes.POINTER(Schema)), *LAST,
]  # fmt: skip
Array._fields_ = [
    *((name, ctypes.c_int64) for name in ("length", "null_count", "offset", "n_buffers", "n_children")),
    ("buffers", ctypes.POINTER(ctypes.c_void_p)), ("children", ctypes.POINTER(ctypes.POINTER(Array))),
    ("dictionary", ctypes.POINTER(Array)), *LAST,
]  # fmt: skip
NEW, POINTER = ctypes.pythonapi.PyCapsule_New, ctypes.pythonapi.PyCapsule_GetPointer
NEW.restype, NEW.argtypes = ctypes.py_object, [ctypes.c_void_p, ctypes.c_char_p, ctypes.c_void_p]
POINTER.restype, POINTER.argtypes = ctypes.c_void_p, [ctypes.py_object, ctypes.c_char_p]


class Node:
    """An array: its format, what its buffers hold, None for one that is not there, its offset and length, and its children."""

    def __init__(self, kind, length, buffers, children=(), offset=0, nulls=0, dictionary=None):
        self.kind, self.length, self.buffers, self.children = kind, length, buffers, children
        self.offset, self.nulls, self.dictionary = offset, nulls, dictionary


def bits(flags):
    return numpy.packbits(numpy.array(flags, bool), bitorder="little")


class Producer:
    """What gives an array, and counts how often it and its schema are released."""

    def __init__(self, node):
        self.kept, self.released = [], []
        self.of_array = RELEASE_ARRAY(lambda pointer: self._release(pointer, "array"))
        self.of_schema = RELEASE_SCHEMA(lambda pointer: self._release(pointer, "schema"))
        self.schema, self.array = self._schema(node), self._array(node)

    def _release(self, pointer, what):
        self.released.append(what)
        pointer[0].release = None

    def _keep(self, value):
        self.kept.append(value)
        return value

    def _pointers(self, kind, children):
        return self._keep((ctypes.POINTER(kind) * max(len(children), 1))(*(ctypes.pointer(child) for child in children)))

    def _schema(self, node):
        children = [self._schema(child) for child in node.children]
        made = self._keep(Schema(node.kind.encode(), b"", None, 2, len(children), self._pointers(Schema, children)))
        if node.dictionary:
            made.dictionary = ctypes.pointer(self._schema(node.dictionary))
        made.release = ctypes.cast(self.of_schema, ctypes.c_void_p).value
        return made

    def _array(self, node):
        children = [self._array(child) for child in node.children]
        addresses = [None if buffer is None else self._keep(buffer).ctypes.data for buffer in node.buffers]
        buffers = self._keep((ctypes.c_void_p * max(len(addresses), 1))(*addresses))
        numbers = node.length, node.nulls, node.offset, len(addresses), len(children)
        made = self._keep(Array(*numbers, buffers, self._pointers(Array, children)))
        made.release = ctypes.cast(self.of_array, ctypes.c_void_p).value
        return made

    def __arrow_c_array__(self, requested_schema=None):
        return NEW(ctypes.addressof(self.schema), b"arrow_schema", None), NEW(ctypes.addressof(self.array), b"arrow_array", None)


class Consumer:
    """What takes an array over, and reads it as lists."""

    def __init__(self, producer):
        capsules = producer.__arrow_c_array__()
        schema, array = (POINTER(capsule, name) for capsule, name in zip(capsules, (b"arrow_schema", b"arrow_array")))
        given = Schema.from_address(schema), Array.from_address(array)
        self.schema, self.array = Schema.from_buffer_copy(given[0]), Array.from_buffer_copy(given[1])
        for one in given:
            one.release = None

    def release(self):
        RELEASE_ARRAY(self.array.release)(ctypes.pointer(self.array))
        RELEASE_SCHEMA(self.schema.release)(ctypes.pointer(self.schema))

    def tolist(self):
        return self._read(self.schema, self.array)

    def address(self):
        """Where the innermost numbers lie."""
        array = self.array
        while array.n_children:
            array = array.children[0][0]
        return array.buffers[1]

    def _read(self, schema, array):
        if schema.format == b"i":
            return list((ctypes.c_int32 * array.length).from_address(array.buffers[1])) if array.length else []
        if schema.format == b"b":
            packed = (ctypes.c_uint8 * ((array.length + 7) // 8)).from_address(array.buffers[1]) if array.length else b""
            return [bool(packed[k // 8] >> k % 8 & 1) for k in range(array.length)]
        offsets = (ctypes.c_int32 * (array.length + 1)).from_address(array.buffers[1])
        inner = self._read(schema.children[0][0], array.children[0][0])
        return [inner[start:end] for start, end in zip(offsets, offsets[1:])]

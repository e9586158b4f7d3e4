"""What to write instead of an argument that a call does not take: one expression that it takes as it stands."""

from __future__ import annotations

import types
from typing import Any, Optional

import numpy

from cvl import operators
from cvl._calls import Lengths
from cvl._twins import TWINS

WRITTEN = {"int32": "numpy.int32", "bool": "bool", "uint8": "numpy.uint8"}
PLAIN = (list, tuple, range)
NOTHING, NO_OBJECT = "no call takes such elements", "no call takes such an object"

# other names of operators, as of functions of numpy and in formulas
OPERATORS = {
    "sum": "ADD", "plus": "ADD", "+": "ADD", "prod": "MUL", "multiply": "MUL", "*": "MUL", "minimum": "MIN", "maximum": "MAX",
    "all": "AND", "bitwise_and": "AND", "logical_and": "AND", "&": "AND", "or": "IOR", "or_": "IOR", "any": "IOR",
    "bitwise_or": "IOR", "logical_or": "IOR", "|": "IOR", "bitwise_xor": "XOR", "logical_xor": "XOR", "^": "XOR",
}  # fmt: skip
NAMED = (numpy.ufunc, types.FunctionType, types.BuiltinFunctionType, type)


# ---- elements of another kind, of an array or of a list that numpy makes one of ----


def _flat(found: Any, name: str) -> str:
    return name if found.ndim == 1 else f"numpy.ravel({name})"


def _kind(found: Any) -> str:
    """The kind of the elements; no elements are of any."""
    return found.dtype.kind if found.size else "i"


def ints(found: Any, name: str) -> str:
    flat, kind = _flat(found, name), _kind(found)
    if kind in "biuf":
        return f"write cvl.as_ints({f'numpy.rint({flat})' if kind == 'f' else flat})"
    as_array = flat if flat != name else f"numpy.asarray({name})"
    if kind in "US":
        keys = f"cvl.as_ints(numpy.unique({flat}, return_inverse=True)[1])"
        return f"if they are digits, write cvl.as_ints({as_array}.astype(numpy.int64)), and to number texts as keys {keys}"
    return f"if they are whole numbers, write cvl.as_ints({as_array}.astype(numpy.int64))" if kind == "O" else NOTHING


def _flags(found: Any, name: str) -> str:
    if _kind(found) in "biuf":
        return f"write {_flat(found, name)} != 0"
    return f"write what has to hold of each, such as numpy.ravel({name}) == x"


def _bytes(found: Any, name: str) -> str:
    if _kind(found) in "biu" and found.itemsize == 1:
        return f"bytes of another kind are {_flat(found, name)}.view(numpy.uint8)"
    if _kind(found) not in "biuf":
        return NOTHING
    return f"write cvl.bytes_from_ints({ints(found, name)[len('write '):]})"


INSTEAD = {"int32": ints, "bool": _flags, "uint8": _bytes}


def _twin(found: Any, name: str, wanted: str, function: str) -> str:
    """The same call of booleans or of integers, if these are given to the other one."""
    twin, names = TWINS.get(function, ("", ()))
    taken = {("int32", "b"): "booleans", ("bool", "i"): "integers", ("bool", "u"): "integers"}.get((wanted, _kind(found)))
    return f", or cvl.{twin}, which takes {taken}" if name in names and taken else ""


# ---- arrays ----


def _in_memory(found: Any, name: str) -> str:
    """What to write for an array of the right elements."""
    if found.ndim != 1:
        return f"write {_flat(found, name)}" if found.flags.aligned else f"write {_flat(found, name)}.copy()"
    return f"write {name}.copy()" if found.flags.c_contiguous else f"write numpy.ascontiguousarray({name})"


def _of_array(found: Any, name: str, wanted: str, function: str) -> str:
    """Of the elements, the dimensions and the memory of an array, the first that is not as it has to be."""
    if found.dtype != numpy.dtype(wanted):
        of_bytes = wanted == "int32" and isinstance(getattr(found.base, "obj", None), bytes)
        instead = f"write cvl.ints_from_bytes({name})" if of_bytes else INSTEAD[wanted](found, name)
        return f"{name} has elements of {found.dtype}, and has to have {wanted}; {instead}{_twin(found, name, wanted, function)}"
    if found.ndim != 1:
        return f"{name} has {found.ndim} dimensions, and has to have one; {_in_memory(found, name)}"
    lie = "are not aligned in memory" if found.flags.c_contiguous else "do not lie side by side"
    return f"the elements of {name} {lie}; {_in_memory(found, name)}"


# ---- what is no array ----


def _of_number(given: Any, name: str, wanted: str, long_as: Optional[str]) -> str:
    """Of a number, the array of it that is as long as it has to be."""
    if isinstance(given, (complex, numpy.complexfloating)):
        return NO_OBJECT
    value = name if wanted == "bool" or hasattr(type(given), "__index__") else f"round({name})"
    if long_as is None:
        return f"write numpy.array([{value}], dtype={WRITTEN[wanted]})"
    return f"write numpy.full({long_as}, {value}, dtype={WRITTEN[wanted]})"


def _of_list(given: Any, name: str, wanted: str, function: str) -> str:
    try:
        found = numpy.asarray(given)
    except ValueError:
        # numpy makes no array of rows that differ in length
        found = numpy.zeros(1, object)
    if found.dtype == object and any(isinstance(item, (*PLAIN, numpy.ndarray)) for item in given):
        return f"rows that differ in length are a cvl.Ragged({name})"
    if wanted != "int32" and found.ndim == 1 and (_kind(found) in "biu" or wanted == "bool" and _kind(found) == "f"):
        return f"write numpy.array({name}, dtype={WRITTEN[wanted]}){_twin(found, name, wanted, function)}"
    return INSTEAD[wanted](found, name) + _twin(found, name, wanted, function)


def _of_other(given: Any, name: str, wanted: str) -> str:
    """Of another object, which is asked for nothing but its class."""
    kind = type(given)
    if isinstance(given, (str, bytes)):
        return {"int32": f"write cvl.read_ints({name})", "uint8": f"write {name}.encode()"}.get(wanted, NO_OBJECT)
    if hasattr(kind, "__array__"):
        return f"write cvl.as_ints({name})" if wanted == "int32" else f"write numpy.array({name}, dtype={WRITTEN[wanted]})"
    if hasattr(kind, "__iter__") and not hasattr(kind, "keys"):
        items = f"list({name})"
        return f"write cvl.as_ints({items})" if wanted == "int32" else f"write numpy.array({items}, dtype={WRITTEN[wanted]})"
    return NO_OBJECT


def array(given: Any, name: str, wanted: str, kind: str, function: str, long_as: Optional[str], order: Optional[str]) -> str:
    """Why an argument is no array that a call takes, and what to write; `kind` is the name of its type, `long_as` how long it has to be,
    and `order` how the call takes its arguments."""
    no_array = f"{name} is no array but a {kind}"
    if isinstance(given, numpy.ndarray):
        said = _of_array(given, name, wanted, function)
    elif isinstance(given, Lengths):
        said = f"{no_array}, whose lengths are {name}.lengths"
    elif isinstance(given, (complex, float, numpy.generic)) or hasattr(type(given), "__index__"):
        said = f"{no_array}; {_of_number(given, name, wanted, long_as)}"
    elif isinstance(given, PLAIN):
        said = f"{no_array}; {_of_list(given, name, wanted, function)}"
    else:
        said = f"{no_array}; {_of_other(given, name, wanted)}"
    return said if order is None else f"{said}; the order of arguments is {order}"


# ---- operators ----


def operator(given: Any, name: str, kind: str, taken: Optional[str]) -> str:
    """What is no number of an operator, with the operator that it names, if the call takes it, or all that it takes."""
    word = given if isinstance(given, str) else given.__name__ if isinstance(given, NAMED) else ""
    meant = OPERATORS.get(word.lower(), word.upper().rstrip("_"))
    every = taken.split(",") if taken else [found for found in vars(operators) if found.isupper()]
    instead = f"cvl.operators.{meant}" if meant in every else f"one of cvl.operators: {', '.join(every)}"
    return f"{name} is no number of an operator but a {kind}; write {instead}"

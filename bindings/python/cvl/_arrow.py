"""Arrow arrays of lists, by what `__arrow_c_array__` gives."""

from __future__ import annotations

from typing import Any, Tuple

import numpy

from cvl._calls import arrow_give, arrow_take
from cvl.segments import Segments

INT, LONG, BYTE = (numpy.dtype(kind).str for kind in ("int32", "int64", "uint8"))
# what formats of other elements are called
OTHERS = {
    "i": "int32", "c": "int8", "C": "uint8", "s": "int16", "S": "uint16", "I": "uint32", "l": "int64", "L": "uint64", "f": "float32",
    "g": "float64", "u": "text",
}  # fmt: skip


class _Memory:
    """Memory of a producer, which it has until no array over it is left."""

    def __init__(self, held: Any, address: int, count: int, kind: str) -> None:
        self.held = held
        self.__array_interface__ = {"shape": (count,), "typestr": kind, "data": (address, True), "version": 3}


def _array(held: Any, address: Any, start: int, end: int, kind: str) -> Any:
    """The elements of a buffer from one place to before another, which nobody may write."""
    if start == end:
        return numpy.zeros(0, kind)
    if address is None:
        raise ValueError("the Arrow array has no buffer for its elements")
    found = numpy.asarray(_Memory(held, address, end, kind))[start:]
    return found if found.flags.aligned else found.copy()


def _bits(held: Any, address: Any, start: int, end: int) -> Any:
    """The same of a buffer of bits, as booleans of their own."""
    first = start // 8
    bits = numpy.unpackbits(_array(held, address, first, (end + 7) // 8, BYTE), bitorder="little")
    return bits[start - 8 * first : end - 8 * first].view(bool)


def _refuse_nulls(held: Any, node: Any, start: int, end: int, what: str) -> None:
    _, _, nulls, offset, buffers, _ = node
    if nulls == 0 or not buffers or buffers[0] is None:
        return
    is_there = _bits(held, buffers[0], offset + start, offset + end)
    if not is_there.all():
        raise ValueError(f"{what} {int(is_there.argmin())} is null, and a Ragged has no missing values; fill or drop nulls first")


def _offsets(held: Any, node: Any, start: int, end: int) -> Any:
    kind, _, _, offset, buffers, _ = node
    if len(buffers) != 2:
        raise ValueError("the Arrow list has no buffer for its offsets")
    if buffers[1] is None and start == end:
        return numpy.zeros(1, INT)
    return _array(held, buffers[1], offset + start, offset + end + 1, LONG if kind == "+L" else INT)


def _elements(of: Any, held: Any, node: Any, start: int, end: int) -> Any:
    """The elements of an array from one place to before another: rows of a list, or numbers."""
    kind, length, _, offset, buffers, children = node
    if not 0 <= start <= end <= length:
        raise ValueError(f"the Arrow list has offsets {start} to {end}, and {length} elements")
    if kind in ("+l", "+L"):
        return _rows(of, held, node, start, end)
    if kind not in ("i", "b"):
        said = f"the Arrow list has elements of {OTHERS.get(kind, kind)}, and has to have int32 or bool; cast them first"
        raise TypeError(said)
    _refuse_nulls(held, node, start, end, "element")
    address, first, last = buffers[1] if len(buffers) == 2 else None, offset + start, offset + end
    return _bits(held, address, first, last) if kind == "b" else _array(held, address, first, last, INT)


def _rows(of: Any, held: Any, node: Any, start: int, end: int) -> Any:
    kind, *_, children = node
    if kind not in ("+l", "+L") or len(children) != 1:
        raise TypeError(f"an Arrow array of {OTHERS.get(kind, kind)} is no list, and has to be a list of int32 or bool")
    _refuse_nulls(held, node, start, end, "row")
    offsets = _offsets(held, node, start, end)
    inner = _elements(of, held, children[0], int(offsets[0]), int(offsets[-1]))
    return of._new(inner, Segments.from_offsets(offsets - offsets[0]))


def taken(of: Any, data: Any) -> Any:
    """The rows of an Arrow array of lists. Integers stay where they are, and the producer keeps them until they are gone."""
    node, held = arrow_take(*data.__arrow_c_array__())
    return _rows(of, held, node, 0, node[1])


def _node(values: Any) -> Tuple[Any, ...]:
    if isinstance(values, numpy.ndarray):
        if values.dtype == bool:
            return "b", len(values), (None, numpy.packbits(values, bitorder="little")), None
        return "i", len(values), (None, values), None
    return "+l", len(values), (None, values.segments.offsets), _node(values.values)


def given(ragged: Any) -> Any:
    """The capsules of rows for a consumer, which may keep them longer than the rows are there."""
    return arrow_give(_node(ragged))

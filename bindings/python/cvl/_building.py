"""What a `cvl.Ragged` is made of."""

from __future__ import annotations

from itertools import chain
from typing import Any, List, Tuple

import numpy

from cvl import _arrow, faults
from cvl.calls import dis_vuz, max_ruz
from cvl.conversions import INT, as_array, as_elements
from cvl.fault import Fault
from cvl.segments import Segments, cut

LISTS = (list, tuple, range, numpy.ndarray)


def numbers(given: Any, name: str = "values") -> Any:
    """Numbers of one dimension as they are if they are int32 or bool, else as integers if they fit."""
    return as_elements(given, lambda place: f"{name}[{place}]", name)


def made(of: Any, data: Any) -> Any:
    """A `Ragged` of anything that it is made of."""
    if isinstance(data, of):
        return data.copy()
    if isinstance(data, tuple):
        if len(data) != 2:
            raise TypeError("a tuple is (values, lengths); rows are a list")
        return of_parts(of, data[0], data[1] if isinstance(data[1], Segments) else Segments(data[1]))
    if isinstance(data, list):
        return of_lists(of, data)
    if isinstance(data, numpy.ndarray) and data.dtype != object:
        return of_array(of, data)
    if hasattr(data, "__arrow_c_array__"):
        return _arrow.taken(of, data)
    if hasattr(data, "indptr"):
        raise TypeError("a sparse matrix has columns and data; write columns, data = cvl.Ragged.from_scipy(matrix)")
    if hasattr(data, "tolist"):
        return of_lists(of, data.tolist())
    raise TypeError(f"a Ragged is made of lists, arrays or (values, lengths), and not of a {type(data).__name__}")


def of_parts(of: Any, values: Any, segments: Segments) -> Any:
    """Rows of values that lie one behind the other."""
    found = values if isinstance(values, of) else numbers(values)
    if len(found) != segments.total:
        said = f"the lengths add up to {segments.total}, and there are {len(found)} values"
        raise Fault(faults.LENGTH_MISMATCH, "LengthMismatch", None, said)
    return of._new(found, segments)


def of_array(of: Any, data: Any) -> Any:
    """Rows of an array of two or more dimensions, which are all of one length."""
    if data.ndim < 2:
        raise TypeError(f"an array of {data.ndim} dimensions has no rows; write cvl.Ragged([a]) or cvl.Ragged((a, lengths))")
    found = numbers(data.reshape(-1))
    for count, length in zip(numpy.multiply.accumulate(data.shape)[-2::-1].tolist(), data.shape[:0:-1]):
        found = of._new(found, cut(dis_vuz(length, count)))
    return found


def of_lists(of: Any, data: List[Any]) -> Any:
    """Rows of lists, tuples or arrays of one dimension, as deep as they are nested."""
    levels, items = [], data
    while not levels or any(isinstance(item, LISTS) for item in items):
        for k, item in enumerate(items):
            if not isinstance(item, LISTS) or isinstance(item, numpy.ndarray) and item.ndim != 1:
                raise TypeError(f"rows{_path(levels, k)} is {item!r}, and has to be a list of numbers, as others are")
        levels.append(Segments(numpy.array([len(item) for item in items], INT)))
        if items and all(isinstance(item, numpy.ndarray) for item in items):
            items = numpy.concatenate(items)
            break
        items = list(chain.from_iterable(items))
    found = numpy.zeros(0, _kind(items))
    if len(items):
        found = as_elements(items, lambda place: f"rows{_path(levels, place)}", "rows")
    for segments in reversed(levels):
        found = of._new(found, segments)
    return found


def _kind(items: Any) -> Any:
    return items.dtype if isinstance(items, numpy.ndarray) and items.dtype == bool else INT


def _path(levels: List[Segments], place: int) -> str:
    """A place by its rows."""
    path = []
    for segments in reversed(levels):
        offsets = segments.offsets
        row = int(offsets.searchsorted(place, "right")) - 1
        path.append(place - int(offsets[row]))
        place = row
    return "".join(f"[{place}]" for place in [place, *reversed(path)])


def operand(of: Any, other: Any) -> Any:
    """What may stand beside rows: rows, or one number a row, of a column or an array."""
    if isinstance(other, list) and any(isinstance(item, LISTS) for item in other):
        return of_lists(of, other)
    found = other if isinstance(other, numpy.ndarray) else as_array(other, lambda place: f"numbers[{place}]")
    if found.ndim == 2 and found.shape[1] == 1:
        found = found.reshape(-1)
    return of_array(of, found) if found.ndim > 1 else numbers(found, "numbers")


# ---- matrices ----


def of_scipy(of: Any, matrix: Any) -> Tuple[Any, Any]:
    if getattr(matrix, "format", None) != "csr":
        raise TypeError("a matrix of scipy.sparse has to have compressed rows; write matrix.tocsr()")
    segments = Segments.from_offsets(matrix.indptr)
    return of_parts(of, numbers(matrix.indices, "indices"), segments), of_parts(of, numbers(matrix.data, "data"), segments)


def to_scipy(data: Any, columns: Any, width: Any) -> Any:
    from scipy.sparse import csr_matrix

    values, places = data._values, data._beside(columns)
    if data.depth != 1 or not isinstance(places, numpy.ndarray):
        raise TypeError("a matrix has rows of numbers, and a column for each")
    least = max_ruz(places) + 1 if len(places) else 0
    return csr_matrix((values, places, data.offsets), shape=(len(data), least if width is None else width))

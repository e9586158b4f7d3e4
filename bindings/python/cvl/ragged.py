"""`cvl.Ragged`: a value like an array of numpy, whose rows differ in length."""

from __future__ import annotations

import operator
from typing import Any, Callable, Iterator, List, Optional, Sequence, Tuple

import numpy

from cvl import _arrow, _building, _shown, faults
from cvl._elementwise import Operation, changed, is_bool, two
from cvl._methods import OPERATIONS, UNARY, Methods, joined_at
from cvl._rows import from_end
from cvl.calls import (
    bck_puz,
    dis_veb,
    dis_vez,
    dis_vub,
    dis_vuz,
    gather_segments_bool,
    gather_segments_int,
    ind_lez,
    ind_luz,
    pck_luz,
)
from cvl.conversions import INT, as_ints
from cvl.fault import Fault
from cvl.segments import Segments, cut

NUMBERS = (int, numpy.generic, float)
BESIDE = (*NUMBERS, numpy.ndarray, list)


def is_number(other: Any) -> bool:
    if type(other) is numpy.ndarray:
        return other.ndim == 0
    return isinstance(other, NUMBERS)


class Ragged(Methods):
    """Rows of int32 or bool that differ in length, or rows of such rows: their numbers one behind the other, and a `Segments`.

    It is made of lists, of `(values, lengths)`, of an array of two or more dimensions, of a column of lists, or of what gives an
    Arrow array of lists; numbers that are no int32 have to fit, as for `cvl.as_ints`. An array of int32 or bool is not copied.

    >>> import cvl
    >>> r = cvl.Ragged([[3, 1], [], [4, 1, 5]])
    >>> r
    Ragged([[3, 1],
            [],
            [4, 1, 5]])
    >>> r.sum()
    array([ 4,  0, 10], dtype=int32)
    >>> (r * 10).cumsum().tolist()
    [[30, 40], [], [40, 50, 100]]

    Beside rows, in `r + s`, stand rows of the same lengths, a number, or an array of one number a row. Methods work on the
    innermost rows, as numpy's do with `axis=-1`; `r[..]` chooses among the outermost. Threads are those of the calls; ranks of MPI
    have no `Ragged`.
    """

    __slots__ = ("_segments", "_values", "__weakref__")
    __hash__ = None  # type: ignore[assignment]
    _values: Any
    _segments: Segments

    def __new__(cls, data: Any, dtype: Any = None) -> Ragged:
        made = _building.made(cls, data)
        return made if dtype is None else made.astype(dtype)

    # ---- how it is made ----

    @staticmethod
    def _new(values: Any, segments: Segments) -> Ragged:
        made = object.__new__(Ragged)
        made._values, made._segments = values, segments
        return made

    @classmethod
    def from_offsets(cls, values: Any, offsets: Any) -> Ragged:
        """Rows by where each starts, and where the last one ends, as compressed rows have them.

        >>> import cvl
        >>> cvl.Ragged.from_offsets([3, 1, 4], [0, 2, 2, 3]).tolist()
        [[3, 1], [], [4]]
        """
        return _building.of_parts(cls, values, Segments.from_offsets(offsets))

    @classmethod
    def from_rows(cls, rows: Sequence[Any]) -> Ragged:
        """The rows of a list of arrays.

        >>> import cvl, numpy
        >>> cvl.Ragged.from_rows([numpy.arange(3), numpy.arange(1)]).tolist()
        [[0, 1, 2], [0]]
        """
        return cls(list(rows))

    @classmethod
    def from_scipy(cls, matrix: Any) -> Tuple[Ragged, Ragged]:
        """The columns and the data of a matrix of scipy.sparse in compressed rows; int32 and bool are not copied."""
        return _building.of_scipy(cls, matrix)

    def to_scipy(self, columns: Ragged, width: Optional[int] = None) -> Any:
        """A matrix of scipy.sparse in compressed rows, with these numbers in these columns; width says how many there are."""
        return _building.to_scipy(self, columns, width)

    def __arrow_c_array__(self, requested_schema: Any = None) -> Tuple[Any, Any]:
        """An array of lists for Arrow, over the same memory; booleans are packed into bits."""
        return _arrow.given(self)

    def __reduce__(self) -> Any:
        return Ragged._new, (self._values, self._segments)

    def copy(self) -> Ragged:
        """The same with numbers of its own."""
        return self._with(self._values.copy())

    __copy__ = copy

    def __deepcopy__(self, memo: Any) -> Ragged:
        return self.copy()

    # ---- its shape ----

    @property
    def values(self) -> Any:
        """What the rows have, one behind the other: an array as it lies, or the rows of the next level."""
        return self._values

    @property
    def segments(self) -> Segments:
        """How it is cut into rows."""
        return self._segments

    @property
    def lengths(self) -> Any:
        """How long each row is."""
        return self._segments.lengths

    @property
    def offsets(self) -> Any:
        """Where each row starts, and where the last one ends."""
        return self._segments.offsets

    @property
    def depth(self) -> int:
        """How many levels of rows there are: 1 if the rows have numbers."""
        return 1 + self._values.depth if isinstance(self._values, Ragged) else 1

    @property
    def dtype(self) -> Any:
        """int32 or bool."""
        return self._values.dtype

    @property
    def size(self) -> int:
        """How many numbers there are in all."""
        return self._values.size

    def __len__(self) -> int:
        return len(self._segments)

    def __bool__(self) -> bool:
        raise ValueError("whether a Ragged is true is ambiguous; write r.flatten().any() or r.flatten().all(), or r.equals(s)")

    def equals(self, other: Ragged) -> bool:
        """Whether both have the same rows; `==` compares number by number.

        >>> import cvl
        >>> cvl.Ragged([[1], [2]]).equals(cvl.Ragged([[1, 2], []]))
        False
        """
        if not isinstance(other, Ragged) or self._segments != other._segments:
            return False
        a, b = self._values, other._values
        return a.equals(b) if isinstance(a, Ragged) else isinstance(b, numpy.ndarray) and numpy.array_equal(a, b)

    # ---- its rows ----

    def __getitem__(self, key: Any) -> Any:
        if isinstance(key, slice):
            start, stop, step = key.indices(len(self))
            if step == 1:
                return self._between(start, max(start, stop))
            return self._gathered(numpy.arange(start, stop, step, dtype=INT))
        if isinstance(key, Ragged):
            raise TypeError("a Ragged chooses no rows; write r.filter(mask) or r.take(index) for elements of each row")
        if isinstance(key, tuple):
            raise TypeError("there is one index a level; write r[i][j], or r.take(j) for a place in each row")
        if hasattr(key, "__index__") and not isinstance(key, (bool, numpy.bool_, numpy.ndarray)):
            return self._row(operator.index(key))
        index = self._chosen(key if isinstance(key, numpy.ndarray) else numpy.asarray(key))
        try:
            return self._gathered(from_end(index, len(self)))
        except Fault as fault:
            if not isinstance(fault.place, int):
                raise
            said = f"index[{fault.place}] is {index[fault.place]}, and there are {len(self)} rows"
        raise IndexError(said)

    def _row(self, key: int) -> Any:
        row = key + len(self) if key < 0 else key
        if not 0 <= row < len(self):
            raise IndexError(f"the index is {key}, and there are {len(self)} rows")
        offsets, values = self._segments.offsets, self._values
        start, end = offsets[row], offsets[row + 1]
        return values._between(start, end) if isinstance(values, Ragged) else values[start:end]

    def __iter__(self) -> Iterator[Any]:
        return map(self._row, range(len(self)))

    def __contains__(self, number: Any) -> bool:
        return bool((self == number).flatten().any())

    def _between(self, start: int, end: int) -> Ragged:
        """The rows from one to before another, over the same memory."""
        offsets, values = self._segments.offsets, self._values
        first, last = offsets[start], offsets[end]
        inner = values._between(first, last) if isinstance(values, Ragged) else values[first:last]
        return Ragged._new(inner, cut(self._segments.lengths[start:end]))

    def _chosen(self, key: Any) -> Any:
        """The rows that a mask or indices choose."""
        count = len(self)
        if key.dtype.char == "?":
            if key.shape != (count,):
                raise IndexError(f"the mask has {key.size} elements, and there are {count} rows")
            return pck_luz(ind_luz(0, 1, count), numpy.ascontiguousarray(key))
        if key.dtype.kind not in "iu" and key.size:
            raise IndexError(f"rows are chosen by whole numbers, by a mask or by a slice, and not by {key.dtype}")
        return as_ints(key, "index")

    def _gathered(self, index: Any) -> Ragged:
        offsets, values = self._segments.offsets, self._values
        starts, rows = bck_puz(offsets[:-1], index), cut(bck_puz(self._segments.lengths, index))
        if isinstance(values, Ragged):
            return Ragged._new(values._gathered(ind_lez(starts, dis_vuz(1, len(index)), rows)), rows)
        return Ragged._new((gather_segments_bool if is_bool(values) else gather_segments_int)(values, starts, rows), rows)

    # ---- what goes on in its innermost rows ----

    def _with(self, values: Any, segments: Optional[Segments] = None) -> Ragged:
        """Rows of other numbers."""
        made = object.__new__(Ragged)
        made._values, made._segments = values, self._segments if segments is None else segments
        return made

    def _on_rows(self, function: Callable[..., Any], beside: Tuple[Any, ...] = (), fixed: Tuple[Any, ...] = ()) -> Any:
        """What a function gives of the innermost rows and what stands beside them, in their place."""
        values = self._values
        if type(values) is not Ragged:
            return function(self, *beside, *fixed)
        try:
            found = values._on_rows(function, tuple(self._beside(other) for other in beside), fixed)
        except Fault as fault:
            raise self._told_outside(fault) from None
        if type(found) is not Ragged and found.dtype == numpy.int64:
            raise TypeError("sums of 64 bits are no elements of a Ragged; write r.values.sum(exact=True)")
        return Ragged._new(found, self._segments)

    def _beside(self, other: Any) -> Any:
        """What stands beside the values: those of rows of the same lengths, each number of an array for its row, or a number."""
        if type(other) is not Ragged:
            if self._has_for_rows(other):
                return dis_vez(other, self._segments)
            if is_number(other):
                return other[()] if type(other) is numpy.ndarray else other
            other = self._as_operand(other)
            if type(other) is not Ragged:
                return (dis_veb if is_bool(other) else dis_vez)(other, self._segments)
        if other._segments is not self._segments and other._segments != self._segments:
            raise self._differs(other)
        return other._values

    def _has_for_rows(self, other: Any) -> bool:
        """Whether it is an array of one integer a row, as the calls take it."""
        return (
            type(other) is numpy.ndarray
            and other.dtype.char == "i"
            and other.shape == (len(self._segments),)
            and other.flags.carray
        )

    def _as_operand(self, other: Any) -> Any:
        """Lists and other arrays as rows, or as an array of one number a row."""
        found = _building.operand(Ragged, other)
        if type(found) is not Ragged and len(found) != len(self):
            said = f"there are {len(self)} rows, and {len(found)} numbers beside them"
            raise Fault(faults.LENGTH_MISMATCH, "LengthMismatch", None, said)
        return found

    def _as_index(self, index: Any) -> Any:
        """The same, without booleans."""
        if self._has_for_rows(index):
            return index
        found = index if type(index) is Ragged or is_number(index) else self._as_operand(index)
        if is_bool(found._flat() if type(found) is Ragged else found):
            raise TypeError("an index is no boolean; write r.filter(mask)")
        return found

    def _as_rows(self, other: Any) -> Ragged:
        """Rows, as many as these; one number a row is a row of one."""
        found = other if type(other) is Ragged or is_number(other) else self._as_operand(other)
        if type(found) is not Ragged:
            if type(found) is not numpy.ndarray or found.ndim == 0:
                found = (dis_vub if is_bool(found) else dis_vuz)(found, len(self))
            found = Ragged._new(found, cut(dis_vuz(1, len(found))))
        return found

    def _as_many(self, other: Ragged) -> Ragged:
        """Rows that are as many as these, of any lengths."""
        if len(other) != len(self):
            raise self._differs(other)
        return other

    def _differs(self, other: Ragged) -> Fault:
        """The fault that other rows have other lengths."""
        a, b = self._segments.lengths, other._segments.lengths
        said = f"there are {len(a)} rows, and {len(b)} beside them"
        if len(a) == len(b):
            row = int((a != b).argmax())
            said = f"row {row} has {a[row]} elements, and row {row} beside it {b[row]}"
        return Fault(faults.LENGTH_MISMATCH, "LengthMismatch", None, said)

    def _flat(self) -> Any:
        """All numbers as they lie."""
        values = self._values
        return values._flat() if type(values) is Ragged else values

    def _flat_beside(self, other: Any) -> Any:
        """A number for each number, of what stands beside the rows."""
        found, values = self._beside(other), self._values
        return values._flat_beside(found) if type(values) is Ragged else found

    # ---- faults by row and place ----

    def _row_of(self, flat: int) -> Tuple[int, int]:
        """The row of a place, and the place in it."""
        offsets = self._segments.offsets
        row = int(offsets.searchsorted(flat, "right")) - 1
        return row, flat - int(offsets[row])

    def _named(self, path: Tuple[int, ...]) -> str:
        return str(path[0]) if len(path) == 1 else "".join(f"[{place}]" for place in path)

    def _placed(self, path: Tuple[int, ...]) -> str:
        return f"place {path[-1]} in row {self._named(path[:-1])}"

    def _told(self, fault: Fault, said: Callable[..., str], where: Optional[Callable[[int], Tuple[int, ...]]] = None) -> Fault:
        """The fault with its row and its place in that, which outer levels say more of."""
        if not isinstance(fault.place, int):
            return fault
        flat = fault.place
        path = (where or self._row_of)(flat)
        told = Fault(fault.number, fault.name, path, said(path, flat))
        told.said_of = lambda path: said(path, flat)
        return told

    def _told_outside(self, fault: Fault) -> Fault:
        """The fault of the values, by the row of the row."""
        said_of = getattr(fault, "said_of", None)
        if said_of is None:
            return fault
        path = (*self._row_of(fault.place[0]), *fault.place[1:])
        told = Fault(fault.number, fault.name, path, said_of(path))
        told.said_of = said_of
        return told

    # ---- operators ----

    def _applied(self, operation: Operation, other: Any, swapped: bool = False) -> Any:
        """The operator, where rows of rows may stand beside one number a row, which are rows."""
        if type(other) is Ragged:
            if type(other._values) is Ragged and other.depth > self.depth:
                return other._on_rows(two, (self,), (operation, not swapped))
        elif not isinstance(other, BESIDE):
            return NotImplemented
        if type(self._values) is not Ragged:
            return two(self, other, operation, swapped)
        return self._on_rows(two, (other,), (operation, swapped))

    def _changed(self, operation: Operation, other: Any) -> Ragged:
        """The operator in the memory of this one."""
        if type(other) is Ragged and other.depth > self.depth:
            raise TypeError(f"r has {self.depth} levels of rows, and {other.depth} stand beside it, which r cannot hold")
        if type(other) is not Ragged and not isinstance(other, BESIDE):
            return NotImplemented
        self._on_rows(changed, (other,), (operation,))
        return self

    def __array_ufunc__(self, ufunc: Any, method: str, *inputs: Any, **more: Any) -> Any:
        if not more and method == "__call__" and ufunc in OPERATIONS:
            (first, second), operation = inputs, OPERATIONS[ufunc]
            is_swapped = not isinstance(first, Ragged)
            found = second._applied(operation, first, True) if is_swapped else first._applied(operation, second)
            if found is not NotImplemented:
                return found
        if not more and method == "__call__" and ufunc in UNARY:
            return self._on_rows(UNARY[ufunc])
        if not more and method == "at" and inputs[0] is self and len(inputs) == 3 and ufunc in joined_at:
            return getattr(self, joined_at[ufunc])(*inputs[1:])
        raise TypeError(_shown.refused(ufunc, method, more))

    def __array_function__(self, function: Any, types: Any, arguments: Any, named: Any) -> Any:
        raise TypeError(_shown.refused_function(Ragged, function))

    def __array__(self, dtype: Any = None, copy: Any = None) -> Any:
        raise TypeError("a Ragged is no array; write r.flatten() or r.values for its numbers, or r.to_numpy() for its rows")

    # ---- as other values ----

    def tolist(self) -> List[Any]:
        """Lists of lists."""
        offsets, inner = self._segments.offsets.tolist(), self._values.tolist()
        return [inner[start:end] for start, end in zip(offsets, offsets[1:])]

    def to_numpy(self) -> Any:
        """An array of objects, which are the rows."""
        found = numpy.empty(len(self), object)
        for k, row in enumerate(self):
            found[k] = row.to_numpy() if isinstance(row, Ragged) else row
        return found

    def __repr__(self) -> str:
        return _shown.text(self)

    def _repr_html_(self) -> str:
        return _shown.table(self)

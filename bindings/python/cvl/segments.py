"""Segments: how a vector is cut."""

from __future__ import annotations

from typing import TYPE_CHECKING, Any, Iterator

import numpy

from cvl import faults
from cvl._calls import MOST_ELEMENTS, Lengths
from cvl.calls import dis_vez, ind_luz
from cvl.conversions import INT, as_array, as_ints, refuse_mask
from cvl.fault import Fault

if TYPE_CHECKING:
    from numpy.typing import ArrayLike

    from cvl._kinds import IntArray

# so many segments are shown whole
SHOWN = 12


def _whole_numbers(numbers: Any, name: str) -> Any:
    """The numbers as an array of integers in one dimension."""
    refuse_mask(numbers, name)
    given = as_array(numbers, lambda place: f"{name}[{place}]")
    if given.size == 0 and given.ndim == 1:
        return given.astype(INT)
    if given.dtype.kind not in "iu" or given.ndim != 1:
        raise TypeError(f"{name} are no whole numbers in one dimension")
    return given


def _numbers(lengths: ArrayLike) -> IntArray:
    """The lengths as integers of 32 bits, if they are whole numbers and fit."""
    return as_ints(_whole_numbers(lengths, "lengths"), "lengths")


def _frozen(found: IntArray) -> IntArray:
    """A new array, which nobody writes from now on."""
    found.flags.writeable = False
    return found


class Segments(Lengths):
    """Segments of a vector, one after another, made once from their lengths and used by any calls and threads.

    `lengths` is an array of int32, `total` the number of elements and `len` of it the number of segments; `offsets` says where each
    starts, and `numbers` the segment of each place. None of it can be changed. A negative length and a total above
    `cvl.MOST_ELEMENTS` are faults.

    >>> import cvl, numpy
    >>> rows = cvl.Segments([2, 0, 3])
    >>> len(rows), rows.total
    (3, 5)
    >>> cvl.add_rez(numpy.array([3, 1, 4, 1, 5], dtype=numpy.int32), rows).tolist()
    [4, 0, 10]
    >>> cvl.Segments.from_offsets([0, 2, 2, 5]) == rows
    True
    >>> rows.offsets.tolist(), list(rows)
    ([0, 2, 2, 5], [2, 0, 3])
    """

    __slots__ = ()

    def __new__(cls, lengths: ArrayLike) -> Segments:
        return super().__new__(cls, _numbers(lengths))

    def __getitem__(self, key: Any) -> Any:
        return self.lengths[key]

    def __iter__(self) -> Iterator[Any]:
        return iter(self.lengths)

    def __array__(self, dtype: Any = None, copy: Any = None) -> Any:
        return numpy.array(self.lengths, dtype=dtype) if copy or dtype not in (None, INT) else self.lengths

    def __copy__(self) -> Segments:
        return self

    def __deepcopy__(self, memo: Any) -> Segments:
        return self

    def __reduce__(self) -> Any:
        return type(self), (self.lengths,)

    @classmethod
    def from_offsets(cls, offsets: ArrayLike) -> Segments:
        """Segments by the offsets of compressed rows: where each starts, and where the last one ends.

        Faults: 7 LengthMismatch if there is no offset or the first is not 0; 12 NegativeLength at the first segment that
        ends before it starts; 13 TooLong if the last offset is above `cvl.MOST_ELEMENTS`.
        """
        given = _whole_numbers(offsets, "offsets")
        if given.size == 0 or given[0] != 0:
            raise Fault(faults.LENGTH_MISMATCH, "LengthMismatch", None, "offsets begin with 0")
        falls = given[1:] < given[:-1]
        if falls.any():
            raise Fault(faults.NEGATIVE_LENGTH, "NegativeLength", int(falls.argmax()))
        if given[-1] > MOST_ELEMENTS:
            raise Fault(faults.TOO_LONG, "TooLong")
        return cls(numpy.diff(given))

    @property
    def numbers(self) -> IntArray:
        """At each place the number of its segment, counted from 0.

        >>> import cvl
        >>> cvl.Segments([2, 0, 3]).numbers.tolist()
        [0, 0, 2, 2, 2]
        """
        return _frozen(dis_vez(ind_luz(0, 1, len(self)), self))

    def __repr__(self) -> str:
        if len(self) <= SHOWN:
            return f"Segments({self.lengths.tolist()})"
        first, last = (", ".join(map(str, part)) for part in (self.lengths[:3], self.lengths[-3:]))
        return f"<{len(self)} Segments of {self.total} elements: {first}, .., {last}>"


def cut(lengths: IntArray) -> Segments:
    """Segments of an array of int32, which is not looked at before the compiled module does."""
    return Lengths.__new__(Segments, lengths)


def own_lengths(lengths: ArrayLike) -> IntArray:
    """Lengths as `Segments` takes them, in an array of their own that nobody writes; whether they are some is not looked at."""
    if isinstance(lengths, Segments):
        return lengths.lengths
    return _frozen(numpy.array(_numbers(lengths)))

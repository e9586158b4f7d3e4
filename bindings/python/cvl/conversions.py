"""Numbers of other kinds as integers of 32 bits, if each is one."""

from __future__ import annotations

from typing import TYPE_CHECKING, Any, Callable

import numpy
import numpy.ma

from cvl import _refused
from cvl._calls import fitting

if TYPE_CHECKING:
    from numpy.typing import ArrayLike

    from cvl._kinds import IntArray

INT = numpy.dtype(numpy.int32)


def refuse_mask(numbers: Any, name: str) -> None:
    """A mask says that elements are missing, which no call knows."""
    if isinstance(numbers, numpy.ma.MaskedArray):
        raise TypeError(f"{name} has a mask, which no call looks at; write {name}.filled(0) or {name}.compressed()")


def _first(wrong: Any) -> int:
    """The place of the first true element, or -1."""
    return int(wrong.argmax()) if wrong.any() else -1


def as_array(numbers: Any, named: Callable[[int], str]) -> Any:
    """An array of the numbers. A column of pandas that may have missing ones is one of its numbers if none is missing."""
    kind = getattr(getattr(numbers, "dtype", None), "numpy_dtype", None)
    if kind is None or not hasattr(numbers, "isna"):
        return numpy.asarray(numbers)
    place = _first(numpy.asarray(numbers.isna()))
    if place >= 0:
        raise ValueError(f"{named(place)} is missing, and has to be a number; fill in or drop what is missing")
    return numbers.to_numpy(dtype=kind)


def _check(given: Any, named: Callable[[int], str], instead: str) -> None:
    """Raises that an element is not whole, or does not fit 32 bits, with the first that is so."""
    if given.dtype.kind == "f":
        place = _first(~numpy.isfinite(given) | (given != numpy.trunc(given)))
        if place >= 0:
            said = f"{named(place)} is {given[place]}, and has to be a whole number"
            raise ValueError(said + (instead if numpy.isfinite(given[place]) else ""))
    place = _first((given < -(2**31)) | (given > 2**31 - 1))
    if place >= 0:
        _refuse(given, place, named)


def _refuse(given: Any, place: int, named: Callable[[int], str]) -> None:
    raise OverflowError(f"{named(place)} is {given[place]}, which does not fit 32 bits")


def _converted(given: Any, kind: Any, named: Callable[[int], str], instead: str) -> Any:
    """The same numbers side by side in an array of a kind, which may be int32 or their own."""
    found = fitting(given) if kind == INT else None
    if isinstance(found, int):
        _refuse(given, found, named)
    if found is not None:
        return found
    if given.size and given.dtype.kind in "iuf" and given.dtype != INT:
        _check(given, named, instead)
    found = numpy.ascontiguousarray(given, kind)
    return found if found.flags.aligned else found.copy()


def as_elements(numbers: Any, named: Callable[[int], str], name: str, keeps_bools: bool = True, instead: str = "") -> Any:
    """The numbers as `as_ints` has them, and booleans as they are; a message says the place by `named`, and `instead` of a number
    that is not whole."""
    if type(numbers) is numpy.ndarray and numbers.ndim == 1 and numbers.flags.carray:
        if numbers.dtype == INT or keeps_bools and numbers.dtype == bool:
            return numbers
    refuse_mask(numbers, name)
    given = as_array(numbers, named)
    if given.dtype.kind not in "biuf" and given.size:
        raise TypeError(f"{name} has elements of {given.dtype}, which are no numbers; {_refused.ints(given, name)}")
    if given.ndim != 1:
        write = f"numpy.ravel({name})" if keeps_bools else _refused.ints(given, name)[len("write ") :]
        raise TypeError(f"{name} has {given.ndim} dimensions, and has to have one; write {write}")
    return _converted(given, given.dtype if keeps_bools and given.dtype.kind == "b" else INT, named, instead)


def as_ints(numbers: ArrayLike, name: str = "numbers") -> IntArray:
    """The numbers as an array of int32 in one dimension; a contiguous one is returned as it is.

    The first number that is not whole is a `ValueError`, and the first that does not fit 32 bits an `OverflowError`, where
    `numpy.ndarray.astype` silently cuts and wraps; their messages call the array `name`. A column of pandas such as `Int32` may
    have no missing value.

    >>> import cvl, numpy
    >>> cvl.as_ints([3, 1.0]).tolist(), cvl.as_ints(numpy.arange(3)).dtype.name
    ([3, 1], 'int32')
    >>> cvl.as_ints([7, 2**31], "keys")
    Traceback (most recent call last):
    OverflowError: keys[1] is 2147483648, which does not fit 32 bits
    """
    instead = f"; write cvl.as_ints(numpy.rint({name}))"
    return as_elements(numbers, lambda place: f"{name}[{place}]", name, keeps_bools=False, instead=instead)

"""Methods of `cvl.Ragged` that give other rows."""

from __future__ import annotations

from functools import reduce
from typing import TYPE_CHECKING, Any, Optional, Sequence, Tuple

import numpy

from cvl import _building, faults, ragged
from cvl._elementwise import flags, ints, is_bool
from cvl.calls import (
    and_rub,
    bck_pub,
    bck_puz,
    counts,
    leq_wuz,
    max_ruz,
    order,
    run_lengths_int,
    run_starts_int,
    sel_wub,
    sel_wuz,
)
from cvl.fault import Fault
from cvl.segments import Segments, cut

if TYPE_CHECKING:
    from cvl.ragged import Ragged


def concat(several: Sequence[Ragged]) -> Ragged:
    if not several or not all(isinstance(one, ragged.Ragged) for one in several):
        raise TypeError("concat takes a list of Ragged, with one at least")
    return reduce(ragged.Ragged.append, several)


def _chosen(rows: Any, mask: Any, a: Any, b: Any) -> Any:
    chosen, x, y = flags(rows._beside(mask)), rows._beside(a), rows._beside(b)
    x_is_bool = is_bool(x)
    if x_is_bool != is_bool(y):
        x, y, x_is_bool = ints(x), ints(y), False
    return rows._with((sel_wub if x_is_bool else sel_wuz)(chosen, x, y))


def where(mask: Any, a: Any, b: Any) -> Ragged:
    rows = mask if type(mask) is ragged.Ragged else a if type(a) is ragged.Ragged else b
    if type(rows) is not ragged.Ragged:
        raise TypeError("where takes a Ragged; numpy.where takes arrays")
    for one in (a, b):
        if type(one) is ragged.Ragged and type(one._values) is ragged.Ragged and one.depth > rows.depth:
            rows = one
    return rows._on_rows(_chosen, (mask, a, b)) if type(rows._values) is ragged.Ragged else _chosen(rows, mask, a, b)


def flatten(self: Ragged) -> Any:
    return self._flat().copy()


def astype(self: Ragged, dtype: Any) -> Ragged:
    kind = numpy.dtype(dtype)
    if kind == bool:
        return self._on_rows(lambda rows: rows._with(flags(rows._values)))
    if kind == numpy.int32:
        return self._on_rows(lambda rows: rows._with(ints(rows._values)))
    raise TypeError(f"elements are int32 or bool, and not {kind}; write r.flatten().astype({kind.name!r})")


def _runs(keys: Any) -> Tuple[Any, Any, Segments]:
    """The places in the order of their keys, the distinct keys, and how many places each has."""
    places = order(keys)
    found = bck_puz(keys, places)
    return places, bck_puz(found, run_starts_int(found)), cut(run_lengths_int(found))


def taken(values: Any, places: Any) -> Any:
    if isinstance(values, ragged.Ragged):
        return values._gathered(places)
    return (bck_pub if is_bool(values) else bck_puz)(values, places)


def groupby(self: Ragged, keys: Any) -> Tuple[Any, Ragged]:
    if ragged.is_number(keys):
        raise TypeError("keys are one a row, or one for each number")
    found = keys if isinstance(keys, ragged.Ragged) else self._as_operand(keys)
    if isinstance(found, ragged.Ragged):
        return _by(self._flat(), ints(self._flat_beside(found)))
    return grouped(self, found)


def _by(values: Any, keys: Any) -> Tuple[Any, Ragged]:
    places, distinct, runs = _runs(keys)
    return distinct, ragged.Ragged._new(taken(values, places), runs)


def grouped(values: Any, keys: Any) -> Tuple[Any, Ragged]:
    """The distinct keys, and the values or rows of each."""
    found = values if isinstance(values, ragged.Ragged) else _building.numbers(values)
    numbers = ints(_building.numbers(keys, "keys"))
    if len(numbers) != len(found):
        raise Fault(faults.LENGTH_MISMATCH, "LengthMismatch", None, f"there are {len(numbers)} keys, and {len(found)} values")
    return _by(found, numbers)


def explode(self: Ragged) -> Tuple[Any, Any]:
    return self._segments.numbers, self._values


def implode(numbers: Any, values: Any, count: Optional[int] = None) -> Ragged:
    rows = _building.numbers(numbers, "numbers")
    found = values if isinstance(values, ragged.Ragged) else _building.numbers(values)
    if len(rows) != len(found):
        raise Fault(faults.LENGTH_MISMATCH, "LengthMismatch", None, f"there are {len(rows)} numbers, and {len(found)} values")
    many = counts(rows, max_ruz(rows) + 1 if count is None and len(rows) else count or 0)
    # as explode gives them, they are in their order already
    is_ordered = len(rows) == 0 or and_rub(leq_wuz(rows[:-1], rows[1:]))
    return ragged.Ragged._new(found.copy() if is_ordered else taken(found, order(rows)), cut(many))

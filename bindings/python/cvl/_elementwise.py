"""What `cvl.Ragged` does place by place."""

from __future__ import annotations

from typing import Any, NamedTuple, Optional, Tuple

import numpy

from cvl.calls import (
    add_wuz, and_wub, and_wuz, boo_wuz, cpy_wub, cpy_wuz, div_wuz, int_wub, les_wuz, max_wuz, min_ruz, mod_wuz, neq_wuz, not_wub, not_wuz,
    rsh_wuz, sel_wuz, sub_wuz, xor_wuz,
)  # fmt: skip
from cvl.fault import Fault
from cvl.faults import OVERLAP


class Operation(NamedTuple):
    """An operator: the calls on integers and on booleans, and the only kind that it takes, if it is one."""

    name: str
    ints: Any
    flags: Any
    only: Optional[str]

    @property
    def is_call(self) -> bool:
        """Whether it is one call, which may write where it reads."""
        return self.ints not in (floor_divide, remainder)


def is_bool(values: Any) -> bool:
    """Whether an array, or a number, is of booleans."""
    kind = type(values)
    return values.dtype.char == "?" if kind is numpy.ndarray else kind is bool or kind is numpy.bool_


def ints(values: Any) -> Any:
    """The same as integers."""
    if not is_bool(values):
        return values
    return int_wub(values) if isinstance(values, numpy.ndarray) else int(values)


def flags(values: Any) -> Any:
    """The same as booleans, which say what is not 0."""
    if is_bool(values):
        return values
    return boo_wuz(values) if isinstance(values, numpy.ndarray) else bool(values)


def _called(operation: Operation, x: Any, y: Any) -> Any:
    """The operator on arrays, of which one may be a number."""
    name, of_ints, of_flags, only = operation
    x_is_bool, y_is_bool = is_bool(x), is_bool(y)
    if only == "flags":
        return of_flags(flags(x), flags(y))
    if not x_is_bool and not y_is_bool:
        return of_ints(x, y)
    if x_is_bool and y_is_bool:
        if only == "ints":
            raise TypeError(f"{name} takes no booleans; write r.astype(numpy.int32)")
        if of_flags is not None:
            return of_flags(x, y)
    return of_ints(ints(x), ints(y))


def _divisor_told(rows: Any, fault: Fault, operation: Operation, divisor: Any) -> Fault:
    """The fault of a divisor or a shift, by its row and place."""
    what = "the shift" if operation.name.endswith("shift") else "the divisor"

    def said(path: Tuple[int, ...], flat: int) -> str:
        value = divisor[flat] if isinstance(divisor, numpy.ndarray) else divisor
        return f"{what} of {rows._placed(path)} is {value}"

    return rows._told(fault, said)


def two(rows: Any, other: Any, operation: Operation, swapped: bool) -> Any:
    """The operator on rows and what stands beside them."""
    x, y = rows._values, rows._beside(other)
    try:
        return rows._with(_called(operation, y, x) if swapped else _called(operation, x, y))
    except Fault as fault:
        raise _divisor_told(rows, fault, operation, x if swapped else y) from None


def refuse_frozen(values: Any) -> None:
    """Raises that numbers may not be changed where they are, as those of Arrow."""
    if not values.flags.writeable:
        raise ValueError("the memory of r may not be written; write r.copy()")


def changed(rows: Any, other: Any, operation: Operation) -> Any:
    """The operator in the memory of rows."""
    x, y = rows._values, rows._beside(other)
    if is_bool(x) and not (is_bool(y) and operation.flags is not None):
        raise TypeError(f"{operation.name} changes r where it is, and the result is no boolean; write r = r.astype(numpy.int32)")
    refuse_frozen(x)
    try:
        if operation.is_call:
            (operation.flags if is_bool(x) else operation.ints)(x, y if is_bool(x) else ints(y), out=x)
        else:
            numpy.copyto(x, _called(operation, x, y))
    except Fault as fault:
        if fault.number != OVERLAP:
            raise _divisor_told(rows, fault, operation, y) from None
        # the other operand shares a part of this memory
        numpy.copyto(x, _called(operation, x, y))
    return rows


# ---- operators that are more than a call ----


def _is_positive(b: Any) -> bool:
    """Whether all divisors are above 0, so that a quotient is rounded down by the sign of its dividend alone."""
    return min_ruz(b) > 0 if isinstance(b, numpy.ndarray) else b > 0


def _has_other_sign(left: Any, b: Any) -> Any:
    """Where what is left of a truncated quotient has not the divisor's sign."""
    is_other = les_wuz(xor_wuz(left, b), 0)
    return and_wub(is_other, neq_wuz(left, 0), out=is_other)


def floor_divide(a: Any, b: Any) -> Any:
    """The quotients rounded down, where the call cuts them off."""
    found, left = div_wuz(a, b), mod_wuz(a, b)
    if _is_positive(b):
        return add_wuz(found, rsh_wuz(left, 31, out=left), out=found)
    return sub_wuz(found, int_wub(_has_other_sign(left, b), out=left), out=found)


def remainder(a: Any, b: Any) -> Any:
    """What is left of a quotient rounded down."""
    left = mod_wuz(a, b)
    if _is_positive(b):
        return add_wuz(left, and_wuz(rsh_wuz(left, 31), b), out=left)
    return sel_wuz(_has_other_sign(left, b), add_wuz(left, b), left, out=left)


# ---- on one ----


def _refuse(values: Any, name: str) -> None:
    if is_bool(values):
        raise TypeError(f"{name} takes no booleans; write ~r, or r.astype(numpy.int32)")


def invert(rows: Any) -> Any:
    values = rows._values
    return rows._with((not_wub if is_bool(values) else not_wuz)(values))


def negative(rows: Any) -> Any:
    _refuse(rows._values, "negative")
    return rows._with(sub_wuz(0, rows._values))


def positive(rows: Any) -> Any:
    values = rows._values
    return rows._with((cpy_wub if is_bool(values) else cpy_wuz)(values))


def absolute(rows: Any) -> Any:
    values = rows._values
    if is_bool(values):
        return positive(rows)
    turned = sub_wuz(0, values)
    return rows._with(max_wuz(values, turned, out=turned))


def logical_not(rows: Any) -> Any:
    found = flags(rows._values)
    return rows._with(not_wub(found))

"""What a call raises that has no value."""

from typing import Any, Optional, Tuple, Union


class Fault(ValueError):
    """A call without a value: its fault's number, as in `cvl.faults`, name, and place, counted from 0, or None; of a `Ragged` the row
    and the place in it, as `(4, 1)`. `said` may say more: which lengths differ, which value is at fault, or which array `out` overlaps.

    >>> import cvl, numpy
    >>> a = numpy.array([7, 7], dtype=numpy.int32)
    >>> b = numpy.array([2, 0], dtype=numpy.int32)
    >>> try:
    ...     cvl.div_wuz(a, b)
    ... except cvl.Fault as fault:
    ...     print(fault.number, fault.name, fault.place, fault.number == cvl.faults.DIVIDE_BY_ZERO)
    8 DivideByZero 1 True
    >>> try:
    ...     cvl.bck_puz(a, b)
    ... except cvl.Fault as fault:
    ...     print(fault)
    fault 10 IndexOutOfRange at 0: index[0] is 2, and len(source) is 2
    >>> try:
    ...     cvl.add_wuz(a, b[:1])
    ... except cvl.Fault as fault:
    ...     print(fault)
    fault 7 LengthMismatch: len(b) is 1, and len(a) is 2
    """

    def __init__(
        self, number: int, name: str, place: Union[int, Tuple[int, ...], None] = None, said: Optional[str] = None
    ) -> None:
        super().__init__(number, name, place, said)
        self.number = number
        self.name = name
        self.place = place
        self.said = said

    def __reduce__(self) -> Any:
        return type(self), (self.number, self.name, self.place, self.said)

    def __str__(self) -> str:
        place = "" if self.place is None else f" at {self.place}"
        said = "" if self.said is None else f": {self.said}"
        return f"fault {self.number} {self.name}{place}{said}"

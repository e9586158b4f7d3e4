"""The calls over the ranks of MPI, on each rank's numpy arrays. It needs mpi4py, and the libraries libcvl_mpi and libcvl over the
same MPI, which `install PREFIX --mpi` builds into one folder; the loader has to find both. CVL_MPI_LIBRARY may name another file
than libcvl_mpi.so.1.

    from mpi4py import MPI
    from cvl import mpi

    ranks = mpi.Ranks(MPI.COMM_WORLD)
    before = ranks.add_suz(a)                    # the whole is scanned, of which each rank has its own part
    rows = ranks.segments(lengths, goes_on=False)
    sums = ranks.add_rez(a, rows)                # a sum stands in the rank in which its segment starts
    route = ranks.route(columns, len(x))
    y = route.sparse_product(rows, values, x)

All ranks make each call, with arguments as the plain call takes them, and segments as `ranks.segments` makes them. A call without
a value raises the same `cvl.Fault` on every rank, with the place in the whole vector. An argument that the plain call refuses
raises what that raises, a `TypeError` for instance, before the call and on the rank that has it; the other ranks wait.
"""

from __future__ import annotations

import ctypes
import os
import weakref
from typing import Any, Dict, List, Optional, Sequence, Tuple

import numpy
from mpi4py import MPI

from cvl._calls import MOST_ELEMENTS, about, narrowed, said, take
from cvl.calls import cnt_lub
from cvl.fault import Fault
from cvl.over_ranks import CALLS, NAMES
from cvl.segments import own_lengths

ELEMENTS = {
    "ints": numpy.dtype(numpy.int32),
    "index": numpy.dtype(numpy.int32),
    "flags": numpy.dtype(numpy.bool_),
    "bytes": numpy.dtype(numpy.uint8),
    "sums": numpy.dtype(numpy.int64),
}
NUMBERS = {
    "operator": ctypes.c_uint32,
    "int": ctypes.c_int32,
    "flag": ctypes.c_bool,
    "wide": ctypes.c_int64,
    "size": ctypes.c_size_t,
}

# what the maker of a route takes, as a row of a call
ROUTE = ("route", (("index", "index", None), ("source_len", "size", None)), "one", False)


class _Status(ctypes.Structure):
    _fields_ = [("number", ctypes.c_uint32), ("place", ctypes.c_int64)]


class _Lengths(ctypes.Structure):
    _fields_ = [("lengths", ctypes.c_void_p), ("segments", ctypes.c_size_t)]


_library: Optional[ctypes.CDLL] = None


def _found() -> ctypes.CDLL:
    """The library, whose functions answer a status."""
    global _library
    if _library is None:
        _library = ctypes.CDLL(os.environ.get("CVL_MPI_LIBRARY", "libcvl_mpi.so.1"))
        _library.cvl_rank_segments_starts.restype = ctypes.c_size_t
        _library.cvl_rank_segments_first.restype = ctypes.c_uint64
        _library.cvl_rank_segments_all.restype = ctypes.c_uint64
    return _library


def _call(name: str, *words: Any) -> None:
    """Calls a function, and raises what it answers."""
    function = getattr(_found(), f"cvl_{name}")
    function.restype = _Status
    status = function(*words)
    if status.number == 0:
        return
    fault = NAMES[status.number]
    if fault == "NoResources":
        raise MemoryError(f"cvl_{name}: no memory on one of the ranks")
    # what else has no descriptor is refused before
    why = "there is no communicator, or MPI has not begun or has ended" if fault == "NoDescriptor" else None
    raise Fault(status.number, fault, status.place if status.place >= 0 else None, why)


def _taken(call: str, **operands: Tuple[str, Any]) -> List[Any]:
    """Arguments, each with its kind, as a plain call takes them."""
    row = (call, tuple((name, kind, None) for name, (kind, _) in operands.items()), "one", False)
    return take(row, *(value for _, value in operands.values()))[:-2]


def _at(array: Any) -> ctypes.c_void_p:
    return ctypes.c_void_p(array.ctypes.data)


def _size(array: Any) -> ctypes.c_size_t:
    return ctypes.c_size_t(len(array))


def _kind_of(array: Any) -> str:
    """The kind of a vector of integers or of booleans."""
    return "flags" if getattr(array, "dtype", None) == numpy.bool_ else "ints"


class RankSegments:
    """Segments over ranks, which `ranks.segments` makes: the pieces in this rank's range, of which the first may go on from the
    ranks before. Their lengths are copied."""

    def __init__(self, ranks: Ranks, lengths: Any, goes_on: bool = False) -> None:
        (follows,) = _taken("segments", goes_on=("flag", goes_on))
        self.ranks, self.lengths, self._at = ranks, own_lengths(lengths), ctypes.c_void_p()
        pieces = _Lengths(_at(self.lengths), _size(self.lengths))
        _call("rank_segments_new", ranks._handle(), pieces, ctypes.c_bool(follows), ctypes.byref(self._at))
        weakref.finalize(self, _found().cvl_rank_segments_free, self._at)

    @property
    def total(self) -> int:
        """How many elements the rank has."""
        return int(self.lengths.sum(dtype=numpy.int64))

    @property
    def starts(self) -> int:
        """How many segments start in the rank."""
        return int(_found().cvl_rank_segments_starts(self._at))

    @property
    def first(self) -> int:
        """How many segments start in the ranks before it."""
        return int(_found().cvl_rank_segments_first(self._at))

    def __len__(self) -> int:
        """How many segments there are in all."""
        return int(_found().cvl_rank_segments_all(self._at))


class Route:
    """Which ranks have the elements that an index names, found once."""

    def __init__(self, ranks: Ranks, index: Any, source_len: int) -> None:
        taken = take(ROUTE, index, source_len)
        index, self.source_len = narrowed(taken[0]), taken[1]
        self.ranks, self.index_len, self._at = ranks, len(index), ctypes.c_void_p()
        length = ctypes.c_size_t(self.source_len)
        try:
            _call("route_new", ranks._handle(), _at(index), _size(index), length, ctypes.byref(self._at))
        except Fault as fault:
            raise ranks._with_details(fault, ROUTE, taken) from None
        weakref.finalize(self, _found().cvl_route_free, self._at)

    def _made(self, name: str, *words: Any) -> None:
        """Makes a call by the route, whose ranks still have to be there."""
        self.ranks._handle()
        _call(f"route_{name}", self._at, *words)

    def _moved(self, name: str, source: Any, length: int) -> Any:
        kind = _kind_of(source)
        (source,) = _taken(name, source=(kind, source))
        out = numpy.empty(length, ELEMENTS[kind])
        self._made(f"{name}_{'bool' if kind == 'flags' else 'int'}", _at(source), _size(source), _at(out), _size(out))
        return out

    def back(self, source: Any) -> Any:
        """At each place the element of the source at the place's index."""
        return self._moved("back", source, self.index_len)

    def permute(self, source: Any) -> Any:
        """Each element of the source at its index."""
        return self._moved("permute", source, self.source_len)

    def sparse_product(self, rows: RankSegments, values: Any, x: Any, checked: bool = False) -> Any:
        """The product of a sparse matrix with x, if the index is that of its columns; `checked` sums never wrap."""
        values, x, never_wraps = _taken("sparse_product", values=("ints", values), x=("ints", x), checked=("flag", checked))
        at = self.ranks._segments("rows", rows)
        out = numpy.empty(rows.starts, ELEMENTS["ints"])
        name = "checked_sparse_product" if never_wraps else "sparse_product"
        self._made(name, at, _at(values), _size(values), _at(x), _size(x), _at(out), _size(out))
        return out


class Ranks:
    """The ranks of a communicator, and each call over them, as `ranks.add_suz(a)`; help(Ranks) lists them."""

    def __init__(self, comm: Any = MPI.COMM_WORLD) -> None:
        kind = ctypes.c_int if MPI._sizeof(MPI.Comm) == ctypes.sizeof(ctypes.c_int) else ctypes.c_void_p
        self.comm, self._at = comm, ctypes.c_void_p()
        _call("ranks_new", kind.from_address(MPI._addressof(comm)), ctypes.byref(self._at))
        self._rank = comm.Get_rank()

    def free(self) -> None:
        """Lets go of the ranks; all of them make the call, before MPI ends. A second time does nothing.

        Later calls of the ranks, and by their routes and segments, raise a `ValueError`.
        """
        at, self._at = self._at, ctypes.c_void_p()
        _found().cvl_ranks_free(at)

    def _handle(self) -> ctypes.c_void_p:
        if not self._at:
            raise ValueError("the ranks were freed by free(), and make no more calls")
        return self._at

    def _segments(self, name: str, given: Any) -> ctypes.c_void_p:
        """The segments of an argument, if they are of these ranks."""
        if not isinstance(given, RankSegments):
            kind = type(given).__name__
            raise TypeError(f"{name} is no RankSegments but a {kind}; write ranks.segments({name}, goes_on)")
        if given.ranks is not self:
            raise ValueError(f"{name} has segments of other ranks")
        return given._at

    def _with_details(self, fault: Fault, row: Any, taken: List[Any]) -> Fault:
        """The fault with what the plain call says of it, on the rank whose arguments it is about. All ranks ask."""
        place, k = -1, about(row, fault.number)
        if fault.place is not None and k is not None and row[1][k][1] in ELEMENTS:
            place = fault.place - self._first(len(taken[k]))
            if not 0 <= place < len(taken[k]):
                return fault
        known = [(one.starts, one.total) if isinstance(one, RankSegments) else one for one in taken]
        told = said(row, known, fault.number, place)
        return fault if told is None else Fault(fault.number, fault.name, fault.place, f"{told}, on rank {self._rank}")

    def _first(self, count: int) -> int:
        """The place of this rank's first element, if it has so many."""
        first, total = ctypes.c_uint64(), ctypes.c_uint64()
        _call("share", self._handle(), ctypes.c_size_t(count), ctypes.byref(first), ctypes.byref(total))
        return first.value

    def segments(self, lengths: Any, goes_on: bool = False) -> RankSegments:
        """The segments of which this rank has pieces of these lengths: a `cvl.Segments`, a list or an array, which is copied.
        `goes_on` says whether the first piece goes on from the ranks before."""
        return RankSegments(self, lengths, goes_on)

    def route(self, index: Any, source_len: int) -> Route:
        """The route of an index into a vector of which this rank has so many elements."""
        return Route(self, index, source_len)

    def spread(self, array: Any, length: int) -> Any:
        """The same vector, of which this rank has so many elements."""
        kind = _kind_of(array)
        array, length = _taken("spread", array=(kind, array), length=("size", length))
        out = numpy.empty(length, ELEMENTS[kind])
        _call(f"spread_{'bools' if kind == 'flags' else 'ints'}", self._handle(), _at(array), _size(array), _at(out), _size(out))
        return out

    def even_share(self, total: int) -> Tuple[int, int]:
        """Where this rank's part of a vector begins that is spread evenly, and how many elements it has."""
        (total,) = _taken("even_share", total=("size", total))
        first, count = ctypes.c_uint64(), ctypes.c_size_t()
        _call("even_share", self._handle(), ctypes.c_uint64(total), ctypes.byref(first), ctypes.byref(count))
        return first.value, count.value


# ---- the calls of the table ----

Operand = Tuple[str, str, str, Optional[str]]


def _trues(flags: Any) -> int:
    """How many flags are true; 0 of more than a vector may have, which is a fault of the call."""
    return cnt_lub(flags) if len(flags) <= MOST_ELEMENTS else 0


def _length(operands: Sequence[Operand], given: Dict[str, Any], extent: Optional[str]) -> Optional[int]:
    """How many elements a result has on this rank, if an argument says it."""
    for name, _, kind, other in operands:
        value = given.get(name)
        if kind == "segments" and extent in ("segments", other):
            return value.starts if extent == "segments" else value.total
        if kind in ELEMENTS and value is not None and extent == other:
            return len(value)
        if kind == "wide" and extent == "count":
            # what is no count is a fault of the call
            return value if 0 <= value <= MOST_ELEMENTS else 0
    if extent == "both":
        return sum(len(given[name]) for name, _, kind, _ in operands if kind in ELEMENTS and name in given)
    if extent in ("trues", "room"):
        return _trues(given["flags"])
    if extent == "segments":
        return max(0, len(given["offsets"]) - 1)
    return None


def _indices(takes: Any, taken: List[Any], room: Any) -> List[Any]:
    """The arguments with each index in 32 bits. One that shares memory with the room stays there, which is a fault of the call."""

    def in_32_bits(kind: str, value: Any) -> Any:
        if kind == "index" and value.dtype.itemsize > 4 and room is not None and numpy.may_share_memory(value, room):
            return value.view(ELEMENTS["index"])
        return narrowed(value) if kind == "index" else value

    return [in_32_bits(kind, value) for (_, kind, _), value in zip(takes, taken)]


def _words(operands: Sequence[Operand], values: Dict[str, Any]) -> List[Any]:
    """The arguments in C, in their order."""
    words: List[Any] = []
    for name, role, kind, _ in operands:
        value = values[name]
        if role == "lengths":
            words.append(_Lengths(_at(value), _size(value)))
        elif role == "one":
            words.append(ctypes.byref(value))
        elif kind in ELEMENTS:
            words += [_at(value), _size(value)]
        else:
            words.append(value if kind == "segments" else NUMBERS[kind](value))
    return words


def _method(name: str, family: str, operator: Optional[int], gives: str, spreads: bool, operands: Sequence[Operand]) -> Any:
    """The method of a call: it takes what the plain call does, and gives this rank's part of the result."""
    takes = tuple((found, kind, extent) for found, role, kind, extent in operands if role in ("takes", "lengths"))
    row = (name, takes, gives, spreads)
    leading = [] if operator is None else [ctypes.c_uint32(operator)]
    written, role, written_kind, extent = next(operand for operand in operands if operand[1] in ("over", "room", "one"))

    def needed(given: Dict[str, Any], length: Optional[int]) -> int:
        """How many elements a new array for the result has on this rank."""
        found = _length(operands, given, extent) if length is None else _taken(name, length=("size", length))[0]
        if found is None:
            raise TypeError(f"{name}() has a result with a length of its own; say length=")
        return found

    def method(self: Ranks, *values: Any, length: Optional[int] = None, **named: Any) -> Any:
        taken = take(row, *values, **named)
        array, out = taken[-2:]
        if length is not None and (role != "room" or out is not None):
            raise TypeError(f"{name}() takes length= for a new array alone")
        given = {operand[0]: value for operand, value in zip(takes, _indices(takes, taken, array))}
        handles = {found: self._segments(found, given[found]) for found, kind, _ in takes if kind == "segments"}
        results = {operand[0]: NUMBERS[operand[2]]() for operand in operands if operand[1] == "one"}
        if role != "one":
            results[written] = numpy.empty(needed(given, length), ELEMENTS[written_kind]) if array is None else array
        try:
            _call(f"{family}_mpi", self._handle(), *leading, *_words(operands, {**given, **handles, **results}))
        except Fault as fault:
            raise self._with_details(fault, row, taken) from None
        if role == "one":
            return results[written].value
        whole, count = results[written], results["count"].value if gives.startswith("front_") else len(results[written])
        return whole[:count] if count < len(whole) else whole if out is None else out

    method.__name__ = method.__qualname__ = name
    named = ", ".join([*(operand for operand, _, _ in takes), *(["out"] if role == "over" else [])])
    method.__doc__ = f"cvl.{name} over ranks, of {named}; help(cvl.{name}) says what it does."
    return method


for _name, _row in CALLS.items():
    setattr(Ranks, _name, _method(_name, *_row))

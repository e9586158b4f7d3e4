"""Methods of `cvl.Ragged` that are more than one call, on rows of numbers. Beside them stand rows, one number a row, or a number."""

from __future__ import annotations

import operator
from typing import Any, Optional, Tuple

import numpy

from cvl import calls, faults, operators
from cvl._elementwise import flags, ints, is_bool, refuse_frozen

from cvl.calls import (
    add_rez, add_sez, add_wuz, and_reb, and_wub, append_segments_bool, append_segments_int, bck_peb, bck_pez, bck_pub, bck_puz,
    boo_wuz, dis_veb, dis_vez, dis_vub, dis_vuz, eql_wuz, ext_veb, ext_vez, gather_segments_bool, gather_segments_int, ind_lez,
    int_wub, ior_reb, ior_seb, ior_wub, les_wuz, max_rez, max_ruz, max_sez, max_wuz, min_rez, min_ruz, min_sez, min_wuz, pck_fov,
    pck_leb, pck_lez, seg_combine_permute_bool, seg_combine_permute_int, seg_counts, seg_exact_sums, seg_first_true,
    seg_run_counts_int, seg_run_starts_int, seg_sort, sel_wuz, sub_wuz, xor_wub,
)  # fmt: skip
from cvl.fault import Fault
from cvl.segments import cut

MOST = 2**31 - 1
# what joins booleans as numpy's ufunc does
OF_FLAGS = {"ADD": "IOR", "MUL": "AND", "MIN": "AND", "MAX": "IOR"}


def _of_kind(values: Any, of_ints: Any, of_flags: Any) -> Any:
    return of_flags if is_bool(values) else of_ints


def same_kind(a: Any, b: Any) -> Tuple[Any, Any]:
    """Both as booleans if they are, else as integers."""
    return (a, b) if is_bool(a) == is_bool(b) else (ints(a), ints(b))


# ---- of each row ----


def _refuse_empty(rows: Any, name: str) -> None:
    """Raises that a row has no element."""
    lengths = rows._segments.lengths
    if min_ruz(lengths) == 0:
        more = f"; write {name}(initial=..), or" if name in ("min", "max") else "; write"
        raise ValueError(f"row {int(lengths.argmin())} is empty and has no {name}{more} r[r.lengths > 0].{name}()")


def sum(rows: Any, exact: bool = False) -> Any:
    return (seg_exact_sums if exact else add_rez)(ints(rows._values), rows._segments)


def _extreme(rows: Any, initial: Any, name: str, of_ints: Any, of_flags: Any, join: Any) -> Any:
    if initial is None:
        _refuse_empty(rows, name)
    values, segments = rows._values, rows._segments
    if is_bool(values) and (initial is None or is_bool(initial)):
        found = of_flags(values, segments)
        return found if initial is None else (and_wub if name == "min" else ior_wub)(found, initial)
    found = of_ints(ints(values), segments)
    return found if initial is None else join(found, ints(initial))


def min(rows: Any, initial: Optional[int] = None) -> Any:
    return _extreme(rows, initial, "min", min_rez, and_reb, min_wuz)


def max(rows: Any, initial: Optional[int] = None) -> Any:
    return _extreme(rows, initial, "max", max_rez, ior_reb, max_wuz)


def _place_of(rows: Any, name: str, reduce: Any) -> Any:
    _refuse_empty(rows, name)
    values, segments = ints(rows._values), rows._segments
    return seg_first_true(eql_wuz(values, dis_vez(reduce(values, segments), segments)), segments)


def argmin(rows: Any) -> Any:
    return _place_of(rows, "argmin", min_rez)


def argmax(rows: Any) -> Any:
    return _place_of(rows, "argmax", max_rez)


# ---- along each row ----


def _inclusive(rows: Any, values: Any, scan: Any, join: Any) -> Any:
    """A scan with the element of each place itself, in the room of the scan."""
    found = scan(values, rows._segments)
    return rows._with(join(found, values, out=found))


def cumsum(rows: Any) -> Any:
    return _inclusive(rows, ints(rows._values), add_sez, add_wuz)


def cummax(rows: Any) -> Any:
    values = rows._values
    return _inclusive(rows, values, *((ior_seb, ior_wub) if is_bool(values) else (max_sez, max_wuz)))


def cummin(rows: Any) -> Any:
    values = rows._values
    return _inclusive(rows, values, *((calls.and_seb, and_wub) if is_bool(values) else (min_sez, min_wuz)))


def _ends(rows: Any) -> Tuple[Any, Any]:
    """Where rows start and end."""
    offsets = rows._segments.offsets
    return offsets[:-1], offsets[1:]


def diff(rows: Any) -> Any:
    (starts, ends), values = _ends(rows), rows._values
    fewer = cut(max_wuz(sub_wuz(rows._segments.lengths, 1), 0))
    # an empty row may start anywhere, but not behind the end
    second = min_wuz(add_wuz(starts, 1), ends)
    gather = _of_kind(values, gather_segments_int, gather_segments_bool)
    found, before = gather(values, second, fewer), gather(values, starts, fewer)
    return rows._with(_of_kind(values, sub_wuz, xor_wub)(found, before, out=found), fewer)


def reverse(rows: Any) -> Any:
    values, last = rows._values, sub_wuz(_ends(rows)[1], 1)
    places = ind_lez(last, dis_vuz(-1, len(last)), rows._segments)
    return rows._with(_of_kind(values, bck_puz, bck_pub)(values, places))


def sort(rows: Any) -> Any:
    values = rows._values
    if is_bool(values):
        return rows._with(boo_wuz(seg_sort(int_wub(values), rows._segments)))
    return rows._with(seg_sort(values, rows._segments))


def unique(rows: Any) -> Any:
    segments, keys = rows._segments, seg_sort(ints(rows._values), rows._segments)
    found = bck_puz(keys, seg_run_starts_int(keys, segments))
    return rows._with(boo_wuz(found) if is_bool(rows._values) else found, seg_run_counts_int(keys, segments))


def shift(rows: Any, by: Any, fill: Any = 0) -> Any:
    values, (starts, _), lengths, by = rows._values, _ends(rows), rows._segments.lengths, operator.index(by)
    moved = min_wuz(lengths, abs(by) if abs(by) < MOST else MOST)
    kept, filled = cut(sub_wuz(lengths, moved)), cut(moved)
    gather, append = _of_kind(values, (gather_segments_int, append_segments_int), (gather_segments_bool, append_segments_bool))
    left = gather(values, add_wuz(starts, moved) if by < 0 else starts, kept)
    if isinstance(fill, float):
        raise TypeError(f"fill is no whole number but a float; write int({fill})")
    new = dis_vub(flags(fill), filled.total) if is_bool(values) else dis_vuz(ints(fill), filled.total)
    return rows._with(append(left, new, kept, filled) if by < 0 else append(new, left, filled, kept))


# ---- between rows ----


def from_end(index: Any, lengths: Any) -> Any:
    """Places, where those below 0 count from the end of so many."""
    if min_ruz(index) >= 0:
        return index
    return add_wuz(index, sel_wuz(les_wuz(index, 0), lengths, 0))


def _out_of_row(rows: Any, index: Any, whole: Any) -> Any:
    """What a fault of an index says, of whose own rows `whole` are."""

    def said(path: Tuple[int, ...], flat: int) -> str:
        row = whole._row_of(flat)[0] if whole is not None else flat
        places = path if whole is not None else path[:-1]
        has = f"row {rows._named(path[:-1])} has {rows._segments.lengths[row]} elements"
        return f"{has}, and index{_brackets(places)} is {index[flat]}"

    return said


def _brackets(path: Tuple[int, ...]) -> str:
    return "".join(f"[{place}]" for place in path)


def take(rows: Any, index: Any) -> Any:
    values, segments, index = rows._values, rows._segments, rows._as_index(index)
    if type(index) is not type(rows):
        if not isinstance(index, numpy.ndarray):
            index = dis_vuz(index, len(rows))
        try:
            return _of_kind(values, ext_vez, ext_veb)(values, from_end(index, segments.lengths), segments)
        except Fault as fault:
            raise rows._told(fault, _out_of_row(rows, index, None), lambda flat: (flat, 0)) from None
    given, cuts = index._values, rows._as_many(index)._segments
    try:
        places = from_end(given, dis_vez(segments.lengths, cuts)) if min_ruz(given) < 0 else given
        return rows._with(_of_kind(values, bck_pez, bck_peb)(values, places, segments, cuts), cuts)
    except Fault as fault:
        raise rows._told(fault, _out_of_row(rows, given, index), index._row_of) from None


def filter(rows: Any, mask: Any) -> Any:
    values, segments, chosen = rows._values, rows._segments, rows._beside(mask)
    if not (isinstance(chosen, numpy.ndarray) and is_bool(chosen)):
        raise TypeError("mask has to be of booleans; write mask != 0")
    return rows._with(_of_kind(values, pck_lez, pck_leb)(values, chosen, segments), pck_fov(chosen, segments))


def append(rows: Any, s: Any) -> Any:
    other = rows._as_many(rows._as_rows(s))
    a, b = same_kind(rows._values, other._values)
    found = _of_kind(a, append_segments_int, append_segments_bool)(a, b, rows._segments, other._segments)
    return rows._with(found, cut(add_wuz(rows._segments.lengths, other._segments.lengths)))


def repeat(rows: Any, counts: Any) -> Any:
    values, each = rows._values, rows._beside(counts)
    if not isinstance(each, numpy.ndarray):
        each = dis_vuz(each, len(values))
    try:
        copies = cut(ints(each))
    except Fault as fault:
        raise rows._told(fault, lambda path, flat: f"the count of {rows._placed(path)} is {each[flat]}") from None
    return rows._with(_of_kind(values, dis_vez, dis_veb)(values, copies), cut(add_rez(ints(each), rows._segments)))


def refuse_below_0(minlength: int) -> None:
    if minlength < 0:
        raise ValueError(f"minlength is {minlength}, and has to be 0 or more")


def bincount(rows: Any, minlength: int = 0) -> Any:
    refuse_below_0(minlength)
    values, segments = ints(rows._values), rows._segments
    greatest = max_rez(values, segments)
    if max_ruz(greatest) == MOST:
        raise Fault(faults.TOO_LONG, "TooLong", None, f"the greatest element is {MOST}")
    many = cut(max_wuz(max_wuz(add_wuz(greatest, 1), 0), minlength))
    try:
        return rows._with(seg_counts(values, segments, many), many)
    except Fault as fault:
        raise rows._told(fault, lambda path, flat: f"{rows._placed(path)} is {values[flat]}") from None


def at(rows: Any, index: Any, values: Any, name: str) -> Any:
    """Joins the numbers of rows, where they are, with what is sent to them."""
    index = rows._as_many(rows._as_rows(rows._as_index(index)))
    room, given, cuts, sent = rows._values, index._values, index._segments, index._beside(values)
    has_flags, sends_flags = is_bool(room), is_bool(sent)
    refuse_frozen(room)
    if type(sent) is not numpy.ndarray:
        sent = (dis_vub if sends_flags else dis_vuz)(sent, len(given))
    if has_flags and not sends_flags:
        raise TypeError("the values are integers, and r has booleans; write values != 0")
    if sends_flags and not has_flags:
        sent = int_wub(sent)
    places = from_end(given, dis_vez(rows._segments.lengths, cuts)) if min_ruz(given) < 0 else given
    call = seg_combine_permute_bool if has_flags else seg_combine_permute_int
    op = getattr(operators, OF_FLAGS.get(name, name) if has_flags else name)
    try:
        call(op, sent, places, cuts, rows._segments, room)
    except Fault as fault:
        if fault.number == faults.OVERLAP:
            return at(rows, rows._new(given.copy(), cuts), rows._new(sent.copy(), cuts), name)
        raise rows._told(fault, _out_of_row(rows, given, index), index._row_of) from None
    return rows

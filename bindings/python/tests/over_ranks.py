"""Calls over ranks beside the plain readings of what they should give, and what `cvl.mpi` says to arguments beside what `cvl`
says: `mpirun -np 3 python3 over_ranks.py`."""

import array
import gc
import itertools
import sys
import traceback

import numpy
from mpi4py import MPI

import cvl
from cvl import mpi, operators

WHOLE = numpy.array([3, 1, -4, 1, 5, 9, -2, 6, 5, 3, 5], dtype=numpy.int32)
# segments of 3, 0, 5 and 3 elements, of which ranks have pieces by how the whole is cut
LENGTHS = [3, 0, 5, 3]
STARTS = list(itertools.accumulate([0, *LENGTHS]))
BEYOND = 1_100_000_000


def ints(*numbers):
    return numpy.array(numbers, dtype=numpy.int32)


def raised(function, *words, **named):
    try:
        function(*words, **named)
    except cvl.Fault as fault:
        return fault.number, fault.place
    return None


def refused(function, *words, **named):
    """What a call raises before it is made."""
    try:
        function(*words, **named)
    except Exception as error:
        return type(error), str(error)
    return None


def pieces_of(first, last):
    """The pieces of segments between two places, and whether the first goes on."""
    found, goes_on, start = [], False, 0
    for length in LENGTHS:
        end = start + length
        if start >= first and (start < last or start == last == len(WHOLE)) or (start < last and end > first):
            goes_on = goes_on or (not found and start < first)
            found.append(min(end, last) - max(start, first))
        start = end
    return numpy.array(found, dtype=numpy.int32), goes_on


def same(got, wanted):
    assert numpy.array_equal(got, wanted), (got, wanted)


class World:
    """The ranks, this rank's part of the whole and its pieces of the segments."""

    def __init__(self, comm):
        self.comm, self.rank, self.ranks = comm, comm.rank, mpi.Ranks(comm)
        self.first, self.count = self.ranks.even_share(len(WHOLE))
        self.own = WHOLE[self.first : self.first + self.count].copy()
        self.lengths, self.goes_on = pieces_of(self.first, self.first + self.count)
        self.rows = self.ranks.segments(self.lengths, self.goes_on)
        self.index = numpy.arange(len(WHOLE) - 1, -1, -1, dtype=numpy.int32)[self.first : self.first + self.count].copy()

    def whole(self, part):
        return numpy.concatenate(self.comm.allgather(part))

    def on_first(self, length):
        """All of a vector on rank 0."""
        return length if self.rank == 0 else 0


# ---- values ----


def flat_calls(w):
    ranks, own = w.ranks, w.own
    same(w.whole(ranks.add_suz(own)), numpy.concatenate([[0], numpy.cumsum(WHOLE)[:-1]]))
    assert ranks.max_ruz(own) == 9 and ranks.tot_ruz(own) == int(WHOLE.sum())
    same(w.whole(ranks.pck_luz(own, own > 2)), WHOLE[WHOLE > 2])
    assert ranks.cnt_lub(own > 2) == 7
    same(w.whole(ranks.smp_puz(own, w.index)), WHOLE[::-1])
    same(w.whole(ranks.bck_puz(own, w.index)), WHOLE[::-1])
    same(w.whole(ranks.spread(own, w.on_first(len(WHOLE)))), WHOLE)
    senders = ranks.first_senders(numpy.zeros(w.count, dtype=numpy.int32), length=w.on_first(2))
    assert w.rank or senders.tolist() == [0, -1]
    assert ranks.first_true(own == 9) == 5 and ranks.first_true(own == 7) == -1
    sides = ranks.pck_luz(own, own > 2), ranks.pck_luz(own, own <= 2)
    same(w.whole(ranks.merge_by_flags_int(own > 2, *sides)), WHOLE)
    same(w.whole(ranks.transpose_int(own, 11, 1)), WHOLE)
    assert ranks.mke_fov(ints(w.rank)) == sum(range(w.comm.size))


def sorts(w):
    order = numpy.argsort(WHOLE, kind="stable")
    same(w.whole(w.ranks.sort(w.own)), numpy.sort(WHOLE))
    same(w.whole(w.ranks.order(w.own)), order)
    same(w.whole(w.ranks.rank(w.own)), numpy.argsort(order))
    same(w.whole(w.ranks.order(w.own, length=w.on_first(len(WHOLE)))), order)


def segmented_calls(w):
    ranks, own, rows = w.ranks, w.own, w.rows
    runs = [WHOLE[a:b] for a, b in zip(STARTS, STARTS[1:])]
    same(w.whole(ranks.add_rez(own, rows)), [run.sum() for run in runs])
    same(w.whole(ranks.cnt_leb(own > 2, rows)), [(run > 2).sum() for run in runs])
    same(w.whole(ranks.seg_sort(own, rows)), numpy.concatenate([numpy.sort(run) for run in runs]))
    slices = ranks.gather_segments_int(own, numpy.zeros(rows.starts, dtype=numpy.int32), rows)
    same(w.whole(slices), [3, 1, -4, 3, 1, -4, 1, 5, 3, 1, -4])
    twice = numpy.concatenate([numpy.tile(run, 2) for run in runs])
    same(w.whole(ranks.append_segments_int(own, own, rows, rows, length=w.on_first(len(twice)))), twice)
    same(w.whole(ranks.append_segments_int(own, own, rows, rows)), twice)
    same(w.whole(ranks.seg_first_true(own == 5, rows)), [-1, -1, 1, 0])
    same(w.whole(ranks.seg_exact_sums(own, rows)), [run.sum() for run in runs])
    assert (len(rows), rows.total) == (len(LENGTHS), w.count) and w.comm.allreduce(rows.starts) == len(LENGTHS)


def sums_by_key(w):
    keys = (w.own % 2).astype(numpy.int32)
    wanted = [100 + int(WHOLE[WHOLE % 2 == k].sum()) for k in (0, 1)]
    sums = numpy.full(w.on_first(2), 100, dtype=numpy.int32)
    assert w.ranks.combine_permute_int(operators.ADD, w.own, keys, sums) is sums
    assert w.rank or sums.tolist() == wanted
    assert raised(w.ranks.combine_permute_int, operators.ADD, w.own, keys + 1, sums) == (10, 0)
    # what has 32 bits too many is no operator, and never the one of its lowest bits
    for operator in (2**32, -1, 2**70):
        assert raised(w.ranks.combine_permute_int, operator, w.own, keys, sums) == (2, None), operator
    assert w.rank or sums.tolist() == wanted
    large = w.own * numpy.int32(10**8)
    exact = numpy.full(w.on_first(2), 100, dtype=numpy.int64)
    assert w.ranks.combine_exact_sums(large, keys, exact) is exact
    assert w.rank or exact.tolist() == [100 + 10**8 * (total - 100) for total in wanted]
    assert w.ranks.combine_checked_int(w.own, keys, sums) is sums
    assert w.rank or sums.tolist() == [2 * total - 100 for total in wanted]
    assert raised(w.ranks.combine_checked_int, large, keys, sums) == (
        18,
        next(k for k in (0, 1) if 10**8 * (wanted[k] - 100) >= 2**31 - 1000),
    )
    counts = w.ranks.counts(keys, length=w.on_first(2))
    assert w.rank or counts.tolist() == [int((WHOLE % 2 == k).sum()) for k in (0, 1)]


def routes(w):
    route = w.ranks.route(w.index, w.count)
    for _ in range(3):
        same(w.whole(route.back(w.own)), WHOLE[::-1])
        same(w.whole(route.permute(w.own)), WHOLE[::-1])
    same(w.whole(route.back(w.own > 2)), WHOLE[::-1] > 2)
    products = WHOLE * WHOLE[::-1]
    wanted = [products[a:b].sum() for a, b in zip(STARTS, STARTS[1:])]
    same(w.whole(route.sparse_product(w.rows, w.own, w.own)), wanted)
    same(w.whole(route.sparse_product(w.rows, w.own, w.own, checked=True)), wanted)


# ---- how arguments are given ----


def numbers_and_names(w):
    ranks, own, flags = w.ranks, w.own, w.own > 2
    same(w.whole(ranks.add_wuz(own, 3)), WHOLE + 3)
    same(w.whole(ranks.sub_wuz(b=own, a=10)), 10 - WHOLE)
    same(w.whole(ranks.sel_wuz(flags, own, 0)), numpy.where(WHOLE > 2, WHOLE, 0))
    same(w.whole(ranks.and_wub(flags, True)), WHOLE > 2)
    same(w.whole(ranks.add_rez(segments=w.rows, a=own)), [WHOLE[a:b].sum() for a, b in zip(STARTS, STARTS[1:])])
    same(w.whole(ranks.add_suz(array.array("i", own.tolist()))), numpy.concatenate([[0], numpy.cumsum(WHOLE)[:-1]]))
    same(w.whole(ranks.dis_vuz(2**31 - 1, 2)), [2**31 - 1] * 2 * w.comm.size)
    assert ranks.ext_vuz(own, numpy.int64(5)) == 9 and ranks.ext_vub(flags, index=5) is True


def rooms(w):
    out, room = numpy.zeros(w.count, dtype=numpy.int32), numpy.zeros(w.count, dtype=numpy.int32)
    assert w.ranks.add_wuz(w.own, 1, out=out) is out
    same(w.whole(out), WHOLE + 1)
    assert w.ranks.add_wuz(out, 1, out=out) is out and w.ranks.add_wuz(w.own, 1, out=None) is not out
    same(w.whole(out), WHOLE + 2)
    kept = w.ranks.pck_luz(w.own, w.own > 2, out=room)
    assert numpy.shares_memory(kept, room) or len(kept) == 0
    same(w.whole(kept), WHOLE[WHOLE > 2])
    # a byte other than 0 and 1 counts as one true flag
    odd = numpy.full(w.count, 2, numpy.uint8).view(bool)
    same(w.whole(w.ranks.pck_luz(w.own, odd)), WHOLE)


def as_plain_calls_refuse(w):
    """What the plain call refuses is refused in the same words."""
    a, flags = ints(1, 2), numpy.array([True, False])
    masked, frozen = numpy.ma.array(a, mask=[False, True]), ints(1, 2)
    frozen.flags.writeable = False
    stepped, square, bytes_off = numpy.zeros(4, numpy.int32)[::2], numpy.zeros((2, 2), numpy.int32), numpy.zeros(9, numpy.uint8)
    for name, words, named in (
        # numbers and booleans
        ("dis_vuz", (2**31, 2), {}), ("dis_vuz", (-(2**31) - 1, 2), {}), ("dis_vuz", ("no", 2), {}), ("dis_vuz", (1, 0.5), {}),
        ("rep_vuz", (a, 0, 2**32 + 5), {}), ("rep_vub", (flags, 0, "no"), {}), ("rep_vub", (flags, 0, 1), {}),
        ("ext_vuz", (a, 0.0), {}), ("ind_luz", (0, 2**31, 1), {}), ("transpose_int", (a, -1, 2), {}),
        ("transpose_int", (a, 2**64, 2), {}), ("combine_permute_int", ("ADD", a, a, a), {}),
        # numbers that stand for arrays
        ("add_wuz", (a, 2**31), {}), ("add_wuz", (a, 0.5), {}), ("and_wub", (flags, 1), {}), ("add_wuz", (1, 2), {}),
        ("bck_puz", (a, 1), {}),
        # arrays
        ("add_suz", (masked,), {}), ("cnt_lub", (numpy.ma.array(flags, mask=flags),), {}), ("add_suz", ([1, 2],), {}),
        ("add_suz", (a.astype(numpy.int64),), {}), ("cnt_lub", (flags.view(numpy.uint8),), {}), ("add_suz", (square,), {}),
        ("add_suz", (stepped,), {}), ("add_suz", (bytes_off[1:].view(numpy.int32),), {}), ("mke_fov", ([1],), {}),
        ("mke_fov", (cvl.Segments([1]),), {}),
        # by place and by name
        ("add_wuz", (a,), {}), ("add_wuz", (a, a, a), {}), ("add_wuz", (a,), {"a": a}), ("add_wuz", (a, a), {"c": a}),
        ("add_ruz", (a,), {"out": a}), ("combine_permute_int", (0, a, a), {}),
        # rooms
        ("add_suz", (a,), {"out": frozen}), ("add_suz", (a,), {"out": [1]}), ("add_suz", (a,), {"out": masked}),
        ("add_suz", (a,), {"out": stepped}), ("combine_permute_int", (0, a, a, frozen), {}),
        ("combine_permute_int", (0, a, a, stepped), {}), ("combine_permute_int", (0, a, a, None), {}),
    ):  # fmt: skip
        said, plain = refused(getattr(w.ranks, name), *words, **named), refused(getattr(cvl, name), *words, **named)
        assert said == plain and plain is not None and plain[0] is not cvl.Fault, (name, words, said, plain)


def lengths_are_numbers(w):
    for said, function, words, named in (
        ((OverflowError, "length is -1, which does not fit a number of elements"), w.ranks.counts, (w.own,), {"length": -1}),
        ((OverflowError, "length is -1, which does not fit a number of elements"), w.ranks.spread, (w.own, -1), {}),
        ((OverflowError, f"source_len is {2**64}, which does not fit a number of elements"), w.ranks.route, (w.index, 2**64), {}),
        ((OverflowError, "total is -1, which does not fit a number of elements"), w.ranks.even_share, (-1,), {}),
        ((TypeError, "counts() has a result with a length of its own; say length="), w.ranks.counts, (w.own,), {}),
        ((TypeError, "add_ruz() takes length= for a new array alone"), w.ranks.add_ruz, (w.own,), {"length": 1}),
        ((TypeError, "add_suz() takes length= for a new array alone"), w.ranks.add_suz, (w.own,), {"length": 1, "out": w.own}),
        ((TypeError, "source has a mask, which no call looks at; write source.filled(0) or source.compressed()"),
            w.ranks.route(w.index, w.count).back, (numpy.ma.array(w.own),), {}),
    ):  # fmt: skip
        found = refused(function, *words, **named)
        assert found == said, (found, said)


def segments_are_of_these_ranks(w):
    other = mpi.Ranks(w.comm)
    rows = other.segments(w.lengths, w.goes_on)
    for name, given in (("ndarray", w.lengths), ("list", w.lengths.tolist()), ("Segments", cvl.Segments(w.lengths))):
        wanted = f"segments is no RankSegments but a {name}; write ranks.segments(segments, goes_on)"
        assert refused(w.ranks.add_rez, w.own, given) == (TypeError, wanted)
    assert refused(w.ranks.add_rez, w.own, rows) == (ValueError, "segments has segments of other ranks")
    route = w.ranks.route(w.index, w.count)
    assert refused(route.sparse_product, rows, w.own, w.own) == (ValueError, "rows has segments of other ranks")
    wanted = "rows is no RankSegments but a ndarray; write ranks.segments(rows, goes_on)"
    assert refused(route.sparse_product, w.lengths, w.own, w.own) == (TypeError, wanted)
    other.free()


def lengths_of_segments(w):
    """Lengths are those of `cvl.Segments`, copied, and what is refused makes no noise later."""
    unraisable, sys.unraisablehook = [], lambda said: unraisable.append(said)
    lengths = w.lengths.copy()
    wanted = [WHOLE[a:b].sum() for a, b in zip(STARTS, STARTS[1:])]
    for given in (lengths, lengths.tolist(), lengths.astype(numpy.int64), cvl.Segments(lengths), memoryview(lengths)):
        rows = w.ranks.segments(given, w.goes_on)
        lengths[:] = 3_000_000
        same(w.whole(w.ranks.add_rez(w.own, rows)), wanted)
        lengths[:] = w.lengths
    for given in ([2.5], [2**31], ["x"], [[1]], 3, numpy.ma.array(lengths)):
        assert refused(w.ranks.segments, given) == refused(cvl.Segments, given) is not None, given
    assert refused(w.ranks.segments, lengths, "no") == (TypeError, "goes_on is no boolean but a str; write bool(goes_on)")
    assert raised(w.ranks.segments, [-1] if w.rank == 0 else []) == (12, 0)
    assert refused(mpi.RankSegments)[0] is refused(mpi.Route)[0] is TypeError
    gc.collect()
    sys.unraisablehook = sys.__unraisablehook__
    assert not unraisable, unraisable


# ---- faults ----


def faults(w):
    ranks, own, bad = w.ranks, w.own, w.index.copy()
    last = w.rank == w.comm.size - 1
    if last:
        bad[-1] = len(WHOLE)
    assert raised(ranks.smp_puz, own, bad) == (10, len(WHOLE) - 1)
    assert raised(ranks.div_wuz, own, own - 1) == (8, 1)
    assert raised(ranks.add_wuz, own, own[:-1] if w.rank == 0 else own) == (7, None)
    assert raised(ranks.transpose_int, own, 5, 2) == (7, None)
    # a count below 0 on one rank alone; and numbers that 64 bits do not hold
    assert raised(ranks.dis_vuz, 1, -1 if w.rank == 0 else 2) == (12, None)
    assert raised(ranks.dis_vuz, 1, 2**64 + 2) == (13, None)
    for index in (2**64 + 1, -(2**64) + 1, 2**32 + 1, len(WHOLE), -1):
        assert raised(ranks.ext_vuz, own, index) == raised(ranks.rep_vuz, own, index, 3) == (10, 0), index
    nothing = "fault 101 NoDescriptor: there is no communicator, or MPI has not begun or has ended"
    assert refused(mpi.Ranks, MPI.COMM_NULL) == (cvl.Fault, nothing)


def details_of_faults(w):
    """The rank whose arguments are at fault says what the plain call would, and the others the fault alone."""
    ranks, own, rows, bad = w.ranks, w.own, w.rows, w.index.copy()
    last = w.comm.size - 1
    bad[-1] = 99 if w.rank == last else bad[-1]
    shorter = own[:-1] if w.rank == 0 else own
    more = numpy.append(own, ints(0)) if w.rank == 0 else own
    fewer = w.index[: 0 if w.rank == 0 else rows.starts]
    for rank, fault, said, call in (
        (0, "7 LengthMismatch", f"len(b) is {w.count - 1}, and len(a) is {w.count}", lambda: ranks.add_wuz(own, shorter)),
        (0, "7 LengthMismatch", f"segments add up to {w.count}, and len(a) is {w.count + 1}", lambda: ranks.add_rez(more, rows)),
        (0, "7 LengthMismatch", f"len(segments) is {rows.starts}, and len(index) is 0", lambda: ranks.ext_vez(own, fewer, rows)),
        (0, "8 DivideByZero at 1", "b[1] is 0", lambda: ranks.div_wuz(own, own - 1)),
        (last, "10 IndexOutOfRange at 10", f"index[{w.count - 1}] is 99", lambda: ranks.smp_puz(own, bad)),
        (last, "10 IndexOutOfRange at 10", f"index[{w.count - 1}] is 99", lambda: ranks.route(bad, w.count)),
        (w.rank, "10 IndexOutOfRange at 0", "index is 99", lambda: ranks.ext_vuz(own, 99)),
        (w.rank, "102 Overlap", "out and index share memory", lambda: ranks.smp_puz(own, w.index, out=w.index)),
    ):
        wanted = f"fault {fault}: {said}, on rank {rank}" if rank == w.rank else f"fault {fault}"
        found = refused(call)
        assert found == (cvl.Fault, wanted), (found, wanted)


def indices_of_64_bits(w):
    """An index of int64 gives what one of int32 gives, and a fault its number as it is."""
    ranks, own, index, last = w.ranks, w.own, w.index, w.comm.size - 1
    wide = index.astype(numpy.int64)
    for call in (
        lambda index: ranks.bck_puz(own, index), lambda index: ranks.smp_puz(own, index), lambda index: ranks.route(index, w.count).back(own),
        lambda index: ranks.combine_permute_int(cvl.operators.ADD, own, index, own.copy()), lambda index: ranks.counts(index, length=w.count),
    ):  # fmt: skip
        assert call(wide).tolist() == call(index).tolist()
    bad = wide.copy()
    bad[-1] = 2**32 if w.rank == last else bad[-1]
    for call in (lambda: ranks.smp_puz(own, bad), lambda: ranks.route(bad, w.count)):
        wanted = "fault 10 IndexOutOfRange at 10" + (
            f": index[{w.count - 1}] is 4294967296, on rank {last}" if w.rank == last else ""
        )
        found = refused(call)
        assert found == (cvl.Fault, wanted), (found, wanted)
    whole = numpy.zeros(2 * w.count, numpy.int64)
    whole[: w.count] = wide
    for places in (0, w.count):
        room = whole.view(numpy.int32)[places : places + w.count]
        found = refused(ranks.smp_puz, own, whole[: w.count], out=room)
        assert found == (cvl.Fault, f"fault 102 Overlap: out and index share memory, on rank {w.rank}"), found
    # booleans that take part, and other vectors, have no such form
    assert refused(ranks.bck_puz, wide, index)[0] is TypeError


def places_of_32_bits(w):
    """A whole of more places than 32 bits count is refused where these name one. Flags that nobody writes take no memory."""
    if w.comm.size == 1:
        return
    flags = numpy.zeros(BEYOND, dtype=bool)
    assert raised(w.ranks.first_true, flags) == raised(w.ranks.cnt_lub, flags) == (13, None)
    assert raised(w.ranks.dis_vub, True, BEYOND) == (13, None)
    assert w.ranks.ior_rub(flags) is False


# ---- the end ----


def freed_ranks(w):
    """After `free` each call says so, on each rank by itself, and a second `free` does nothing."""
    route, said = w.ranks.route(w.index, w.count), (ValueError, "the ranks were freed by free(), and make no more calls")
    starts = w.rows.starts
    w.ranks.free()
    w.ranks.free()
    for function, words in (
        (w.ranks.add_suz, (w.own,)), (w.ranks.add_rez, (w.own, w.rows)), (w.ranks.add_ruz, (w.own,)),
        (w.ranks.segments, (w.lengths,)), (w.ranks.route, (w.index, w.count)), (w.ranks.spread, (w.own, w.count)),
        (w.ranks.even_share, (5,)), (route.back, (w.own,)), (route.permute, (w.own,)),
        (route.sparse_product, (w.rows, w.own, w.own)),
    ):  # fmt: skip
        assert refused(function, *words) == said, function
    assert w.rows.starts == starts and w.rows.total == w.count
    del route, w.rows
    gc.collect()


PARTS = (
    flat_calls, sorts, segmented_calls, sums_by_key, routes, numbers_and_names, rooms, as_plain_calls_refuse, lengths_are_numbers,
    segments_are_of_these_ranks, lengths_of_segments, faults, details_of_faults, indices_of_64_bits, places_of_32_bits,
    freed_ranks,
)  # fmt: skip


def main():
    w = World(MPI.COMM_WORLD)
    for part in PARTS:
        part(w)
    if w.rank == 0:
        print(f"calls over {w.comm.size} ranks from Python: as they should be")


try:
    main()
except BaseException:
    # the other ranks would wait for this one
    traceback.print_exc()
    sys.stderr.flush()
    MPI.COMM_WORLD.Abort(1)

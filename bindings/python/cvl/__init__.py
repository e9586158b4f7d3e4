"""The vector calls of CVL over numpy: flat and segmented vectors of int32 and bool.

A vector is a numpy array of int32 or bool in one dimension, which is read where it is. A result is a new array, or is written
into `out`.

    >>> import cvl, numpy
    >>> a = numpy.array([3, 1, 4, 1, 5], dtype=numpy.int32)
    >>> cvl.add_suz(a).tolist()
    [0, 3, 4, 8, 9]

Rows that differ in length are a `Ragged`, with numpy's operators and names; `cvl.cumsum`, `cvl.groupby` and others take flat arrays:

    >>> r = cvl.Ragged([[3, 1], [], [4, 1, 5]])
    >>> (r * 10).sum().tolist()
    [40, 0, 100]

Segments cut a vector, for any number of calls:

    >>> rows = cvl.Segments([2, 0, 3])
    >>> cvl.add_rez(a, rows).tolist()
    [4, 0, 10]

A name is an operation and three letters: `w` for elementwise, `s` for a scan, `r` for a reduce, `p` for a permute, and `l`, `v`
and `f` for others; `u` for flat, `e` for segmented, `o` for segments alone; `z` for integers, `b` for booleans. So `add_suz` scans
a flat vector of integers by sums. help(cvl.add_suz) has what it does, its faults and an example.

A call without a value raises `Fault`; `cvl.faults` has the numbers:

    >>> try:
    ...     cvl.ext_vuz(a, 5)
    ... except cvl.Fault as fault:
    ...     print(fault, fault.number == cvl.faults.INDEX_OUT_OF_RANGE, sep="; ")
    fault 10 IndexOutOfRange at 0: index is 5, and len(vector) is 5; True

Long calls run on several threads after `set_threads(4)`, or inside `with cvl.threads(4):`.

`read_ints` and `write_ints` read and write texts. `first_senders` finds the first of several places that name one place.
`combine_exact_sums` adds up by key in 64 bits; `combine_checked_int` and `combine_permute_int` in 32, where the first reports a sum that
does not fit, and the second wraps. `counts` counts keys. `order`, `rank` and `sort` put keys in order; of sorted keys `run_starts_int`
has the places of the unique ones, and `run_lengths_int` their counts. `exact_sum`, and names that end in `_after` or `_range`, are for
calls in parts.
"""

from typing import List

from cvl import calls, faults, named, operators
from cvl._calls import MOST_ELEMENTS, MOST_OF_TEXT, build, get_threads, set_threads, version
from cvl._threads import threads
from cvl.calls import *
from cvl.conversions import as_ints
from cvl.fault import Fault
from cvl.named import *
from cvl.ragged import Ragged
from cvl.segments import Segments

__all__: List[str] = ["MOST_ELEMENTS", "MOST_OF_TEXT", "Fault", "Ragged", "Segments", "build", "faults", "operators"]
__all__ += ["as_ints", "get_threads", "set_threads", "threads"]
__all__ += calls.__all__
__all__ += named.__all__
__version__: str = version

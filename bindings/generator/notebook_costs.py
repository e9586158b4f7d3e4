"""The last cells of the tutorial's notebook: what calls cost, over the lengths of their vectors, beside numpy."""

# %% [markdown]
# ## What it costs
#
# How long does a call take on vectors of 10 to 1,000,000 elements, and how long what you would write in numpy? The next cells measure
# both on your machine: the least of several runs, on the thread that calls and then by four threads. Less is better, and both
# axes are logarithmic.

# %%
import os
import timeit

import matplotlib.pyplot as plot

random = numpy.random.default_rng(1)
lengths = [10**k for k in range(1, int(os.environ.get("CVL_NOTEBOOK_DIGITS", "6")) + 1)]


def microseconds(call):
    """The least time of a call, of five rounds of some milliseconds each."""
    timer = timeit.Timer(call)
    rounds = 1
    while timer.timeit(rounds) < 0.003:
        rounds *= 2
    return min(timer.repeat(5, rounds)) / rounds * 1e6


# %% [markdown]
# Each row of the list below is a call of this library, and the same in numpy. Both write results of their own.


# %%
def numbers(n, below):
    return random.integers(0, below, n, dtype=numpy.int32)


def rows_of_four(n):
    return cvl.Segments.from_offsets([*range(0, n, 4), n])


def add(n):
    a, b = numbers(n, 1000), numbers(n, 1000)
    return lambda: cvl.add_wuz(a, b), lambda: numpy.add(a, b)


def running_sums(n):
    a = numbers(n, 1000)
    return lambda: cvl.add_suz(a), lambda: numpy.cumsum(a, dtype=numpy.int32)


def sums_of_rows(n):
    a, rows = numbers(n, 1000), rows_of_four(n)
    starts = rows.offsets[:-1]
    return lambda: cvl.add_rez(a, rows), lambda: numpy.add.reduceat(a, starts)


def pack(n):
    a = numbers(n, 1000)
    flags = a > 500
    return lambda: cvl.pck_luz(a, flags), lambda: a[flags]


def group_by(n):
    keys, values = numbers(n, 100), numbers(n, 1000)
    sums = numpy.zeros(100, dtype=numpy.int32)
    return lambda: cvl.combine_permute_int(cvl.operators.ADD, values, keys, sums), lambda: numpy.bincount(keys, values, 100)


def moving_sums(n):
    a = numbers(n, 1000)

    def ours():
        before = cvl.add_suz(a)
        return cvl.sub_wuz(cvl.add_wuz(before, a)[2:], before[:-2])

    return ours, lambda: numpy.convolve(a, [1, 1, 1], "valid")


def fetch(n):
    a, index = numbers(n, 1000), numbers(n, n)
    return lambda: cvl.bck_puz(a, index), lambda: numpy.take(a, index)


def sort(n):
    a = numbers(n, 2**31 - 1)
    return lambda: cvl.sort(a), lambda: numpy.sort(a, kind="stable")


calls = [add, running_sums, sums_of_rows, pack, group_by, moving_sums, fetch, sort]

# %%
costs = {}
for threads in 1, 4:
    with cvl.threads(threads):
        for call in calls:
            pairs = [call(n) for n in lengths]
            costs[call.__name__, f"cvl, {threads} thread{'s' if threads > 1 else ''}"] = [microseconds(ours) for ours, _ in pairs]
            if threads == 1:
                costs[call.__name__, "numpy"] = [microseconds(theirs) for _, theirs in pairs]

# %%
figure, axes = plot.subplots(4, 2, figsize=(9, 13), sharex=True)
for call, axis in zip(calls, axes.flat):
    for (name, who), times in costs.items():
        if name == call.__name__:
            axis.loglog(lengths, times, marker="o", label=who)
    axis.set_title(call.__name__.replace("_", " "))
    axis.grid(alpha=0.3)
axes[0, 0].legend()
for axis in axes[-1]:
    axis.set_xlabel("elements")
for axis in axes[:, 0]:
    axis.set_ylabel("microseconds")
figure.tight_layout()

# %% [markdown]
# Short calls cost what it takes to call at all, so there the lines are flat. Long vectors cost what it takes to read and write
# their memory. From 262,144 elements on a call runs on threads, at most as many as you ask for: each has 131,072 elements or more.
# [Performance](performance.md) has these times on a machine of known kind, and says where a loop is faster.

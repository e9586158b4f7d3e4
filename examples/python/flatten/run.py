"""Runs code by the package `cvl`.

The first error is the one that Python would raise: of the first iteration that fails. All iterations go through a step
together, so a later step may fail in an earlier iteration. So if one fails, those before it run again, alone; if one of these
fails, it is the first.
"""

import sys
import threading

import cvl
import numpy

from flatten.code import SAME, Apply, Call, Check, Lists, Same, Tuple, Vector, Whole, leaves

DTYPES = {"z": numpy.int32, "b": bool}

# so many calls of Python's run a call of a function within another, at most in common programs
CALLS_EACH = 12


class DeepEnough:
    """While some thread runs code, functions may call one another as deeply as Python's own do."""

    lock, running, before = threading.Lock(), 0, 0

    def __enter__(self):
        with self.lock:
            if DeepEnough.running == 0:
                DeepEnough.before = sys.getrecursionlimit()
                sys.setrecursionlimit(CALLS_EACH * self.before)
            DeepEnough.running += 1

    def __exit__(self, *_):
        with self.lock:
            DeepEnough.running -= 1
            if DeepEnough.running == 0:
                sys.setrecursionlimit(self.before)


class Failed(Exception):
    """An iteration fails, and those before it have not failed yet."""

    def __init__(self, iteration, error):
        super().__init__(iteration, error)
        self.iteration, self.error = iteration, error


def run(block, given, n):
    """What a block gives for n iterations, by the names in its result."""
    failed = None
    while n:
        try:
            results = steps(block, given, n)
            break
        except Failed as found:
            failed, n = found, found.iteration
            for value in block.inputs:
                cut(value, given, n)
    if failed:
        raise failed
    return results


def steps(block, given, n):
    """Runs the steps once. A vector is let go when no later step reads it."""
    values = {**given, block.count: n}
    for step in block.steps:
        if isinstance(step, Call):
            values[step.name] = call(step, values)
        elif isinstance(step, Check):
            check(step, values)
        elif isinstance(step, Apply):
            apply(step, values, n)
        else:
            inside(step, values)
        for name in step.last:
            values.pop(name, None)
    return [values[name] for name in leaves(block.result)]


def call(step, values):
    """Makes a call. The place of its fault is the iteration that fails."""
    given = [values[word] if isinstance(word, str) else word for word in step.given]
    if step.call == SAME:
        return given[0]
    try:
        return getattr(cvl, step.call)(*given)
    except cvl.Fault as fault:
        if fault.number == cvl.faults.TOO_LONG:
            raise MemoryError(f"{step.call} would make more than {cvl.MOST_ELEMENTS} elements") from None
        if step.error is None:
            raise
        raise Failed(fault.place, step.error) from None


def check(step, values):
    iteration = cvl.first_true(values[step.flags])
    if iteration >= 0:
        raise Failed(iteration, step.error)


def apply(step, values, n):
    """Runs a function, by the names of its parameters."""
    block = step.function.block
    given = {}
    for parameter, value in zip(block.inputs, step.given):
        given.update(zip(leaves(parameter), (values[name] for name in leaves(value))))
    release(step, values)
    values.update(zip(leaves(step.result), run(block, given, n)))


def inside(step, values):
    """Runs a block for other iterations. If one fails, that iteration fails to which it belongs."""
    block, n = step.block, values[step.block.count]
    result = leaves(step.result)
    if n == 0:
        values.update(zip(result, none(step.result)))
        return
    given = {name: values[name] for value in block.inputs for name in leaves(value)}
    owners = values[step.lengths or step.flags]
    release(step, values)
    try:
        values.update(zip(result, run(block, given, n)))
    except Failed as failed:
        if step.lengths:
            iteration = numpy.searchsorted(numpy.cumsum(owners), failed.iteration, side="right")
        else:
            iteration = numpy.flatnonzero(owners)[failed.iteration]
        raise Failed(int(iteration), failed.error) from None


def release(step, values):
    """Lets go what only this step reads, before it runs something long."""
    for name in step.last:
        values.pop(name, None)


def none(value):
    """The vectors of a result without iterations."""
    if isinstance(value, Vector):
        return [numpy.zeros(0, DTYPES[value.kind])]
    parts = value.parts if isinstance(value, Tuple) else [value.lengths, value.inner]
    return [vector for part in parts for vector in none(part)]


def cut(value, given, n):
    """Leaves the first n iterations of a value."""
    if isinstance(value, Vector):
        given[value.name] = given[value.name][:n]
    elif isinstance(value, Tuple):
        for part in value.parts:
            cut(part, given, n)
    elif isinstance(value, Lists):
        cut(value.lengths, given, n)
        if value.starts:
            cut(value.starts, given, n)
        else:
            cut(value.inner, given, int(given[value.lengths.name].sum()))

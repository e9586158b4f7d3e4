"""The decorator `nested`: a function of Python that runs as vector calls."""

import array
import functools
import itertools
import types

import numpy

from flatten import run, script
from flatten.code import Lists, Tuple, leaves, listing
from flatten.compile import compiled
from flatten.kinds import BOOL, INT, List, final, type_of
from flatten.kinds import Tuple as TupleKind
from flatten.language import read


def nested(function=None, *, wraps=False):
    """Makes a function run as vector calls. With `wraps=True` numbers wrap at 32 bits, else one that does not fit is an
    `OverflowError`."""
    if function is None:
        return lambda function: Nested(function, wraps)
    return Nested(function, wraps)


class Nested:
    """A nested function. `plain` is the same text, run by Python."""

    def __init__(self, function, wraps):
        functools.update_wrapper(self, function)
        self.function, self.name, self.wraps = function, function.__name__, wraps
        self.source = read(function)
        self.compiled = {}

    def __call__(self, *given):
        function, instance = self.compile(given)
        return raised(iter(self.run(function, self.vectors(given))), final(instance.result))[0]

    def vectors(self, given):
        """The vectors of arguments."""
        instance = self.compile(given)[1]
        return [vector for value, kind in zip(given, instance.arguments) for vector in lowered([value], final(kind))]

    def run(self, function, vectors):
        """The vectors of the result, or the error that Python would raise."""
        names = [name for value in function.block.inputs for name in leaves(value)]
        try:
            with run.DeepEnough():
                return run.run(function.block, dict(zip(names, vectors)), 1)
        except run.Failed as failed:
            error = failed.error
        raise_at(error)

    def compile(self, given, straight=False):
        """The code for arguments of these types."""
        kinds = [type_of(value) for value in given]
        key = " ".join(map(str, kinds)), straight
        if key not in self.compiled:
            self.compiled[key] = compiled(self, kinds, straight)
        return self.compiled[key]

    def lookup(self, name):
        """The nested function that a name of the text stands for, if it does."""
        found = {**self.function.__globals__, **self.variables()}.get(name)
        return found if isinstance(found, Nested) else None

    def variables(self):
        """What stands around the function and is named in it."""
        cells = self.function.__closure__ or ()
        return {name: cell.cell_contents for name, cell in zip(self.function.__code__.co_freevars, cells)}

    @property
    def plain(self):
        return self.plainly({})

    def plainly(self, made):
        """The function as it stands, calling those as they stand that it calls. `made` has those that have been made so."""
        if self not in made:
            names = dict(self.function.__globals__)
            cells = {name: types.CellType(value) for name, value in self.variables().items()}
            made[self] = types.FunctionType(self.function.__code__, names, self.name, None, tuple(cells.values()))
            names.update({name: value.plainly(made) for name, value in names.items() if isinstance(value, Nested)})
            for name, value in self.variables().items():
                cells[name].cell_contents = value.plainly(made) if isinstance(value, Nested) else value
        return made[self]

    def listing(self, *given):
        """The vector calls as text, for arguments of the types of these: this function, and those that it calls."""
        return listing(self.compile(given)[0])

    def value(self, given, vectors):
        """The result of a script for these arguments, of the vectors that it printed."""
        return raised(iter(vectors), final(self.compile(given, straight=True)[1].result))[0]

    def script(self, *given):
        """A script of the program `cvl` with the texts of its inputs, for these arguments. Only recursion has none."""
        return script.written(self.compile(given, straight=True)[0], self.vectors(given))


def lowered(values, kind):
    """The vectors of a value of each iteration."""
    if kind in (INT, BOOL):
        return [numpy.array(array.array("i", values)) if kind == INT else numpy.array(values, bool)]
    if isinstance(kind, TupleKind):
        parts = zip(*values) if values else [[]] * len(kind.parts)
        return [vector for part, of in zip(parts, kind.parts) for vector in lowered(part, of)]
    inner = values[0] if len(values) == 1 else list(itertools.chain.from_iterable(values))
    return [numpy.array([*map(len, values)], numpy.int32), *lowered(inner, kind.of)]


def raised(vectors, kind):
    """The value of each iteration, of its vectors."""
    if kind in (INT, BOOL):
        return next(vectors).tolist()
    if isinstance(kind, TupleKind):
        return [*zip(*(raised(vectors, part) for part in kind.parts))]
    lengths = next(vectors).tolist()
    inner = raised(vectors, kind.of)
    ends = [0, *numpy.cumsum(lengths).tolist()]
    return [inner[begin:end] for begin, end in zip(ends, ends[1:])]


def raise_at(error):
    """Raises an error at its line, so that the traceback shows that."""
    text = "\n" * (error.line - 1) + "raise error"
    code = compile(text, error.function.source.file, "exec").replace(co_name=error.function.name)
    exec(code, {"error": error.kind(error.said)})

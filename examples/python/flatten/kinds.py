"""The types of the language: integers, booleans, lists and tuples of these. A type that is not known yet becomes known by
`unify`.

    >>> empty = List(Unknown())
    >>> unify(empty, List(INT)), str(empty)
    (True, '[int]')
"""

import itertools
from dataclasses import dataclass

import numpy


@dataclass(frozen=True)
class Basic:
    name: str

    def __str__(self):
        return self.name


INT, BOOL = Basic("int"), Basic("bool")


@dataclass(frozen=True)
class List:
    of: object

    def __str__(self):
        return f"[{known(self.of)}]"


@dataclass(frozen=True)
class Tuple:
    parts: tuple

    def __str__(self):
        return f"({', '.join(str(known(part)) for part in self.parts)})"


class Unknown:
    """A type that is not known yet, as that of the elements of `[]`, or that is another one. `apart` has the types of the names
    into which it has been taken apart: it may be a tuple or a list."""

    found = None

    def __init__(self):
        self.apart = []

    def __str__(self):
        return "?"


def known(kind):
    """What is known of a type at its outermost level."""
    while isinstance(kind, Unknown) and kind.found is not None:
        kind = kind.found
    return kind


def final(kind):
    """A type without unknown parts: nothing says what these are, so they may be integers."""
    kind = known(kind)
    if isinstance(kind, List):
        return List(final(kind.of))
    if isinstance(kind, Tuple):
        return Tuple(tuple(map(final, kind.parts)))
    if isinstance(kind, Unknown):
        return Tuple(tuple(map(final, kind.apart[0]))) if kind.apart else INT
    return kind


def _is_part(unknown, kind):
    kind = known(kind)
    parts = [kind.of] if isinstance(kind, List) else kind.parts if isinstance(kind, Tuple) else []
    return kind is unknown or any(_is_part(unknown, part) for part in parts)


def unify(a, b):
    """Makes two types the same, by what is unknown in them; returns whether they are."""
    a, b = known(a), known(b)
    if a is b:
        return True
    if isinstance(b, Unknown):
        a, b = b, a
    if isinstance(a, Unknown):
        if _is_part(a, b):
            return False
        a.found = b
        return all([take_apart(b, parts) for parts in a.apart])
    if isinstance(a, List) and isinstance(b, List):
        return unify(a.of, b.of)
    if isinstance(a, Tuple) and isinstance(b, Tuple) and len(a.parts) == len(b.parts):
        return all([unify(one, other) for one, other in zip(a.parts, b.parts)])
    return a == b


def take_apart(kind, parts):
    """Makes the types of some names those of the parts of a tuple, or of the elements of a list; returns whether it is one of
    so many."""
    kind = known(kind)
    if isinstance(kind, Unknown):
        alike = [others for others in kind.apart if len(others) == len(parts)]
        kind.apart += [] if alike else [parts]
        return all([unify(one, other) for others in alike for one, other in zip(others, parts)])
    if isinstance(kind, Tuple) and len(kind.parts) == len(parts):
        return all([unify(one, other) for one, other in zip(kind.parts, parts)])
    return isinstance(kind, List) and all([unify(kind.of, part) for part in parts])


BASIC = {int: INT, bool: BOOL, numpy.int32: INT, numpy.bool_: BOOL}


def type_of(value):
    """The type of a value of Python."""
    return _type_of_all([value])


def _type_of_all(values):
    """The type that all these values have: of all lists at once, that of all their elements."""
    found = {BASIC.get(kind, kind) for kind in set(map(type, values))}
    if len(found) > 1:
        raise TypeError(f"a list has elements of {' and '.join(sorted(getattr(kind, '__name__', str(kind)) for kind in found))}")
    if not found:
        return Unknown()
    [kind] = found
    if kind is list:
        return List(_type_of_all(list(itertools.chain.from_iterable(values))))
    if kind is tuple and len(set(map(len, values))) == 1:
        return Tuple(tuple(map(_type_of_all, zip(*values))))
    if not isinstance(kind, Basic):
        raise TypeError(f"{kind.__name__} is none of int, bool, list, and tuples of one length")
    return kind

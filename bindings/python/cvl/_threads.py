"""Threads for a while."""

from contextlib import contextmanager
from typing import Iterator

from cvl._calls import set_threads


@contextmanager
def threads(count: int) -> Iterator[None]:
    """Long calls have so many threads inside `with`, and behind it as many as before. The number is that of the whole process, so
    it is for one thread of a program to say.

    >>> import cvl
    >>> before = cvl.get_threads()
    >>> with cvl.threads(2):
    ...     cvl.get_threads()
    2
    >>> cvl.get_threads() == before
    True
    """
    before = set_threads(count)
    try:
        yield
    finally:
        set_threads(before)

"""A compiler of nested comprehensions to vector calls.

    from flatten import nested

    @nested
    def sparse_product(rows, columns, entries, x):
        return [sum(entries[k] * x[columns[k]] for k in row) for row in rows]

The page docs/user/flattening.md walks through it. Each module has one idea; read them in this order:

    language  the part of Python that is compiled, and what is refused
    kinds     types, and how an unknown type becomes known
    infer     the type of each expression
    safe      which expressions cannot fail
    code      lifted values, and code as lists of vector calls
    lift      operations on lifted values, as vector calls
    functions the functions of Python, elements and slices, for all iterations at once
    compile   each expression and statement, for all iterations at once
    run       runs code by the package `cvl`, with errors in the order of Python
    script    writes code as a script of the program `cvl`
    decorator the decorator, and values of Python as vectors
"""

from flatten.language import Refused
from flatten.decorator import nested

__all__ = ["Refused", "nested"]

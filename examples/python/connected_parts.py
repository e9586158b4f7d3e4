"""The connected parts of a graph, by pointer jumping.

Each vertex points to one of its part, at first to itself. A root points to itself. In each round one end of each edge between two
trees hangs its root below the other end's, and then each pointer jumps to where the next one points, until all point to roots.
"""

import numpy

import cvl


def jumped(pointers):
    """The pointers, each of which leads to its root."""
    while True:
        further = cvl.bck_puz(pointers, pointers)
        if not cvl.ior_rub(cvl.neq_wuz(further, pointers)):
            return pointers
        pointers = further


def roots(many, ends, others):
    """A vertex for each of so many: the same for all of a part, by edges between `ends` and `others`."""
    draw = numpy.random.default_rng(1)
    pointers, marks = cvl.ind_luz(0, 1, many), numpy.zeros((many + 31) // 32, numpy.uint32)
    while True:
        ends, others = cvl.bck_puz(pointers, ends), cvl.bck_puz(pointers, others)
        apart = cvl.neq_wuz(ends, others)
        ends, others = cvl.pck_luz(ends, apart), cvl.pck_luz(others, apart)
        if not len(ends):
            return pointers
        # which of two roots hangs is drawn anew in each round, in one order of all, so that there are no rings, and so that about
        # half of the roots or more hang, whatever the numbers of the vertices
        odd = 2 * int(draw.integers(-(2**30), 2**30)) + 1
        hangs = cvl.les_wuz(cvl.mul_wuz(ends, odd), cvl.mul_wuz(others, odd))
        above, below = cvl.sel_wuz(hangs, others, ends), cvl.sel_wuz(hangs, ends, others)
        # of several that one root may hang below it takes the last
        cvl.permute_int_range(above, below, 0, pointers, marks)
        pointers = jumped(pointers)


def connected_parts(rows, ends):
    """The number of its part for each vertex. Parts are numbered by the first vertex of each.

    Vertex v has an edge to each element of segment v of `ends`, as in a matrix of compressed rows. Edges lead both ways.
    """
    many = len(rows)
    found = roots(many, rows.numbers, ends)
    # the first vertex of all that lead to its root
    first = cvl.bck_puz(cvl.first_senders(found, many), found)
    numbers = cvl.add_suz(cvl.int_wub(cvl.eql_wuz(first, cvl.ind_luz(0, 1, many))))
    return cvl.bck_puz(numbers, first)


def main():
    rows = cvl.Segments([1, 0, 1, 0, 1, 0, 0])
    ends = numpy.array([5, 4, 5], numpy.int32)
    print("parts =", *connected_parts(rows, ends))


if __name__ == "__main__":
    main()

"""A search by breadth: how many edges lead from one vertex to each other one at least, and on which way.

The vertices that were reached last are taken together: their edges are segments of one vector, however many each has. Of the
vertices at the ends of these, those that were not reached before are the next to be taken, each once.
"""

import numpy

import cvl


def edges_of(rows, starts, vertices):
    """The places of the edges of some vertices, one vertex after another, and how many each of them has."""
    counts = cvl.bck_puz(rows.lengths, vertices)
    ones = numpy.ones(len(vertices), numpy.int32)
    return cvl.ind_lez(cvl.bck_puz(starts, vertices), ones, counts), counts


def breadth_first(rows, ends, source):
    """The least number of edges from the source to each vertex, and the vertex before it on such a way; -1 where there is none.

    Vertex v has an edge to each element of segment v of `ends`, as in a matrix of compressed rows.
    """
    many = len(rows)
    starts = rows.offsets[:-1]
    levels, before = cvl.dis_vuz(-1, many), cvl.dis_vuz(-1, many)
    senders, marks = cvl.dis_vuz(0, many), numpy.zeros((many + 31) // 32, numpy.uint32)
    reached = numpy.array([source], numpy.int32)
    levels = cvl.rep_vuz(levels, source, 0)
    level = 0
    while len(reached):
        level += 1
        edges, counts = edges_of(rows, starts, reached)
        found, by = cvl.bck_puz(ends, edges), cvl.dis_vez(reached, counts)
        new = cvl.les_wuz(cvl.bck_puz(levels, found), 0)
        found, by = cvl.pck_luz(found, new), cvl.pck_luz(by, new)
        # of edges to one vertex the last stays
        numbers = cvl.ind_luz(0, 1, len(found))
        cvl.permute_int_range(numbers, found, 0, senders, marks)
        once = cvl.eql_wuz(cvl.bck_puz(senders, found), numbers)
        reached, by = cvl.pck_luz(found, once), cvl.pck_luz(by, once)
        levels[reached], before[reached] = level, by
    return levels, before


def main():
    rows = cvl.Segments([2, 2, 1, 0, 1])
    ends = numpy.array([1, 2, 2, 4, 0, 3], numpy.int32)
    levels, before = breadth_first(rows, ends, 0)
    print("levels =", *levels)
    print("before =", *before)
    print("from 3:", *breadth_first(rows, ends, 3)[0])


if __name__ == "__main__":
    main()

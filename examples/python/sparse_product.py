"""A sparse matrix, kept in rows, times a vector."""

import numpy

import cvl


def sparse_product(rows, columns, entries, x):
    """Fetches the vector's element for each entry, multiplies, and sums up each row."""
    fetched = cvl.bck_puz(x, columns)
    products = cvl.mul_wuz(entries, fetched, out=fetched)
    return cvl.add_rez(products, rows)


def main():
    rows = cvl.Segments([2, 0, 2])
    columns = numpy.array([0, 2, 1, 2], dtype=numpy.int32)
    entries = numpy.array([2, 1, 3, 4], dtype=numpy.int32)
    x = numpy.array([1, 2, 3], dtype=numpy.int32)
    print("y =", *sparse_product(rows, columns, entries, x))
    columns[3] = 3
    try:
        sparse_product(rows, columns, entries, x)
    except cvl.Fault as fault:
        print("a column outside the vector:", fault)


if __name__ == "__main__":
    main()

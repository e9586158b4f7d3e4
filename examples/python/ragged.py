"""A sparse matrix times a vector, with rows that differ in length and numpy's names."""

import cvl


def main():
    columns = cvl.Ragged([[0, 2], [], [1, 2]])
    entries = cvl.Ragged([[2, 1], [], [3, 4]])
    fetched = cvl.take([1, 2, 3], columns)
    print("y =", *(entries * fetched).sum())
    try:
        cvl.take([1, 2], columns)
    except cvl.Fault as fault:
        print("a column outside the vector:", fault)


if __name__ == "__main__":
    main()

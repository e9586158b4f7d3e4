"""A join of two tables by a key: each two rows, one of either table, whose keys are equal."""

import numpy

import cvl
from dictionary import number_rows


def join_numbers(left, right, many, right_rows):
    """The left and the right row of each pair, where keys are numbers from 0 to `many`, in the order of the left rows.

    The right rows in the order of their numbers are one run for each number, and each left row takes the run of its own.
    """
    counts = cvl.counts(right, many)
    runs = cvl.Segments(cvl.bck_puz(counts, left))
    return runs.numbers, cvl.gather_segments_int(right_rows, cvl.bck_puz(cvl.add_suz(counts), left), runs)


def join(left, right):
    """The same by any keys. Those that lie close together are such numbers, but for the least; to others an order of all gives them."""
    n, keys = len(left), numpy.concatenate([left, right])
    least, greatest = int(cvl.min_ruz(keys)), int(cvl.max_ruz(keys))
    if len(keys) and greatest - least < 4 * len(keys):
        numbers, many = cvl.sub_wuz(keys, least), greatest - least + 1
        right_rows = cvl.order(numbers[n:])
    else:
        rows = cvl.order(keys)
        numbers, first = number_rows(rows, [keys])
        many, right_rows = len(first), cvl.sub_wuz(cvl.pck_luz(rows, cvl.geq_wuz(rows, n)), n)
    return join_numbers(numbers[:n], numbers[n:], many, right_rows)


def main():
    customers, orders = cvl.as_ints([7000, 3, -9]), cvl.as_ints([-9, 7000, -9, 1, 7000])
    for left, right in zip(*join(customers, orders)):
        print(f"customer {left} has order {right}")


if __name__ == "__main__":
    main()

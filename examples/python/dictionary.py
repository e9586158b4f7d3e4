"""A dictionary: a number for each key, and sums by these numbers.

A key is a row of one or more columns of integers, so a word is a key too: four bytes of it to a column. Equal keys stand side by side
in the order of the rows, which is found by one stable order for each column.
"""

import numpy

import cvl


def in_order(columns):
    """The numbers of the rows in ascending order: by the first column, where it ties by the second, and so on."""
    rows = cvl.order(columns[-1])
    for column in columns[-2::-1]:
        rows = cvl.bck_puz(rows, cvl.order(cvl.bck_puz(column, rows)))
    return rows


def number_rows(rows, columns):
    """The number of each row, by the order of all rows: equal rows have equal numbers, which ascend; and the first row of each."""
    first = numpy.zeros(len(rows), bool)
    for column in columns:
        ascending = cvl.bck_puz(column, rows)
        first[1:] |= cvl.neq_wuz(ascending[1:], ascending[:-1])
    steps = cvl.int_wub(first)
    first[:1] = True
    return cvl.smp_puz(cvl.add_wuz(cvl.add_suz(steps), steps), rows), cvl.pck_luz(rows, first)


def encode(*columns):
    """The number of each row, and the first row of each number."""
    return number_rows(in_order(columns), columns)


def columns_of(text, starts, lengths):
    """The columns of words of a text: their bytes by fours, with zeros behind the end of a word, and last how many each has."""
    longest = int(cvl.max_ruz(lengths)) if len(lengths) else 0
    padded = numpy.zeros(len(text) + longest + 3, numpy.int32)
    padded[: len(text)] = cvl.ints_from_bytes(text)
    columns = []
    for k in range(0, longest, 4):
        column = numpy.zeros(len(lengths), numpy.int32)
        for place in range(k, k + 4):
            bytes_there = cvl.bck_puz(padded, cvl.add_wuz(starts, place))
            column = cvl.ior_wuz(cvl.lsh_wuz(column, 8), cvl.sel_wuz(cvl.grt_wuz(lengths, place), bytes_there, 0))
        columns.append(column)
    return [*columns, lengths]


def sums_of(numbers, values, many):
    """The sum of the values of each number."""
    return cvl.combine_permute_int(cvl.operators.ADD, values, numbers, numpy.zeros(many, numpy.int32))


def main():
    text, starts, lengths = (
        b"tea coffee tea water coffee tea",
        cvl.as_ints([0, 4, 11, 15, 21, 28]),
        cvl.as_ints([3, 6, 3, 5, 6, 3]),
    )
    numbers, first = encode(*columns_of(text, starts, lengths))
    sums = sums_of(numbers, cvl.as_ints([5, 1, 2, 7, 3, 4]), len(first))
    for row, total in zip(first, sums):
        print(f"{text[starts[row] : starts[row] + lengths[row]].decode()}: {total}")


if __name__ == "__main__":
    main()

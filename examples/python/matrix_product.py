"""The product of two sparse matrices that are kept in rows."""

import numpy

import cvl


def matrix_product(rows, columns, values, other_rows, other_columns, other_values):
    """The product's rows, columns and values, whose columns ascend in each row. Sums wrap at 32 bits.

    Each entry meets the row of the other matrix that its column names: these rows are gathered one behind another and multiplied. Then
    each row of the product is put in the order of its columns, and what stands in one column is added up.
    """
    met = cvl.Segments(cvl.bck_puz(other_rows.lengths, columns))
    starts = cvl.bck_puz(other_rows.offsets, columns)
    made = cvl.Segments(cvl.add_rez(met.lengths, rows))
    made_columns = cvl.gather_segments_int(other_columns, starts, met)
    made_values = cvl.gather_segments_int(other_values, starts, met)
    cvl.mul_wuz(made_values, cvl.dis_vez(values, met), out=made_values)
    order = cvl.seg_order(made_columns, made)
    made_columns, made_values = (cvl.bck_pez(part, order, made, made) for part in (made_columns, made_values))
    first = numpy.zeros(made.total, bool)
    first[1:] = cvl.neq_wuz(made_columns[1:], made_columns[:-1])
    first[made.offsets[:-1][cvl.boo_wuz(made.lengths)]] = True
    places = cvl.pck_luz(cvl.ind_luz(0, 1, made.total), first)
    runs = cvl.Segments.from_offsets(numpy.append(places, made.total))
    return cvl.Segments(cvl.cnt_leb(first, made)), cvl.pck_luz(made_columns, first), cvl.add_rez(made_values, runs)


def main():
    rows, columns, values = cvl.Segments([2, 0, 2]), cvl.as_ints([0, 2, 1, 2]), cvl.as_ints([2, 1, 3, 4])
    found, found_columns, found_values = matrix_product(rows, columns, values, rows, columns, values)
    print("entries of each row =", *found.lengths)
    print("their columns =", *found_columns)
    print("their values =", *found_values)


if __name__ == "__main__":
    main()

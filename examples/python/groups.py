"""Sums of groups: each value has a key, the number of its group, and goes to its group's sum.

How many values a group has, the least and the greatest come the same way. The values may come in batches, in any order. Where a key
may be any integer, or a group's values are needed side by side, as for a median, the values go in the order of their keys.
"""

import numpy

import cvl

BOUNDS = numpy.iinfo(numpy.int32)


class Groups:
    """So many groups, without values at first: the sum 0, the greatest integer as the least value, and the least as the greatest."""

    def __init__(self, many):
        self.counts, self.sums = numpy.zeros(many, numpy.int32), numpy.zeros(many, numpy.int32)
        self.least, self.greatest = numpy.full(many, BOUNDS.max, numpy.int32), numpy.full(many, BOUNDS.min, numpy.int32)

    def add_up(self, keys, values):
        """Adds a batch of values to their groups. A key that is no group raises a `Fault`, and the groups stay as they were."""
        cvl.add_wuz(self.counts, cvl.counts(keys, len(self.counts)), out=self.counts)
        cvl.combine_permute_int(cvl.operators.ADD, values, keys, self.sums)
        cvl.combine_permute_int(cvl.operators.MIN, values, keys, self.least)
        cvl.combine_permute_int(cvl.operators.MAX, values, keys, self.greatest)


def sort_groups(keys, values):
    """The groups of any keys, in ascending order: the key and the count of each, its sum in 64 bits, and its lower median."""
    order = cvl.order(keys)
    ascending, places = cvl.bck_puz(keys, order), cvl.ind_luz(0, 1, len(keys))
    first = numpy.ones(len(keys), bool)
    first[1:] = cvl.neq_wuz(ascending[1:], ascending[:-1])
    starts = cvl.pck_luz(places, first)
    groups = cvl.Segments.from_offsets(numpy.append(starts, len(keys)) if len(keys) else [0])
    side_by_side = cvl.bck_puz(values, order)
    sums = cvl.seg_exact_sums(side_by_side, groups)
    cvl.seg_sort(side_by_side, groups, out=side_by_side)
    middles = cvl.add_wuz(starts, cvl.rsh_wuz(cvl.sub_wuz(groups.lengths, 1), 1))
    return cvl.pck_luz(ascending, first), groups.lengths, sums, cvl.bck_puz(side_by_side, middles)


def main():
    groups = Groups(4)
    groups.add_up(cvl.as_ints([2, 0, 2, 1]), cvl.as_ints([5, 6, 7, 8]))
    groups.add_up(cvl.as_ints([0, 2]), cvl.as_ints([-1, 4]))
    for k in range(4):
        print(f"group {k}: count {groups.counts[k]}, sum {groups.sums[k]}")
    try:
        groups.add_up(cvl.as_ints([3, 4]), cvl.as_ints([5, 6]))
    except cvl.Fault as fault:
        print("keys 3 4:", fault)
    for key, count, total, median in zip(*sort_groups(cvl.as_ints([1999, -44, 1999, 1999]), cvl.as_ints([2**31 - 1, 3, 1, 5]))):
        print(f"key {key}: count {count}, sum {total}, median {median}")


if __name__ == "__main__":
    main()

"""The calls as Python and Rust have them: what are lengths in C are segments, no number of elements is given, and there is one result."""

import rows
import table


def name_of(operand):
    """The name of an operand, where what are `lengths` in C, and what else ends so, are segments."""
    return operand.name.replace("lengths", "segments") if operand.role == "lengths" else operand.name


# How many elements a result has to have, where in C the room alone says it.
COUNT = table.Operand("count", "count", "int", None, False)


class Call:
    """A call of the table, or a function that is no call."""

    def __init__(self, row):
        self.row, self.name, self.family = row, row.name, row.family
        self.makes_segments = row.result is None
        self.gives_segments = self.makes_segments or row.result.use == "lengths"
        # what segments are made of are integers still
        self.operands = [operand._replace(role="reads") for operand in row.takes] if self.makes_segments else row.takes
        self.cuts = [operand for operand in self.operands if operand.role == "lengths"]
        self.result = row.result
        if self.is_sized:
            self.operands = [*self.operands, COUNT]

    @property
    def gives_two(self):
        """Whether it gives a vector and the lengths of its segments."""
        return len(self.row.rooms) > 1 and self.row.rooms[-1].use == "lengths"

    @property
    def is_sized(self):
        """Whether no operand says how long the result is."""
        others = [operand for operand in self.row.operands if operand != self.result]
        is_new = self.result is not None and not self.result.over
        return is_new and self.result.extent == "m" and all(operand.extent != "m" for operand in others)

    @property
    def over(self):
        """The rooms that hold what stands before, which a caller always has."""
        return [operand for operand in self.row.rooms if operand.over]

    @property
    def example(self):
        """The row's example, with what C does not take."""
        said = self.row.example
        return {**said, "count": str(len(said[self.result.name].split()))} if said and self.is_sized else said

    @property
    def fills(self):
        """Whether it writes several elements, which a caller may have room for."""
        return self.result is not None and self.result.role == "room" and not self.gives_segments

    @property
    def counts(self):
        """Whether it tells how many elements it gives, in a room that may be longer."""
        return self.result is not None and any(operand.role == "told" for operand in self.row.operands)

    @property
    def sentences(self):
        """What it does, and how long its arrays are."""
        return self.row.sentences + (" count is how many places the result has." if self.is_sized else "")

    @property
    def purpose(self):
        """The same, and what a room may be."""
        kept = " out may be longer than the result, which stands at its front." if self.counts else ""
        return self.sentences + kept

    @property
    def measured(self):
        """The operands by which is told why a call is not made: its arrays, its lengths and its count."""
        return [operand for operand in self.operands if operand.role in ("reads", "lengths", "count")]

    def alike(self, extent):
        """The arrays that have so many elements."""
        return [operand for operand in self.operands if operand.role == "reads" and operand.extent == extent]

    @property
    def extents(self):
        """What the arrays are as long as, each once, in their order."""
        return list(dict.fromkeys(operand.extent for operand in self.operands if operand.role == "reads"))

    def is_bounded(self, extent):
        """Whether an array of this extent has at most 2,147,483,647 elements: the call limits it, or lengths add up to it."""
        return extent in ("segments", self.family.limit) or any(operand.extent == extent for operand in self.cuts)

    @property
    def in_place(self):
        """The operands that may be the room, alone."""
        alone = [names[0] for names in self.family.in_place if len(names) == 1]
        return [operand for operand in self.operands if operand.name in alone]

    @property
    def limited(self):
        """The array whose length the call compares with its limit, or None if it has no limit."""
        return rows.limited(self.family)

    def measure(self):
        """The operand that says how long a room is whose length the library is told: flags or lengths; nothing for another room."""
        if self.result.extent in rows.said_by_lengths(self.row):
            return self.cuts[-1]
        flags = [operand for operand in self.operands if operand.use == "mask"]
        return flags[0] if self.result.extent in ("trues", "room") else None

    def words(self, operand):
        """The words of an operand in the example."""
        return self.example[operand.name].split()

    @property
    def given(self):
        """The words of the result in the example."""
        return self.row.example["lengths" if self.makes_segments else self.result.name].split()

    @property
    def faults(self):
        of_count = "".join(f"{fault.said}; " for fault in table.BAD_COUNT) if self.is_sized else ""
        return of_count + rows.fault_text(self.row)

    @property
    def in_place_words(self):
        return rows.in_place_words(self.family)


CALLS = [Call(row) for row in rows.CALLS]

# The families that are no call's: functions that no script calls, each under the name of its family.
BESIDE = [row for row in rows.FAMILIES.values() if row.name not in {call.family.name for call in CALLS}]


def differences(calls):
    """The calls that give segments in the proved table of calls alone, or here alone."""
    for call in CALLS:
        if call.gives_segments != (calls.get(call.name, ([], []))[1] == ["Descriptor"]):
            yield f"{call.name} gives segments in the table of calls, or among the packages' calls, and not in both"

"""Times that were measured in turns: the least of each, with the greatest if that is more than a fifth above it."""

STEADY = 1.2


def written(numbers, best=min):
    """The best of the numbers that turns told as texts, and if one lies further than a fifth away, that one behind it."""
    worst = max if best is min else min
    chosen, other = best(numbers, key=float), worst(numbers, key=float)
    far = max(float(chosen), float(other)) > STEADY * min(float(chosen), float(other))
    return f"{chosen}~{other}" if far else chosen


class Times:
    """The times of each case by the columns that it has, and the cases whose answers differ."""

    def __init__(self):
        self.found, self.answers, self.differ = {}, {}, set()

    def add(self, case, column, time, answer=None):
        self.found.setdefault(case, {}).setdefault(column, []).append(str(time))
        if answer is not None and self.answers.setdefault(case, answer) != answer:
            self.differ.add(case)

    def lines(self):
        for case, row in self.found.items():
            if case in self.differ:
                yield f"{case}: the answers differ"
            else:
                yield f"{case}: " + ", ".join(f"{column} {written(times)}" for column, times in row.items())


def merged(runs):
    """The lines of several runs, each a case and its columns with their times, as those of one."""
    times = Times()
    for line in (line for run in runs for line in run):
        case, columns = line.rsplit(": ", 1)
        for column in columns.split(", "):
            times.add(case, *column.rsplit(" ", 1))
    return list(times.lines())

"""The tables of calls that only programs make, of the programs of the examples, and of tasks, as `measure_program_calls` measures them."""

import re

from measurements import ROWS, marked, table

COLUMNS = ("1 thread", "4 threads", "loop", "Thrust", "numpy", "pandas")
CASE = re.compile(r"(.+), (\d+) elements")

# each length, its unit, and the calls that the page shows of it; the pages of the calls have all
LENGTHS = (
    (1_000, 1e3, "microseconds", {"order, any keys", "sort, any keys", "sums by key, even keys", "merge by flags"}),
    (
        4_194_304,
        1e6,
        "milliseconds",
        {
            "order, any keys",
            "rank, any keys",
            "sort, any keys",
            "sort, segments of 1,000",
            "exact sums, segments of 1,000",
            "sums by key, even keys",
            "sums by key, 256 keys",
            "gather of segments, of 8",
            "merge by flags",
            "transpose, as many rows as columns",
        },
    ),
    (67_108_864, 1e6, "milliseconds", {"order, any keys", "sort, any keys", "sums by key, even keys", "merge by flags"}),
)


def digits(time, unit=1):
    """Three digits or so of a time, in so many of its units."""
    number = time / unit
    return marked(f"{number:,.0f}" if number >= 100 else f"{number:.1f}" if number >= 10 else f"{number:.2f}", time)


def of_length(length, shown):
    """The rows of these calls on so many elements, without the columns that none of them has."""
    rows = {}
    for (subject, case), columns in ROWS.items():
        found = CASE.fullmatch(case)
        if subject == "calls for programs" and found and int(found[2]) == length and found[1] in shown:
            rows[found[1]] = columns
    return rows, [column for column in COLUMNS if any(column in row for row in rows.values())]


def calls():
    """A table for each length: times, and after those by threads their ratio to the loop."""
    parts = []
    for length, unit, name, shown in LENGTHS:
        rows, columns = of_length(length, shown)
        if not rows:
            continue
        heads, lines = ["Work"], []
        columns = [column for column in columns if length > 1_000 or column != "4 threads"]
        for column in columns:
            heads += [column, "of the loop"] if "thread" in column else [column.replace("loop", "Loop")]
        for case, row in rows.items():
            line = [case]
            for column in columns:
                line.append(digits(row[column], unit) if column in row else "")
                if "thread" in column:
                    line.append(marked(f"{row[column] / row['loop']:.2f}", row[column], row["loop"]))
            lines.append(line)
        parts.append(f"On {length:,} elements, in {name}:\n\n{table(heads, lines)}")
    return "\n".join(parts)


def programs(subject, heads):
    """A row for each program: its time by one thread, by four, and in other ways, which it names; and in how many four threads lose."""
    lines, to_one, to_others = [], 0, 0
    for (found, case), columns in ROWS.items():
        if found == subject:
            name, _, rest = case.partition(",")
            times = {column: time for column, time in columns.items() if "thread" not in column}
            others = [f"{column} {digits(time)}" for column, time in times.items()]
            to_one += columns["4 threads"] > columns["1 thread"]
            to_others += columns["4 threads"] > min(times.values())
            lines.append(
                [f"`{name}`{rest and ','}{rest}", digits(columns["1 thread"]), digits(columns["4 threads"]), "; ".join(others)]
            )
    than_one = f"in {to_one} of these {len(lines)}" if to_one else "in none of these"
    lose = f"slower than one thread {than_one}, and slower than the best of the last column in {to_others} of {len(lines)}"
    return f"{table(heads, lines)}\nFour threads are {lose}.\n"


def in_c():
    return programs("programs in C", ["Program", "1 thread", "4 threads", "Plain loop"])


def in_python():
    return programs("programs in Python", ["Program", "1 thread", "4 threads", "Others"])


def tasks(subject, *others):
    """A row for each task: its time by one thread, by four, and in each other way."""
    columns = ("1 thread", "4 threads", *others)
    rows = {case: times for (found, case), times in ROWS.items() if found == subject}
    lines = [[case, *(digits(times[column]) if column in times else "" for column in columns)] for case, times in rows.items()]
    made = table(["Task", *columns], lines)
    return f"{made}\n`~` marks a time that was a fifth worse in another turn.\n" if "~" in made else made


TABLES = {
    "program_calls": calls,
    "programs_in_c": in_c,
    "programs_in_python": in_python,
    "columns": lambda: tasks("columns", "numpy", "pandas"),
    "tasks": lambda: tasks("tasks", "Thrust"),
}

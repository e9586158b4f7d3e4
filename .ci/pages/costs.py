"""What the pages of calls on the site say that calls cost, against what was measured: each case by the call that it makes, and
each number under the name of its column."""

import re
import sys

from pages.texts import TOP, held, lines_of, rows_of, text_of

sys.path += [str(TOP / "bindings"), str(TOP / "bindings/generator")]

import entries
import in_site
import reference

ENTRIES, SITE, FOLDER = "bindings/entries.py", "bindings/generator/in_site.py", "docs/dev/performance"
LETTERS = "crates/call_table/specs/Letters.antt"

# where the cases are made that measured.txt has under these headings
CASES = {"elementwise": "element_calls", "scans": "scan_calls", "permutes": "permute_calls", "packs": "pack_calls"}
PROGRAMS = f"{FOLDER}/program_calls.cpp"

# what the columns of a page are in the file of what was measured; of several the least
COLUMNS = {"1 thread": "1 worker|1 thread", "4 threads": "4 workers|4 threads", "Loop": "loop|loop without a branch"}


def without_kind(name):
    """The name of a function for integers or booleans as that of both."""
    return re.sub(r"_(?:int|bool)$", "", name)


def family_of(function, crate):
    """The name of the family that a kernel is of."""
    end = function.removeprefix("seg_").removesuffix("_into")
    if "permutes" in crate:
        return function[: len(function.removesuffix("_into")) - len(end)] + ("permute" if end == "simple" else f"{end}_permute")
    return without_kind({"count_true": "count"}.get(function, function.replace("checked_seg_", "seg_checked_")))


def operators():
    """The operator of each variant of the source, as rows have it."""
    return {name: letters.upper() for name, letters in re.findall(r'_label (\w+) = label \(codes "(\w+)"\)', text_of(LETTERS))}


def measured_calls(subject):
    """The call that each case of a heading makes: its family, and its operator if that has some."""
    text, known = text_of(f"crates/measured_calls/src/{CASES[subject]}.rt"), operators()
    imported = re.findall(r"^use (\w+)::\{([^}]*)\};", text, re.M)
    crates = {name.strip(): crate for crate, names in imported for name in names.split(",")}
    # a variable that holds an operator
    variables = {name: variant for name, variant in re.findall(r"let (\w+) = .*?::(\w+)\)?;", text) if variant in known}
    for case, function, given in re.findall(r'"([a-z][\w ]*)",\s*(?:match |i32::try_from\()?(\w+)\(([^()]*)\)', text):
        words = [variables.get(word.strip(), word.strip().rpartition("::")[2]) for word in given.split(",")]
        takes = [known[word] for word in words if word in known]
        yield case, (family_of(function, crates[function]), takes[0] if takes else None)


def check_cases():
    """The page of a call has each case that makes it, and no other; a function has each case of the programs."""
    rows = [*in_site.PERFORMANCE.ROWS, *in_site.PERFORMANCE.MORE_ROWS]
    made = {(subject, case): call for subject in CASES for case, call in measured_calls(subject)}
    of_scripts = [entry for _, _, section in reference.of_scripts() for entry in section]
    calls = {(without_kind(row.family.name), row.operator): entry.name for entry in of_scripts for row in entry.rows}
    wanted = [f"{calls[made[subject, case]]}: {label}" for subject, case, _, _, label in rows]
    shown = [f"{entry.name}: {label}" for entry in of_scripts for label in entry.said.costs]
    yield from held(ENTRIES, "crates/measured_calls/src", sorted(shown), sorted(wanted))
    beside = [entry for _, _, section in reference.beside() for entry in section]
    functions = {without_kind(row.name): entry.name for entry in beside for row in entry.rows}
    wanted = [f"{functions[without_kind(function)]}: {case}" for case, function in program_calls()]
    shown = [f"{entry.name}: {case}" for entry in beside for case, _ in program_calls() if case.startswith(begins(entry))]
    yield from held(ENTRIES, PROGRAMS, sorted(shown), sorted(wanted))


def begins(entry):
    """How the cases begin that the page of an entry has."""
    return tuple(entries.COSTS.get(entry.name, ()))


def program_calls():
    """Each case of the programs, once, with the function that it measures: that behind the longest words with which it begins."""
    named = re.findall(r'measure\(\s*"([^"]*)".*?must\(cvl_(\w+)\(', text_of(PROGRAMS), re.S)
    cases = dict.fromkeys(line.rsplit(", ", 1)[0] for line in measured_lines("calls for programs"))
    for case in cases:
        yield case, max((words, function) for words, function in named if case.startswith(words))[1]


def measured_lines(subject):
    """The times under a heading, by what was measured of how many elements."""
    found, inside = {}, False
    for line in lines_of(f"{FOLDER}/measured.txt"):
        if line.startswith("# "):
            inside = line.startswith(f"# {subject}, in ")
        elif inside:
            case, _, times = line.partition(": ")
            found[case.removesuffix(" elements")] = times
    return found


def shown_times(times, what, length):
    """A row of a page, each number under the name of its column, and marked if it was far worse in another turn; none if the loop or
    four threads were not measured."""
    found = {column: re.findall(rf"(?:^|, )(?:{words}) ([\d.]+)(~?)", times) for column, words in COLUMNS.items()}
    if not found["4 threads"] or not found["Loop"]:
        return []
    best = {column: min((float(time), mark) for time, mark in times) for column, times in found.items()}
    cells = {
        column: mark + (f"{time / 1000:.1f}" if time < 10_000 else f"{time / 1000:,.0f}") for column, (time, mark) in best.items()
    }
    (four, unsteady), (loop, also) = best["4 threads"], best["Loop"]
    share = f"{max(unsteady, also)}{four / loop:.2f}"
    return [{"Call": what, "Elements": f"{int(length):,}", **cells, "4 threads / loop": share}]


def wanted_times(entry):
    """The rows that the page of an entry should have."""
    if not entry.said:
        for case, times in measured_lines("calls for programs").items():
            what, _, length = case.rpartition(", ")
            if what.startswith(begins(entry)):
                yield from shown_times(times, what, length)
        return
    for subject, case, segment, words, label in [*in_site.PERFORMANCE.ROWS, *in_site.PERFORMANCE.MORE_ROWS]:
        measured = measured_lines(subject) if label in entry.said.costs else {}
        for length in (1_000, 65_536, 4_194_304) if measured else ():
            segments = -(-length // segment) if segment else 1
            yield from shown_times(measured[f"{case}, {length} elements, {segments} segments{words}"], label, length)


def check_times():
    """The numbers of each page are those that were measured, under the names of their columns."""
    for entry in (entry for _, _, section in [*reference.of_scripts(), *reference.beside()] for entry in section):
        part = in_site.entry_page(entry).partition("## What it costs\n")[2].partition("\n## ")[0]
        cells = [row for row in rows_of(part.splitlines()) if row[0] != "---"]
        shown = [str(dict(zip(cells[0], row))) for row in cells[1:]]
        yield from held(f"{SITE}, its page calls/{entry.name}.md", FOLDER, shown, [str(row) for row in wanted_times(entry)])

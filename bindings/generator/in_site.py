"""What is written of the calls for the site: a page for each entry of the reference, one for each section, and the index."""

import functools
import importlib.machinery
import importlib.util
import pathlib
import re
import sys

import about
import elsewhere
import entries
import in_c
import in_calls
import in_python
import reference
import rows
import signatures
import table

TOP = pathlib.Path(__file__).resolve().parent.parent.parent
FOLDER = "calls"
HIGHLIGHTED = {"Script": "none", "C": "c", "C++": "cpp", "Python": "python", "Rust": "rust", "Fortran": "fortran"}
CLASSES = {"Script": "script", "C": "c", "C++": "cpp", "Python": "python", "Rust": "rust", "Fortran": "fortran"}


def _measured():
    """The program that writes the tables of performance, as a module."""
    folder = TOP / "docs/dev/performance"
    sys.path.append(str(folder))  # where its own modules are
    loader = importlib.machinery.SourceFileLoader("drawn_performance", str(folder / "draw"))
    module = importlib.util.module_from_spec(importlib.util.spec_from_loader(loader.name, loader))
    loader.exec_module(module)
    return module


PERFORMANCE = _measured()


def slug(title):
    return re.sub(r"[^a-z0-9 _-]", "", title.lower()).replace(" ", "-")


def _capital(text):
    return f"{text[0].upper()}{text[1:]}"


def _code(language, text):
    return f"```{HIGHLIGHTED.get(language, language)}\n{text}\n```"


def _signature(language, text):
    return f'<div class="signature {CLASSES[language]}"><p>{language}</p>\n\n{_code(language, text)}\n\n</div>'


def _signatures(found):
    """Declarations beside one another."""
    inside = "\n\n".join(_signature(language, text) for language, text in found.items())
    return f'<div class="signatures">\n\n{inside}\n\n</div>'


def _in_words(text):
    """A sentence of the table in Markdown, with the names of C as code."""
    text = text.replace("*", "\\*")
    return re.sub(r"(?<![\w`])(cvl_\w+|CVL_[A-Z_0-9]+|Cvl[A-Z]\w+|\w+_len)(?![\w`])", r"`\1`", text)


def _call(row):
    """A call or a function, under its name: what it does, and its example."""
    said = [row.sentences]
    if row.example:
        said += [f"`{in_c.example_text(row)}`"]
    names = (
        f"`cvl_{row.name}` in C and Fortran, `cvl::{row.name}` in C++ and Rust, `cvl.{row.name}` in Python"
        if row.call
        else f"`cvl_{row.name}`"
    )
    body = "\n\n".join([_in_words(said[0]), *said[1:], names])
    return f"```{{call}} {row.name}\n{body}\n```"


def _of_script(name, entry):
    """A call that only scripts have."""
    return f"```{{call}} {name}\n{entry.said.said}\n```"


def _times(entry):
    """Each measured case of an entry: what it is, its number of elements, and its times in nanoseconds by threads and as a plain loop."""
    for row in [*PERFORMANCE.ROWS, *PERFORMANCE.MORE_ROWS]:
        if entry.said and row[4] in entry.said.costs:
            for length in PERFORMANCE.LENGTHS:
                times = PERFORMANCE.times_of(row, length)
                yield row[4], length, times.get("1 worker"), times.get("4 workers"), PERFORMANCE.loop_of(times)
    if not entry.said:
        begins = tuple(entries.COSTS.get(entry.name, ()))
        for (subject, case), times in PERFORMANCE.program_tables.ROWS.items():
            found = PERFORMANCE.program_tables.CASE.fullmatch(case)
            if subject == "calls for programs" and found and begins and found[1].startswith(begins):
                yield found[1], int(found[2]), times.get("1 thread"), times.get("4 threads"), times.get("loop")


def _costs(entry):
    """A table of the entry's times beside those of a plain loop."""
    lines = [
        [what, f"{length:,}", *map(PERFORMANCE.micros, (alone, four, loop)), PERFORMANCE.marked(f"{four / loop:.2f}", four, loop)]
        for what, length, alone, four, loop in _times(entry) if four and loop
    ]  # fmt: skip
    if not lines:
        return []
    shown = PERFORMANCE.table(["Call", "Elements", "1 thread", "4 threads", "Loop", "4 threads / loop"], lines)
    intro = "Microseconds, beside a plain loop in C++ on one thread, without a branch if that is faster; [Performance](../performance.md) has the machine and the other calls."
    intro += " `~` marks a time that was a fifth worse in another turn." * ("~" in shown)
    return ["## What it costs", intro, shown.rstrip()]


def _faults(entry):
    found = [f"**Faults in a script:** {entry.faults}"] if entry.said else []
    row = entry.rows[0] if entry.rows else None
    if row:
        found.append(
            f"**Faults in C, C++, Python, Rust and Fortran:** {_in_words(rows.fault_text(row)) or 'those of [all calls](all-calls.md).'}"
        )
        found.append(f"**In place:** {rows.in_place_words(row.family) or 'no, 102 Overlap.'}")
    return found


def _example_in_python(row):
    code, wanted = in_python._example(signatures._function_of_python(row))
    return "\n".join([">>> import cvl, numpy", *(f">>> {line}" for line in code), wanted])


def _examples(entry):
    found = []
    if entry.said:
        script, text = entry.example
        found += ["In a script:", _code("Script", script), "writes", _code("Script", text), *in_calls.shows(entry)]
    if entry.rows and entry.rows[0].example:
        found += ["In Python:", _code("Python", _example_in_python(entry.rows[0]))]
    return ["## Example", *found] if found else []


@functools.lru_cache
def _homes():
    """On which page each family is described: that of the first entry that has it."""
    found = {}
    for _, _, section in reference.of_scripts():
        for entry in section:
            for row in entry.families:
                found.setdefault(row.name, entry.name)
    return found


def _of_families(entry):
    """The functions that make all calls of one kind, by the number of an operator, for calls that have names of their own."""
    families = [row for row in entry.families if entry.rows[0].call]
    if not families:
        return []
    said = "C makes these calls by one function, too, which takes the number of elements behind each array"
    said += " and first the number of an operator:" if families[0].family.operators else ":"
    own = [
        f"```{{call}} {row.name}\n{_in_words(row.family.sentence)}\n\n`{signatures.of_c(row)}`\n```"
        for row in families
        if _homes()[row.name] == entry.name
    ]
    others = [f"[`cvl_{row.name}`]({_homes()[row.name]}.md)" for row in families if _homes()[row.name] != entry.name]
    return ["## The family in C", said, *own, *([" ".join(others)] if others else [])]


def _see_also(entry):
    found = in_calls.also(entry, reference.of_scripts(), lambda other: f"{other.name}.md")
    return [f"See also: {found}."] if found else []


def _elsewhere(entry):
    """What its calls are elsewhere; the search finds the entry by each of these names, and the list of all names has them."""
    found = elsewhere.said(entry.calls, lambda word: f"`{word}`")
    index = ", ".join(elsewhere.searched(entry.calls))
    links = ", ".join(f"[{title}](../tasks.md#{elsewhere.anchor(title)})" for title in elsewhere.tasks(entry.calls))
    shown = [*([f"**Elsewhere:** {found}"] if found else []), *([f"**Used to:** {links}."] if links else [])]
    return [*([f"```{{index}} {index}\n```"] if index else []), "\n\n".join(shown)] if shown else []


def entry_page(entry):
    """The page of an entry."""
    title = _capital(entry.title)
    calls = [_call(row) for row in entry.rows] or [_of_script(name, entry) for name in entry.calls]
    said = entry.said.said if entry.said else _in_words(entry.rows[0].sentences)
    lengths = [f"**Lengths that must agree:** {entry.agree}."] if entry.said and entry.agree else []
    what = [f"**Takes:** {entry.takes}. **Gives:** {entry.gives}."] if entry.said else []
    pictures = [text.replace("](pictures/", "](../pictures/") for text in in_calls.picture(entry)]
    parts = [
        f"# {title}",
        _names(entry),
        said,
        *_elsewhere(entry),
        *pictures,
        _signatures(signatures.of_entry(entry)),
        "## Lengths and faults",
        *what,
        *lengths,
        *_faults(entry),
        *_examples(entry),
        *_costs(entry),
        "## Calls",
        *calls,
        *_of_families(entry),
    ]
    return "\n\n".join([*parts, *_see_also(entry)]) + "\n"


def _toctree(names, caption=""):
    head = f":hidden:\n{':caption: ' + caption if caption else ''}".rstrip()
    return f"```{{toctree}}\n{head}\n\n" + "\n".join(names) + "\n```"


def _intro(said):
    """What stands before the entries of a section."""
    if isinstance(said, str):
        return (
            [said.replace("](mistakes.md", "](../mistakes.md").replace("](#checked-sums)", "](checked-sums.md)")] if said else []
        )
    found = []
    for paragraph in said:
        item = re.match(r"  (?:(\d)\. |- )", paragraph)
        found.append(_in_words(f"{item[1]}. {paragraph[item.end():]}" if item and item[1] else paragraph.strip()))
    return ["\n\n".join(found)]


def _names(entry):
    """Its calls, each with a link."""
    return " ".join(f"{{call}}`{name}`" for name in entry.calls)


def _index(found):
    """A table of entries: their calls, and what these give."""
    lines = [f"| {_names(entry)} | {entry.title} |" for _, _, section in found for entry in section]
    return "\n".join(["| Calls | What they give |", "|---|---|", *lines])


def section_page(title, said, found):
    return (
        "\n\n".join([f"# {title}", *_intro(said), _index([(title, "", found)]), _toctree([entry.name for entry in found])]) + "\n"
    )


# ---- what all calls from C share ----


def _shown(paragraphs):
    """Paragraphs and lists of a page."""
    found = []
    for k, paragraph in enumerate(paragraphs):
        item = re.match(r"  (- |\d\. )", paragraph)
        if k and not (item and paragraphs[k - 1].startswith("  ")):
            found.append("")
        found.append(_in_words(paragraph[2:] if item else paragraph))
    return "\n".join(found)


def _constants():
    statuses = "\n".join(f"| {number} | `CVL_{in_c.constant(name)}` | {name} |" for number, name in table.STATUSES)
    operators = "\n".join(f"| {found.number} | `CVL_{found.name}` | {found.sentence} |" for found in table.OPERATORS)
    return [
        _code("C", about.STATUS_TYPE),
        f"| Number | Constant | Name |\n|---|---|---|\n{statuses}",
        _code("C", about.LENGTHS_TYPE),
        f"`CVL_MOST_ELEMENTS` is {table.MOST_ELEMENTS}, `CVL_MOST_OF_TEXT` {table.MOST_OF_TEXT}, and `CVL_MOST_STACK` {table.MOST_STACK}. The operators:",
        f"| Number | Constant | What it gives |\n|---|---|---|\n{operators}",
    ]


def _functions(found):
    return [
        f"```{{call}} {name.removeprefix('cvl_')}\n{_in_words(' '.join(said))}\n\n`{signatures.MARKS.sub('', declared)}`\n```"
        for name, said, declared in found
    ]


def shared_pages():
    """The pages of what all calls from C share, of threads and of descriptors."""
    families = [
        (f"cvl_{in_c.segments_name(row)}", (row.family.sentence,), in_c.segments_declaration(row)) for row in in_c.on_segments()
    ]
    pages = {
        "all-calls": ("What all calls share", [_shown(about.ABOUT[2:]), "## Types and numbers", *_constants(), "## The version, and the names of faults",
                                               *_functions(about.OF_VERSIONS), "## Booleans that are neither 0 nor 1", *_functions(about.OF_FLAGS),
                                               "## Indices of 64 bits", *_functions(about.OF_INDICES)]),
        "threads": ("Threads", [_shown(about.THREADS), "## Functions", *_functions(about.OF_THREADS), "[Calls in parts](../parallel.md) has pools of your own."]),
        "descriptors-in-c": ("Descriptors in C", [_shown(about.DESCRIPTORS), _code("C", about.SEGMENTS_TYPE), "## Functions", *_functions((*about.OF_DESCRIPTORS, *families))]),
    }  # fmt: skip
    return {f"{FOLDER}/{name}.md": "\n\n".join([f"# {title}", *parts]) + "\n" for name, (title, parts) in pages.items()}


def leads():
    """Where a link to a heading of `calls.md` leads on the site: each heading's page."""
    found = {in_calls.anchor(entry): f"{FOLDER}/{entry.name}.md" for _, _, section in reference.of_scripts() for entry in section}
    return {
        **found,
        **{slug(title): f"{FOLDER}/{slug(title)}.md" for title, _, _ in reference.of_scripts()},
        "functions-that-no-script-calls": "calls.md",
    }


def index_page():
    """The index of all calls, in the place of `calls.md`."""
    scripts, beside = reference.of_scripts(), reference.beside()
    shared = [f"{FOLDER}/all-calls", f"{FOLDER}/threads", f"{FOLDER}/descriptors-in-c"]
    head = in_calls.HEAD.split("\n\n")
    parts = [
        head[0], "Look up any call: how you write it in each language, what it takes and gives, its faults, an example, and its cost beside a loop. "
        "The [glossary](glossary.md) goes by the names of other libraries; the search finds each call by its name and by those.",
        "## Index", _index(scripts), "## Beside the calls of scripts",
        "C, C++, Fortran, Python and Rust have more functions:", _index(beside),
        "C has in addition [what all calls share](calls/all-calls.md), [threads](calls/threads.md) and [descriptors](calls/descriptors-in-c.md).",
        in_calls.READING.replace("`script.md`", "[Scripts](script.md)"),
        _toctree([*(f"{FOLDER}/{slug(title)}" for title, _, _ in (*scripts, *beside)), *shared]),
    ]  # fmt: skip
    return "\n\n".join(parts) + "\n"


def pages():
    """Each page of the reference, by its path on the site."""
    found = {"calls.md": index_page(), **shared_pages()}
    for title, said, section in [*reference.of_scripts(), *reference.beside()]:
        found[f"{FOLDER}/{slug(title)}.md"] = section_page(title, said, section)
        found.update({f"{FOLDER}/{entry.name}.md": entry_page(entry) for entry in section})
    return found

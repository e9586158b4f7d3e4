"""The names that calls have elsewhere: the lists of the glossary, and what each entry of the reference says of them."""

import functools
import pathlib
import re

import foreign
import reference

TOP = pathlib.Path(__file__).resolve().parent.parent.parent
GLOSSARY, TASKS = "docs/user/glossary.md", "docs/user/tasks.md"

BEGIN, END = "<!-- written: names -->\n", "<!-- end -->\n"


def words(names):
    """The names of a row, one by one."""
    return names.words.split("  ")


def answers(names):
    """The calls of a row: each answer's."""
    return [answer.split() for answer in names.calls.split(" | ")]


@functools.lru_cache
def entries_of_calls():
    """The entry of each call, by its name in a script, or of a function."""
    sections = (*reference.of_scripts(), *reference.beside())
    return {name: entry for _, _, found in sections for entry in found for name in entry.calls}


def anchor(title):
    return re.sub(r"[^a-z0-9 _-]", "", title.lower()).replace(" ", "-")


def name_of(call):
    """A call as a page has it: those of programs with the prefix that they have in C."""
    return call if entries_of_calls()[call].said else f"cvl_{call}"


# ---- the glossary ----


def _as_code(name):
    return f"`{name}`"


def _answer(names):
    """The calls of a row, with a link to their lines or to the first one's entry, and how they differ."""
    shown = " or ".join(", ".join(f"`{name_of(call)}`" for call in calls) for calls in answers(names))
    entry = entries_of_calls()[answers(names)[0][0]]
    if names.task:
        shown = f"[{shown}](tasks.md#{anchor(names.task)})"
    elif entry.said:
        shown = f"[{shown}](calls.md#{entry.heading.replace(' ', '-')})"
    return shown + (f"; {names.note}" if names.note else "")


def _list(library, found):
    source, rows = found
    is_plain = library == next(iter(foreign.LIBRARIES))
    lines = [f"- {', '.join(words(names) if is_plain else map(_as_code, words(names)))}: {_answer(names)}" for names in rows]
    intro = [f"{source[0].upper()}{source[1:]}.\n"] if source else []
    return "\n".join([f"## {library}\n", *intro, *lines])


def lists():
    return "\n\n".join(_list(library, found) for library, found in foreign.LIBRARIES.items())


def glossary():
    """The glossary, with its lists of names."""
    before, begin, rest = (TOP / GLOSSARY).read_text().partition(BEGIN)
    return f"{before}{begin}\n{lists()}\n\n{END}{rest.partition(END)[2]}"


# ---- the entries ----


@functools.lru_cache
def _of_calls():
    """What each call answers, by its name: the library, its names, and the calls that help."""
    found = {}
    for library, (_, rows) in foreign.LIBRARIES.items():
        for names in rows:
            for first, *others in answers(names):
                found.setdefault(first, []).append((library, words(names), others))
    return found


def searched(calls):
    """By which words one looks for these calls, each once: those that begin with a letter."""
    found = dict.fromkeys(word for call in calls for _, there, _ in _of_calls().get(call, ()) for word in there)
    return [word for word in found if re.fullmatch(r"[A-Za-z][\w .-]*", word)]


def tasks(calls):
    """The tasks that begin with these calls, each once."""
    rows = [names for _, found in foreign.LIBRARIES.values() for names in found if names.task]
    return list(dict.fromkeys(names.task for names in rows if {first for first, *_ in answers(names)} & {*calls}))


def said(calls, code=str, name=name_of):
    """What these calls are elsewhere, in one sentence, or nothing."""
    plain, found = next(iter(foreign.LIBRARIES)), {}
    for call in calls:
        for library, there, others in _of_calls().get(call, ()):
            shown = ", ".join(map(str if library == plain else code, there))
            found.setdefault(library, {})[f"{shown} (with {', '.join(map(name, others))})" if others else shown] = True
    shown = [", ".join(rows) if library == plain else f"{library} {', '.join(rows)}" for library, rows in found.items()]
    return f"{'; '.join(shown)}." if shown else ""


# ---- what differs ----


def differences():
    """Rows that name no call, or no task."""
    headings = re.findall(r"^### (.*)$", (TOP / TASKS).read_text(), re.M)
    for library, (_, rows) in foreign.LIBRARIES.items():
        for names in rows:
            for call in (call for answer in answers(names) for call in answer):
                if call not in entries_of_calls():
                    yield f"bindings/foreign.py names {call} for {names.words} of {library}, which is no call"
            if names.task and names.task not in headings:
                yield f"bindings/foreign.py leads to {names.task}, which is no task of {TASKS}"

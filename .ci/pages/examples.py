"""What pages show against the cases and the files that it comes of: scripts with their texts and stops, runs of the program, and code."""

import re

from pages.paths import anchors_of
from pages.texts import CASES, TOP, blocks_of, held, indented_behind, lines_of, text_of

# pages whose examples are the cases of a file
PAGES_OF_CASES = {"calls": "reference", "segments": "segments", "mistakes": "mistakes", "tutorial": "tutorial", "tasks": "tasks"}

# the tasks that users look for, the program that has their lines in C, and the page that leads to each
TASKS, TASKS_IN_C, FINDER = "docs/user/tasks.md", "examples/c/tasks.c", "docs/user/README.md"

PAGES_WITH_RUNS = ("README.md", "docs/user/README.md", "docs/user/examples.md")

PAGES_WITH_CODE = (
    "README.md",
    "docs/dev/embedding.md",
    *(f"docs/user/{name}.md" for name in ("cpp", "parallel", "programs", "python", "segments")),
)

EMBEDDING = "crates/embedding"


def cases_of(file):
    """The cases of a file without their inputs and tiles, in a form that pages are brought to as well: a line for each part, then
    what it holds. What explains a stop stands right below it: all of the first explanation of a file, and the last line of the others.
    """
    lines, shown, part, is_first = lines_of(file), [], "", True
    for line, below in zip(lines, [*lines[1:], "== "]):
        if line.startswith("== "):
            is_first = is_first and part != "explained"
            part = line.split()[1]
            if part == "case":
                shown.append(line)
            elif part in ("script", "text", "stop"):
                shown.append(f"== {part}")
        elif part in ("script", "text", "stop") or part == "explained" and (is_first or below.startswith("== ")):
            shown.append(line)
    return shown


def examples_of(page):
    """The examples of a page: under a heading the first block of no other language is a script, and those below `writes` and `stops
    with` are its text and its stop."""
    blocks = {number: (language, block) for language, number, block in blocks_of(page)}
    inside = {number + k for number, (_, block) in blocks.items() for k in range(1, len(block) + 1)}
    shown, heading, part = [], "", ""
    for number, line in enumerate(page):
        if number in inside:
            continue
        if line.startswith("## "):
            heading = ""
        elif line.startswith("### "):
            heading, part = line, "script"
        elif line in ("writes", "stops with"):
            part = "text" if line == "writes" else "stop"
        elif number in blocks and blocks[number][0] == "" and heading and part:
            shown += [f"== case {heading}"] if part == "script" else []
            shown += [f"== {part}", *blocks[number][1]]
            part = ""
    return shown


def check_examples():
    """The examples of docs/user/calls.md, segments.md, mistakes.md, tutorial.md and tasks.md are the cases of their files."""
    for name, cases in PAGES_OF_CASES.items():
        page, file = f"docs/user/{name}.md", f"{CASES}/{cases}.cases"
        wanted = [line.replace("== case ", "== case ### ", 1) if line.startswith("== case ") else line for line in cases_of(file)]
        yield from held(page, file, examples_of(lines_of(page)), wanted)


def runs_of(page):
    """Each run of a page: the words of its line `cvl ..`, what the page says that it prints, and the script before it, if one is."""
    command, waits, printed, block = "", "", [], []
    blocks = {number + 1: (len(lines), [] if language else lines) for language, number, lines in blocks_of(page)}
    skipped = 0
    for number, line in enumerate([*page, ""]):
        if number in blocks:
            skipped, block = blocks[number]
        if skipped:
            skipped -= 1
        elif found := re.fullmatch(r"    (?:\./)?cvl (.*)", line):
            command, waits, printed = found[1], "prints", []
        elif waits and re.fullmatch(r" *(and )?prints", line):
            waits = "text"
        elif waits == "text" and line.startswith("    "):
            printed.append(line[4:])
        elif waits == "text" and printed:
            yield command.split(), printed, block
            waits, block = "", []


def text_of_run(words):
    """The text of the first case of these files of the examples: a script and its inputs."""
    for case in text_of(f"{CASES}/examples.cases").split("\n== case ")[1:]:
        parts = [part.split("\n") for part in case.split("\n== ")[1:]]
        named = {"script": [], "input": []}
        for head, *_ in parts:
            word, _, file = head.partition(" ")
            if file.startswith("examples/"):
                named[word].append(file.removeprefix("examples/"))
        if named["script"] + named["input"] == words:
            return next(([line for line in lines if line] for head, *lines in parts if head == "text"), [])
    return []


def check_runs():
    """What a page says that a run prints is the text of the case of that script and those inputs, and the block before it stands in the
    script's file."""
    for page in PAGES_WITH_RUNS:
        for words, printed, block in runs_of(lines_of(page)):
            run, script = f"{page}: cvl {' '.join(words)}", f"{CASES}/examples/{words[0]}"
            yield from held(run, f"{CASES}/examples.cases", printed, text_of_run(words))
            yield from stands_in(run, script, block)


def stands_in(page, file, block):
    """The block, where it does not stand in the file."""
    if not (TOP / file).is_file() or "".join(f"{line}\n" for line in block) not in text_of(file):
        yield f"{page}: {file} does not have"
        yield from (f"    {line}" for line in block)


def check_code():
    """Each block of code below a line that names a file stands in that file."""
    for path in PAGES_WITH_CODE:
        page = lines_of(path)
        named, last = "", 0
        for _, number, block in blocks_of(page):
            for line in page[last:number]:
                file = re.fullmatch(r"`((?:crates|examples)/.*)`", line)
                named = file[1] if file else named
            if named:
                yield from stands_in(path, named, block)
            named, last = "", number + len(block) + 2


def check_tasks():
    """The lines in C of each task stand in the program that runs them; and the finder leads to each task, and names calls of it."""
    page, finder = lines_of(TASKS), text_of(FINDER)
    for language, _, block in blocks_of(page):
        if language == "c":
            yield from stands_in(TASKS, TASKS_IN_C, [f"    {line}" for line in block])
    sections = dict(part.partition("\n")[::2] for part in text_of(TASKS).split("\n### ")[1:])
    shown = dict(re.findall(r"^\| \[([^]]+)\]\(tasks\.md#[\w-]+\) \| (.*) \|$", finder, re.M))
    yield from held(FINDER, TASKS, list(shown), list(sections))
    for title, calls in shown.items():
        for name in re.findall(r"`(?:cvl_)?(\w+)`", calls):
            if name not in sections.get(title, ""):
                yield f"{FINDER} names {name} for the task {title}, and {TASKS} does not"


def scripts_of(path):
    """The headings of a page, as a link names them, below which a script is run: a case of the page's file, or a run of the program."""
    name, found, above = path.removeprefix("docs/user/").removesuffix(".md"), set(), {}
    cases = cases_of(f"{CASES}/{PAGES_OF_CASES[name]}.cases") if name in PAGES_OF_CASES else []
    for line in lines_of(path):
        mark, _, heading = line.partition(" ")
        run = re.fullmatch(r" {4}cvl (.*)", line) if path in PAGES_WITH_RUNS else None
        if mark in ("##", "###"):
            above = {**(above if mark == "###" else {}), mark: line}
        if mark == "###" and f"== case {heading}" in cases or run and text_of_run(run[1].split()):
            found |= anchors_of(above.values())
    return found


def check_scripts():
    """Each task has a script of its own, or leads behind `Script:` to scripts; and each of these is run."""
    own = {line.removeprefix("== case ### ") for line in examples_of(lines_of(TASKS))}
    for section in text_of(TASKS).split("\n### ")[1:]:
        title = section.partition("\n")[0]
        links = [
            link
            for line in re.findall(r"Script[^:\n]*: (.*)", section)
            for link in re.findall(r"\]\(([\w-]+\.md)(#[\w-]+)\)", line)
        ]
        if title not in own and not links:
            yield f"{TASKS} has no script for the task {title}"
        for page, heading in links:
            if heading not in scripts_of(f"docs/user/{page}"):
                yield f"{TASKS} leads for the task {title} to {page}{heading}, below which no script is run"


def check_blocks():
    """Each block of Rust on docs/dev/embedding.md stands below the name of its file, so that `check_code` compares it."""
    page, last = lines_of("docs/dev/embedding.md"), 0
    for language, number, block in blocks_of(page):
        if language == "rust" and not any(re.fullmatch(r"`crates/.*`", line) for line in page[last:number]):
            yield f"docs/dev/embedding.md:{number + 1} this block is below no name of a file"
        last = number + len(block) + 2


def check_embedding():
    """What docs/dev/embedding.md says that its program prints, and the line of crates.txt, are the crate's."""
    page = lines_of("docs/dev/embedding.md")
    yield from held(
        "docs/dev/embedding.md",
        f"{EMBEDDING}/stdout",
        indented_behind(page, "## What it prints"),
        lines_of(f"{EMBEDDING}/stdout"),
    )
    shown, wanted = (
        [line.strip() for line in lines if line.strip().startswith("embedding: ")] for lines in (page, lines_of("crates.txt"))
    )
    yield from held("docs/dev/embedding.md", "crates.txt", shown, wanted)


def cases_with_inputs(file):
    """Each case of a file: its name, the lines of its script, and those of its inputs that stand in the file, by their numbers."""
    name, script, inputs, part = "", [], {}, None
    for line in [*lines_of(file), "== case "]:
        if line.startswith("== case "):
            if script:
                yield name, script, inputs
            name, script, inputs, part = line.removeprefix("== case "), [], {}, None
        elif line.startswith("== "):
            words = line.split()
            part = None
            if words[1] == "script":
                part = script
            elif words[1] == "input":
                inputs[len(inputs) + 1] = None if words[2:] else (part := [])
        elif part is not None:
            part.append(line)


def check_inputs():
    """A comment after `input` or `nested` in an example says what that input of its case holds."""
    for cases in PAGES_OF_CASES.values():
        file = f"{CASES}/{cases}.cases"
        for name, script, inputs in cases_with_inputs(file):
            for line in script:
                said = re.search(r"= (?:input|nested) ([0-9]+) +# ([-0-9\[\] ]+)$", line)
                if said and inputs.get(int(said[1])) is not None:
                    yield from held(
                        f"{file}: {name}: {line}", "its input", said[2].split(), " ".join(inputs[int(said[1])]).split()
                    )


def check_session():
    """The session in the shell on docs/user/tutorial.md makes the inputs of the first case, and prints its text."""
    page, file = "docs/user/tutorial.md", f"{CASES}/tutorial.cases"
    _, _, inputs = next(cases_with_inputs(file))
    session = next(block for language, _, block in blocks_of(lines_of(page)) if language == "console")
    made = [words[1] for line in session if (words := re.fullmatch(r"\$ echo (.*) > \w+\.txt", line))]
    yield from held(page, file, made, [" ".join(lines) for lines in inputs.values()])
    text = next(block for number, block in enumerate(cases_of(file)) if cases_of(file)[number - 1] == "== text")
    yield from held(page, file, [line for line in session if not line.startswith("$ ")], [text])

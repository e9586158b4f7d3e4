"""Files of the repository as lines, and how two lists of lines that should be the same are told where they differ."""

import difflib
import pathlib

TOP = pathlib.Path(__file__).resolve().parent.parent.parent

CASES = "crates/script_cases/data"


def text_of(path):
    return (TOP / path).read_text()


def lines_of(path):
    return text_of(path).splitlines()


def held(page, source, shown, wanted):
    """The difference of what a page shows and what its source has, as lines."""
    if shown != wanted:
        yield f"{page}:"
        yield from (f"    {line}" for line in difflib.unified_diff(shown, wanted, page, source, lineterm=""))


def blocks_of(page):
    """Each block of a page between two lines of three backquotes: the words behind the first of these, the number of the line on which
    it stands, counted from 0, and the block's lines."""
    first = None
    for number, line in enumerate(page):
        if not line.startswith("```"):
            continue
        if first is None:
            first = number
        else:
            yield page[first][3:], first, page[first + 1 : number]
            first = None


def outside_blocks(page):
    """The lines of a page that stand in no such block, each with its number, counted from 1."""
    inside = False
    for number, line in enumerate(page, 1):
        if line.startswith("```"):
            inside = not inside
        elif not inside:
            yield number, line


def indented_behind(page, line):
    """The lines of four blanks, and the empty ones between them, behind one line of a page and the empty one that follows it."""
    block = []
    for shown in page[page.index(line) + 1 :]:
        if shown and not shown.startswith("    "):
            break
        block.append(shown[4:])
    while block and not block[-1]:
        block.pop()
    return block[1:] if block and not block[0] else block


def rows_of(page, heading=None):
    """The cells of each row of a page's tables, or of those below a heading."""
    inside = heading is None
    for line in page:
        if heading and line.startswith("## "):
            inside = line == heading
        elif inside and line.startswith("| "):
            yield [cell.strip() for cell in line.strip("|").split("|")]

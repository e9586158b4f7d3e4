"""The tutorial as a notebook: the text of docs/user/tutorial.md, a cell for each of its examples in Python, and the cells of
notebook_costs.py, which plot what calls cost beside numpy.

An example that raises is marked, so that a run goes on after it. What each example gives stands in the cell's metadata, as `wanted`;
tests/languages/test_notebook runs the cells and compares.
"""

import doctest
import json
import pathlib
import re

HERE = pathlib.Path(__file__).resolve().parent
PAGE, COSTS = HERE.parent.parent / "docs/user/tutorial.md", HERE / "notebook_costs.py"

# the page says where the notebook is, and the notebook where the page is
OF_NOTEBOOK = (
    "The same hour is a notebook, `tutorial.ipynb`, with plots of what the calls cost. An installation has it beside this page."
)
OF_PAGE = "This is the page [tutorial.md](tutorial.md) as a notebook. Run a cell by shift and return; plots of what the calls cost follow at its end."


def source_of(text):
    return text.splitlines(keepends=True)


def text_cell(text):
    return {"cell_type": "markdown", "metadata": {}, "source": source_of(text)}


def code_cell(source, metadata):
    return {"cell_type": "code", "execution_count": None, "metadata": metadata, "outputs": [], "source": source_of(source)}


def cells_of_block(block):
    """A cell for each example that gives something, with those before it that give nothing."""
    waiting = ""
    for example in doctest.DocTestParser().get_examples(block):
        waiting += example.source
        if example.exc_msg:
            yield code_cell(waiting.rstrip("\n"), {"tags": ["raises-exception"], "wanted": example.exc_msg.rstrip("\n")})
        elif example.want:
            yield code_cell(waiting.rstrip("\n"), {"wanted": example.want.rstrip("\n")})
        if example.want:
            waiting = ""
    if waiting:
        yield code_cell(waiting.rstrip("\n"), {"wanted": ""})


def cells_of_page(page):
    """The text between the examples of a page, and the cells of these."""
    parts = re.split(r"^```python\n(.*?)^```\n", page.replace(OF_NOTEBOOK, OF_PAGE), flags=re.M | re.S)
    for k, part in enumerate(parts):
        if k % 2 == 1:
            yield from cells_of_block(part)
        elif part.strip():
            yield text_cell(part.strip("\n"))


def cells_of_costs(source):
    """The cells of a file in Python, cut at its lines `# %%`; one marked as text is written as comments."""
    for cell in source.split("# %%")[1:]:
        head, _, body = cell.partition("\n")
        if head.strip() == "[markdown]":
            yield text_cell("\n".join(line.removeprefix("#").removeprefix(" ") for line in body.strip("\n").splitlines()))
        else:
            yield code_cell(body.strip("\n"), {})


def notebook():
    cells = [*cells_of_page(PAGE.read_text()), *cells_of_costs(COSTS.read_text())]
    cells = [{**cell, "id": f"cell-{number}"} for number, cell in enumerate(cells)]
    kernel = {"display_name": "Python 3", "language": "python", "name": "python3"}
    return {
        "cells": cells,
        "metadata": {"kernelspec": kernel, "language_info": {"name": "python"}},
        "nbformat": 4,
        "nbformat_minor": 5,
    }


def text():
    """The notebook's file."""
    return json.dumps(notebook(), indent=1, ensure_ascii=False, sort_keys=True) + "\n"

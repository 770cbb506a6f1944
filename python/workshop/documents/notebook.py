"""docs/experiment.ipynb: the tutorial of docs/python.md as a notebook, with what each cell prints.

`./check python` runs the lines of the tutorial, and the notebook too where Jupyter's packages are installed.
"""

from __future__ import annotations

import doctest
import json

from workshop.documents import pages
from workshop.parts import ROOT, text_of

PAGE, NOTEBOOK = f"{ROOT}/docs/python.md", f"{ROOT}/docs/experiment.ipynb"
MAP = f"{ROOT}/docs/pictures/replay.svg"
SHOWS = "In a notebook a replay shows itself as a map."
BEGINS, ENDS = "## A tutorial\n", "## The explorer\n"
HEAD = "# An experiment\n\nThe tutorial of [Experiments in Python](python.md). Start Jupyter with `PYTHONPATH=python`, or install [the package](python.md) first."
Cell = dict[str, object]


def lines_of(text: str) -> list[str]:
    """A text as a notebook keeps it: its lines, each with its line feed but the last."""
    return text.splitlines(keepends=True)


def prose(text: str) -> Cell:
    return {"cell_type": "markdown", "metadata": {}, "source": lines_of(text)}


def code(source: str, printed: str) -> Cell:
    """A cell of code with what it prints or gives."""
    output: Cell = {"output_type": "stream", "name": "stdout", "text": lines_of(printed)}
    if not source.split("\n")[-1].startswith("print("):
        output = {"output_type": "execute_result", "execution_count": None, "metadata": {}, "data": {"text/plain": lines_of(printed.rstrip("\n"))}}
    return {"cell_type": "code", "execution_count": None, "metadata": {}, "source": lines_of(source), "outputs": [output] if printed else []}


def map_of_net() -> Cell:
    """A cell that shows the replay of the tutorial. What it shows is kept as a picture, which a test compares with the replay."""
    shown: Cell = {"output_type": "execute_result", "execution_count": None, "metadata": {}, "data": {"image/svg+xml": lines_of(text_of(MAP))}}
    return {"cell_type": "code", "execution_count": None, "metadata": {}, "source": ["net"], "outputs": [shown]}


def tutorial() -> str:
    """The section of the page."""
    return text_of(PAGE).split(BEGINS, 1)[1].split(ENDS, 1)[0]


def cells() -> list[Cell]:
    """The cells: what is between the lines with `>>>`, and these, up to one that prints something."""
    found, waiting = [prose(HEAD)], ""
    for part in doctest.DocTestParser().parse(tutorial()):
        if isinstance(part, str):
            if part.strip() and not waiting:
                before, *after = part.strip().partition(SHOWS)
                found += [prose(before + after[0]), *([map_of_net(), prose(after[1].strip())] if after[0] else [])]
            continue
        waiting += part.source
        if part.want:
            found.append(code(waiting.rstrip("\n"), part.want))
            waiting = ""
    return [*found, *([code(waiting.rstrip("\n"), "")] if waiting else [])]


def made() -> str:
    """The notebook."""
    kernel = {"display_name": "Python 3", "language": "python", "name": "python3"}
    whole = {"cells": cells(), "metadata": {"kernelspec": kernel, "language_info": {"name": "python"}}, "nbformat": 4, "nbformat_minor": 4}
    return json.dumps(whole, indent=1, ensure_ascii=False) + "\n"


def write() -> None:
    pages.put(NOTEBOOK, made())


def faults() -> list[str]:
    """Whether the notebook is as it is made."""
    return pages.unlike(NOTEBOOK, made())

"""Runs the cells of a notebook, and compares what each shows with what is stored: python3 -I cells.py [--jupyter] NOTEBOOK

Where the package was installed, so it imports nothing of the repository. With --jupyter a kernel of Jupyter runs them
(nbclient, ipykernel).
"""

from __future__ import annotations

import argparse
import ast
import contextlib
import io
import json
import sys
from importlib import import_module
from typing import Any

SECONDS = 120  # for one cell


def shown_by_python(source: str, names: dict[str, object]) -> str:
    """What a cell prints, and what its last line gives."""
    body = ast.parse(source)
    last = body.body.pop() if isinstance(body.body[-1], ast.Expr) else None
    value: object = None
    with contextlib.redirect_stdout(io.StringIO()) as printed:
        exec(compile(body, "cell", "exec"), names)
        if isinstance(last, ast.Expr):
            value = eval(compile(ast.Expression(last.value), "cell", "eval"), names)
    picture: Any = getattr(value, "_repr_svg_", None)
    last_shown = "" if value is None else str(picture()) if picture else repr(value)
    return printed.getvalue() + last_shown


def shown_in(cell: Any) -> str:
    """What a cell shows: its picture, else its text."""
    found = ""
    for output in cell["outputs"]:
        data = output.get("data", {})
        text = data.get("image/svg+xml") or data.get("text/plain") or output.get("text", "")
        found += text if isinstance(text, str) else "".join(text)
    return found


def run_by_jupyter(cells: list[Any], path: str) -> list[str]:
    """What each cell shows where a kernel runs it."""
    nbclient, nbformat = import_module("nbclient"), import_module("nbformat")
    book = nbformat.read(path, 4)
    nbclient.NotebookClient(book, timeout=SECONDS, kernel_name="python3").execute()
    return [shown_in(it) for it in book.cells if it.cell_type == "code"]


def main() -> int:
    takes = argparse.ArgumentParser(prog="cells.py", description=(__doc__ or "").split("\n\n")[0])
    takes.add_argument("--jupyter", action="store_true", help="by a kernel of Jupyter")
    takes.add_argument("notebook", metavar="NOTEBOOK", help="the file")
    asked = takes.parse_args()
    with open(asked.notebook, encoding="utf-8") as file:
        cells = [it for it in json.load(file)["cells"] if it["cell_type"] == "code"]
    names: dict[str, object] = {}
    if asked.jupyter:
        shown = run_by_jupyter(cells, asked.notebook)
    else:
        shown = [shown_by_python("".join(it["source"]), names) for it in cells]
    for cell, found in zip(cells, shown):
        # (Jupyter breaks long lines)
        if found.split() != shown_in(cell).split():
            difference = "".join(cell["source"]), "shows", found[:500], "in place of", shown_in(cell)[:500]
            print(*difference, sep="\n", file=sys.stderr)
            return 1
    print(len(cells))
    return 0


if __name__ == "__main__":
    sys.exit(main())

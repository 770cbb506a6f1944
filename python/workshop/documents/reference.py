"""docs/reference.md: each public name of the package with a list of its calls, made of their docstrings, whose examples stay there.

The tests in python/tests/test_reference.py run every example. `./check docs` compares the page with what is made.
"""

from __future__ import annotations

import doctest
import inspect
import re
from collections.abc import Iterator
from typing import Any

import dorydate
from workshop.documents import pages
from workshop.parts import ROOT

PAGE = f"{ROOT}/docs/reference.md"
BEGINNING = """two = Network.joined("UCLA-SRI", raw=True)  # its hosts have no programs
net = Replay(two)
net.calm(2)  # each IMP knows the way to the other
pair = Network.joined("UCLA-SRI")
world = Replay(pair)
world.session("UCLA", "SRI")
mixed = Network.joined("UCLA-MINE", foreign=["MINE"])  # MINE runs another program
"""
HEAD = """<!-- made by python/workshop/documents/reference.py: ./check docs --write -->
# The package in Python: reference

[Experiments in Python](python.md) has a tutorial. Here are the public names, and a sentence of each; `help(Replay.cut)` says more, with an example, and so of each other name.
"""
NAMES = [  # in the page's order
    *("Network", "Host", "Imp", "Line", "Replay", "Stranger", "Deed", "Step", "State", "Script", "Event", "Flow", "Text"),
    *("Program", "BadNetwork", "BadLine", "Stopped", "NoProgram"),
]
CALLER = {"Replay": "net"}  # the name of an instance in a signature; of others their own in small letters


def members(kind: type) -> dict[str, Any]:
    """The public calls and properties that a class defines itself."""
    return {
        name: it
        for name, it in vars(kind).items()
        if not name.startswith("_")
        and isinstance(it, (property, staticmethod))
        or inspect.isfunction(it)
        and not name.startswith("_")
    }


def spelled(kind: str, name: str, member: Any) -> str:
    """How a member is written in a program."""
    if isinstance(member, property):
        return f"{CALLER.get(kind, kind.lower())}.{name}"
    call = member.__func__ if isinstance(member, staticmethod) else member
    words = [
        str(it.replace(annotation=inspect.Parameter.empty))
        for it in inspect.signature(call).parameters.values()
        if it.name not in ("self", "why")
    ]
    of = kind if isinstance(member, staticmethod) else CALLER.get(kind, kind.lower())
    return f"{of}.{name}({', '.join(words)})"


def sections(doc: str) -> Iterator[str]:
    """The paragraphs of a docstring, its examples as blocks of code."""
    for part in doctest.DocTestParser().parse(inspect.cleandoc(doc)):
        if isinstance(part, str):
            yield from (re.sub(r"\s*\n\s*", " ", it.strip()) for it in part.split("\n\n") if it.strip())
            continue
        first, *more = part.source.rstrip("\n").split("\n")
        shown = "\n".join([f">>> {first}", *(f"... {it}" for it in more), *part.want.rstrip("\n").split("\n")]).rstrip()
        yield f"```python\n{shown}\n```"


def said(doc: str) -> str:
    """What a docstring says beside its examples."""
    return " ".join(it for it in sections(doc) if not it.startswith("```"))


def sentence(doc: str) -> str:
    """The first sentence of what a docstring says. None of these has a full stop within a sentence before a space."""
    return re.split(r"(?<=\.) ", said(doc), maxsplit=1)[0]


def made() -> str:
    """The page."""
    parts = [HEAD]
    for name in NAMES:
        kind = getattr(dorydate, name)
        parts.append(f"## {name}\n\n{said(kind.__doc__ or '')}\n")
        if rows := [f"- `{spelled(name, part, it)}`: {sentence(it.__doc__ or '')}" for part, it in members(kind).items()]:
            parts.append("\n".join([*rows, ""]))
    return "\n".join(parts)


def write() -> None:
    pages.put(PAGE, made())


def faults() -> list[str]:
    """Whether the page is as it is made."""
    return pages.unlike(PAGE, made())

"""Reads what functions of Rattle ensure: the clauses in their contracts, and the definitions that these may name."""

from __future__ import annotations

import re
from collections.abc import Iterator
from dataclasses import dataclass

from dorydate.definitions.files import Item, Line, read_file

FUNCTION = re.compile(r"^(?P<indent> *)(?:pub(?:\([^)]*\))? )?(?:ghost )?fn (?P<name>\w+)", re.MULTILINE)
ENSURES = re.compile(r"\s*(?://[^\n]*\n\s*)*ensures(?: (?P<name>\w+))?\s*\{")
GHOST_USE = re.compile(r"^ghost (use [^;]*);$", re.MULTILINE)


@dataclass(frozen=True)
class Said:
    """A clause: the function that ensures it, its name, its text, and the line of that."""

    function: str
    name: str
    text: str
    line: int


def closed(text: str, at: int) -> int:
    """Where the brace that was opened before this place is closed."""
    depth = 1
    while depth and at < len(text):
        depth += {"{": 1, "}": -1}.get(text[at], 0)
        at += 1
    return at


def clauses_of(text: str) -> Iterator[Said]:
    """The clauses that the functions of a file ensure, in its order."""
    for function in FUNCTION.finditer(text):
        found = re.compile(r"\n\s*(?=(?://[^\n]*\n\s*)*ensures\b|[{])").search(text, function.end())
        at = found.end() if found else len(text)
        while it := ENSURES.match(text, at):
            at = closed(text, it.end())
            line = text.count("\n", 0, it.end()) + 1
            yield Said(function["name"], it["name"] or "", text[it.end() : at - 1].strip(), line)


def uses_of(text: str) -> tuple[Item, ...]:
    """The imports for the clauses of a file."""
    lines: list[Line] = [(text.count("\n", 0, it.start()) + 1, it[1]) for it in GHOST_USE.finditer(text)]
    return read_file("\n".join(line for _, line in lines))[0]

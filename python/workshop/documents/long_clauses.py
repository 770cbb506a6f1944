"""Clauses of contracts that have over 200 characters: they can only become fewer.

What such a clause says gets a definition with a name, so that both can be read aloud. docs/measured/budget.json has how
many there may be, and `./check docs --lower` takes off what isn't used any more.
"""

from __future__ import annotations

import os
import re
from collections.abc import Iterator, Sequence

from workshop.documents import walks
from workshop.parts import ROOT

LONG = 200
STRING = re.compile(r'"(?:[^"\\]|\\.)*"')


def is_whole(clause: str) -> bool:
    """Whether all braces are closed, but for those in strings."""
    bare = STRING.sub("", clause)
    return bare.count("{") == bare.count("}")


def clauses_of(text: str) -> Iterator[tuple[int, str]]:
    """The clauses of a source: the number of its first line, and its words, with what it is called."""
    lines = text.split("\n")
    for at, line in enumerate(lines):
        if not re.match(r" *(?:ensures|requires)\b", line):
            continue
        said, rest = line.strip(), at + 1
        while not is_whole(said) and rest < len(lines):
            said, rest = f"{said} {lines[rest].strip()}", rest + 1
        yield at + 1, said


def counted() -> list[str]:
    """Where each of them begins."""
    return [
        f"{os.path.relpath(source.path, ROOT)}:{line}"
        for source in walks.sources(walks.CRATES)
        if source.path.endswith(".rt")
        for line, clause in clauses_of(source.text)
        if len(clause) > LONG
    ]


def over(found: Sequence[str], most: int) -> Iterator[str]:
    """What there is to say if they have become more."""
    if len(found) > most:
        yield f"{len(found)} clauses have over {LONG} characters, and there may be {most} (docs/measured/budget.json): {', '.join(found)}"

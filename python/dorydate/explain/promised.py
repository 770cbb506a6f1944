"""What `./explain --promise` says of a log: whether each part of the promise holds, and what breaks it."""

from __future__ import annotations

from collections.abc import Iterator

from dorydate.definitions.promise import Judge, Judged, deeply
from dorydate.model.log import Book

NO_LIVES = (
    "The log has no lives. Nothing is promised of hosts that run no program: a line `foreign H` names each of these."
)
NOT_LOGGED = {"notices": "a log has no notices", "reports": "a log has no reports of services"}


def said_of(book: Book) -> tuple[list[str], bool]:
    """The lines, and whether nothing is broken."""
    judged = deeply(lambda: [*Judge().judged(book)])
    wide = max(len(it.part.name) for it in judged)
    lines = [line for it in judged for line in lines_of(it, wide)]
    lines += [] if book.lives else [NO_LIVES]
    return lines, all(it.holds is not False for it in judged)


def lines_of(judged: Judged, wide: int) -> Iterator[str]:
    """The lines about one part: its name, and the definition that says it."""
    part = judged.part
    word = "-" if judged.holds is None else "holds" if judged.holds else "broken"
    lacking = f": {NOT_LOGGED.get(judged.lacks, f'a log has no {judged.lacks}')}" if judged.holds is None else ""
    yield f"{word:6} {part.name:{wide}}  {part.definition}{lacking}"
    if judged.holds is False:
        yield f"         {part.comment}"
        yield from (f"         {it}" for it in judged.reasons)

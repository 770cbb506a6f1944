"""Each crate has a budget of octets of .antt, and lines of over 120 columns can only become fewer.

Octets are counted without comments and blank lines; lines are printed, and not bound. docs/measured/budget.json has what
each crate may have, and what a crate may have besides, each with what that is for: so a commit that needs more adds a
line to `more`, and says what it buys. `./check docs --lower` takes off what isn't used any more. For each kind of
source the file has how many lines of over 120 columns there may be, and how many clauses of over 200 characters
(workshop.documents.long_clauses).
"""

from __future__ import annotations

import glob
import json
import os
import re
from collections.abc import Iterator, Mapping, Sequence
from dataclasses import dataclass, field, replace

from workshop.documents import long_clauses, walks
from workshop.documents.crates_page import needs
from workshop.parts import ROOT, text_of

KEPT = f"{ROOT}/docs/measured/budget.json"
COLUMNS = 120
WIDE = {".antt": "crates/*/**/*.antt", ".rt": "crates/*/**/*.rt", ".py": "python/**/*.py"}
COMMENT = re.compile(r"(?:^|(?<=\s))--(?=\s|$).*")
More = tuple[str, int, str]  # a crate, octets, and what they are for


@dataclass(frozen=True)
class Budget:
    """What there may be: octets of each crate, what some may have besides, and wide lines of each kind of source,
    walks over each enum, and long clauses."""

    octets: Mapping[str, int] = field(default_factory=dict)
    more: Sequence[More] = ()
    wide: Mapping[str, int] = field(default_factory=dict)
    walks: Mapping[str, walks.Counts] = field(default_factory=dict)
    long: int = 0

    def of(self, crate: str) -> int:
        return self.octets.get(crate, 0) + sum(many for name, many, _ in self.more if name == crate)

    def over(self, octets: Mapping[str, int], columns: Mapping[str, int]) -> Iterator[str]:
        """The crates and kinds of sources that have more, and amounts that say nothing."""
        yield from (f"{crate}: {many:,} octets of its budget don't say what for" for crate, many, what in self.more if not what.strip())
        for crate, many in octets.items():
            if many > (may := self.of(crate)):
                yield f"{crate}: {many:,} octets of .antt, and its budget is {may:,}: add to `more` in docs/measured/budget.json what {many - may:,} octets are for"
        for kind, many in columns.items():
            if many > (may := self.wide.get(kind, 0)):
                yield f"{kind}: {many:,} lines of over {COLUMNS} columns, of at most {may:,}"

    def lowered(self, octets: Mapping[str, int], columns: Mapping[str, int]) -> Budget:
        """The budget without what isn't used; what a crate may have besides stays. One without a budget gets what it has."""
        first = {it: min(self.octets[it], many - self.of(it) + self.octets[it]) if it in self.octets else many for it, many in octets.items()}
        return replace(self, octets=first, wide={kind: min(many, self.wide.get(kind, many)) for kind, many in columns.items()})

    def written(self) -> str:
        octets = ",\n".join(f"  {json.dumps(crate)}: {many}" for crate, many in self.octets.items())
        more = ",".join(f"\n  {json.dumps(it)}" for it in self.more)
        cases = ",".join(f"\n  {json.dumps(enum)}: {json.dumps(counts)}" for enum, counts in self.walks.items())
        wide_lines = json.dumps(self.wide)
        return f'{{\n "octets": {{\n{octets}\n }},\n "more": [{more}\n ],\n "wide": {wide_lines},\n "long": {self.long},\n "walks": {{{cases}\n }}\n}}\n'


def sources(pattern: str) -> list[str]:
    return [it for it in glob.glob(f"{ROOT}/{pattern}", recursive=True) if "/out/" not in it]


def octets_of(text: str) -> int:
    """The octets of a source without its comments and blank lines."""
    lines = (COMMENT.sub("", it).rstrip() for it in text.split("\n"))
    return sum(len(it.encode()) + 1 for it in lines if it)


def counted() -> dict[str, int]:
    """The octets of .antt that each crate has."""
    return {crate: sum(octets_of(text_of(it)) for it in sources(f"crates/{crate}/**/*.antt")) for crate in needs()}


def wide() -> dict[str, int]:
    """How many lines of each kind of source have over 120 columns."""
    return {kind: sum(1 for path in sources(pattern) for line in text_of(path).split("\n") if len(line) > COLUMNS) for kind, pattern in WIDE.items()}


def kept() -> Budget:
    if not os.path.exists(KEPT):
        return Budget()
    found = json.loads(text_of(KEPT))
    more = [(crate, many, what) for crate, many, what in found["more"]]
    return Budget(found["octets"], more, found["wide"], found.get("walks", {}), found.get("long", 0))


def faults() -> list[str]:
    may = kept()
    long = long_clauses.over(long_clauses.counted(), may.long)
    return [*may.over(counted(), wide()), *walks.over(walks.counted(), may.walks), *walks.faults_of_page(), *long]


def summary() -> str:
    lines = sum(text_of(it).count("\n") for it in sources(WIDE[".antt"]))
    columns = ", ".join(f"{many:,} of {kind}" for kind, many in wide().items())
    octets = f"{sum(counted().values()):,} octets of .antt in {lines:,} lines of {len(needs())} crates"
    return f"{octets}; over {COLUMNS} columns: {columns}; {len(long_clauses.counted())} clauses over {long_clauses.LONG} characters"


def lower() -> None:
    """Writes what is used as what may be, where that is less."""
    found = kept().lowered(counted(), wide())
    found = replace(found, walks=walks.lowered(walks.counted(), found.walks), long=min(len(long_clauses.counted()), found.long))
    with open(KEPT, "w", encoding="utf-8") as file:
        file.write(found.written())

"""How many walks there are over the cases of an event, a request and a refusal, and how many files have a case.

A walk is a definition or a lemma of .antt whose clauses name at least six of the cases left of their `=`, or a function of
.rt that names as many: who adds a case writes in each of them. Files are counted of cases whose name means nothing else.
docs/measured/budget.json has how many walks and files there may be, which can only become fewer; `./check docs --lower`
takes off what isn't needed any more. The table in CONTRIBUTING.md of what to write for one more case has a row for each
enum, and names there each crate that has a walk over it.
"""

from __future__ import annotations

import glob
import re
from collections import defaultdict
from collections.abc import Iterable, Iterator, Mapping
from dataclasses import dataclass
from functools import cache

from workshop.documents import event_words
from workshop.parts import ROOT, text_of

LEAST = 6  # cases that make a walk
CRATES = ("crates/*/src/**/*.rt", "crates/*/specs/**/*.antt", "crates/*/proofs/**/*.antt")
OTHERS = ("python/dorydate/**/*.py", "python/workshop/**/*.py", "web/**/*.js", "tools/**/*.rs")
CLAUSE = re.compile(r"\s*([^\s(:]+)(?: .*?)? = ")
FUNCTION = re.compile(r"\s*(?:pub(?:\(crate\))? )?(?:fn|enum) (\w+)")

Counts = Mapping[str, int]  # the walks over an enum, and how many sources of crates have each of its cases


@dataclass(frozen=True)
class Cases:
    """An enum, its cases by their names, and those whose name means nothing else."""

    name: str
    cases: tuple[str, ...]
    own: tuple[str, ...] = ()

    def walks_of(self, path: str, text: str) -> list[str]:
        """The walks of a source over these cases, by the names of their definitions or functions."""
        named = re.compile(rf"\b({'|'.join(self.cases)})\b")
        found: defaultdict[str, set[str]] = defaultdict(set)
        for name, line in in_clauses(text) if path.endswith(".antt") else in_functions(text):
            found[name].update(named.findall(line))
        return [name for name, cases in found.items() if len(cases) >= LEAST]


@dataclass(frozen=True)
class Source:
    """A source, and the words in it."""

    path: str
    text: str
    words: frozenset[str]

    def has(self, case: str) -> bool:
        """Whether a case is in it by its name, or as the word of scripts."""
        return not self.words.isdisjoint((case, case.lower()))


def in_clauses(text: str) -> Iterator[tuple[str, str]]:
    """The clauses of a source in .antt up to their `=`, each with the name that it belongs to."""
    for line in text.split("\n"):
        if (it := CLAUSE.match(line)) and not line.startswith(("use ", "pub use ", "--")) and " : " not in it[0]:
            yield it[1], it[0]


def in_functions(text: str) -> Iterator[tuple[str, str]]:
    """The lines of functions and enums of a source in .rt, without contracts and comments, each with the name that it belongs to."""
    name = ""
    for line in text.split("\n"):
        name = it[1] if (it := FUNCTION.match(line)) else name
        if name and not line.lstrip().startswith(("ensures", "requires", "//")):
            yield name, line


def cases_of(name: str, text: str, own: str = "") -> Cases:
    """The cases of an enum, from its source."""
    body = re.search(rf"^pub enum {name} \{{\n(.*?)^\}}", text, re.MULTILINE | re.DOTALL)
    return Cases(name, tuple(re.findall(r"^    ([A-Z]\w*)", body[1] if body else "", re.MULTILINE)), tuple(own.split()))


def own_refusals() -> list[str]:
    """The refusals of carriers whose names mean nothing else."""
    carriers = [name for name, who in event_words.refusals().items() if who == "carrier"]
    return [name for name in carriers if name not in ("NoSuch", "Blocked")]


@cache
def enums() -> tuple[Cases, ...]:
    """The enums that are counted."""
    return (
        cases_of("NetEvent", text_of(f"{ROOT}/crates/interface/src/event.rt"), "EndDown EndUp ImpDown ImpUp HostDown HostUp GiveUp Forget Abandon"),
        cases_of("Request", text_of(f"{ROOT}/crates/sockets/src/request.rt"), "OpenSend OpenReceive AskBack Interrupt"),
        cases_of("CarrierFault", text_of(f"{ROOT}/crates/interface/src/carrier.rt"), " ".join(own_refusals())),
    )


@cache
def sources(patterns: tuple[str, ...]) -> tuple[Source, ...]:
    found = sorted(it for pattern in patterns for it in glob.glob(f"{ROOT}/{pattern}", recursive=True) if "/out/" not in it)
    texts = ((it, text_of(it)) for it in found)
    return tuple(Source(path, text, frozenset(re.findall(r"\w+", text))) for path, text in texts)


@cache
def walks(enum: Cases) -> tuple[tuple[str, str], ...]:
    """Each walk over the cases of an enum: its file, and its name."""
    may = (it for it in sources(CRATES) if len(it.words.intersection(enum.cases)) >= LEAST)
    return tuple((it.path, name) for it in may for name in enum.walks_of(it.path, it.text))


def files(case: str, patterns: tuple[str, ...]) -> int:
    """How many sources have a case."""
    return sum(it.has(case) for it in sources(patterns))


def counted() -> dict[str, dict[str, int]]:
    """For each enum its walks, and how many sources of crates have each of its cases."""
    return {it.name: {"walks": len(walks(it)), **{case: files(case, CRATES) for case in it.own}} for it in enums()}


def over(found: Mapping[str, Counts], may: Mapping[str, Counts]) -> Iterator[str]:
    """What has become more."""
    for enum, counts in found.items():
        for what, many in counts.items():
            if many > (most := may.get(enum, {}).get(what, 0)):
                said = f"{many} walks over its cases" if what == "walks" else f"{what} is in {many} sources of crates"
                yield f"{enum}: {said}, and there may be {most} (docs/measured/budget.json)"


def walked_crates(paths: Iterable[str]) -> set[str]:
    """The crates of these sources."""
    return {it.removeprefix(f"{ROOT}/crates/").split("/")[0] for it in paths}


def unnamed(enum: str, crates: Iterable[str], page: str) -> Iterator[str]:
    """The crates that a page's row of an enum doesn't name in its second column."""
    row = re.search(rf"^\|[^|]*\(`{enum}`\) \|([^|]*)\|", page, re.MULTILINE)
    if not row:
        yield f"CONTRIBUTING.md has no row of `{enum}`"
        return
    for crate in sorted({*crates}.difference(re.findall(r"`(\w+)`", row[1]))):
        yield f"CONTRIBUTING.md: the row of `{enum}` doesn't name {crate}, which has a walk over its cases"


def faults_of_page() -> Iterator[str]:
    """What the table of CONTRIBUTING.md doesn't name."""
    page = text_of(f"{ROOT}/CONTRIBUTING.md")
    for enum in enums():
        yield from unnamed(enum.name, walked_crates(path for path, _ in walks(enum)), page)


def lowered(found: Mapping[str, Counts], may: Mapping[str, Counts]) -> dict[str, dict[str, int]]:
    """What there may be, without what isn't used; an enum or a case that isn't there yet gets what it has."""
    return {enum: {what: min(many, may.get(enum, {}).get(what, many)) for what, many in counts.items()} for enum, counts in found.items()}


def summary() -> str:
    """The walks over each enum, and how many sources have the case that most have."""
    return "; ".join(
        f"{it.name} has {len(walks(it))} walks in {len({path for path, _ in walks(it)})} files, and a case is in up to "
        f"{max(files(case, CRATES) for case in it.own)} files of crates and {max(files(case, OTHERS) for case in it.own)} others"
        for it in enums()
    )

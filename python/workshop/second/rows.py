"""Computes the worked rows of the repository: the clauses of functions `worked_..`, by the evaluator of definitions."""

from __future__ import annotations

import glob
import os
from collections import Counter
from collections.abc import Iterable, Iterator, Sequence
from dataclasses import dataclass
from pathlib import Path

from dorydate.definitions.clauses import clauses_of, uses_of
from dorydate.definitions.compiling import Decider, mentions
from dorydate.definitions.computing import Env, Goal, Unbound, Variable
from dorydate.definitions.library import Library, Module, NoMeaning, Sources
from dorydate.definitions.promise import sources_below
from dorydate.definitions.reading import term_of
from dorydate.definitions.terms import Term
from dorydate.definitions.values import NotComputed, records_with
from workshop.parts import ROOT, text_of

CRATES = f"{ROOT}/crates"
# what rows name of the toolchain's crates
OTHERS = {"hex/specs/Hex.antt": "hex.txt", "toml/specs/Data.antt": "toml.txt"}
WORKED = "worked"  # begins the names of functions of rows, or of the file that has them
GENERIC = "C"  # what a generic function is about
FLOW, FLOW_FIELDS = "Flow", ("source", "destination", "link")
HOLDS, FAILS, OF_ALL, UNREAD = "holds", "fails", "speaks of all", "isn't read"


@dataclass(frozen=True)
class Row:
    """A clause of a function that does nothing: what it says, in the module of its file."""

    file: str
    function: str
    name: str
    term: Term
    module: str

    @property
    def called(self) -> str:
        return f"{self.file}: {self.function}{f'.{self.name}' if self.name else ''}"


@dataclass(frozen=True)
class All:
    """Rows with what each comes to, and the library that has their modules."""

    library: Library
    rows: list[tuple[Row, str]]

    @property
    def wrong(self) -> list[str]:
        """The rows that fail, or that aren't read."""
        return [f"{row.called} {said}" for row, said in self.rows if said not in (HOLDS, OF_ALL)]

    def counted(self) -> Counter[str]:
        return Counter(said.partition(":")[0] for _, said in self.rows)


def sources() -> Sources:
    """The files of the repository, and those that state words of other crates."""
    own = sources_below(Path(CRATES))
    return lambda path: text_of(str(Path(__file__).with_name(OTHERS[path]))) if path in OTHERS else own(path)


def is_worked(file: str) -> bool:
    """Whether all functions of a file are of rows."""
    return os.path.basename(file).startswith(WORKED)


def files() -> list[str]:
    found = glob.glob(f"{CRATES}/*/src/**/*.rt", recursive=True)
    return sorted(os.path.relpath(it, CRATES) for it in found if is_worked(it) or f"\npub fn {WORKED}_" in text_of(it))


def rows_of(library: Library, names: Iterable[str]) -> Iterator[Row]:
    """The rows of some files."""
    for file in names:
        text, module = text_of(f"{CRATES}/{file}"), f"rows of {file}"
        library.modules[module] = Module(module, uses_of(text))
        for it in clauses_of(text):
            if it.function.startswith(WORKED) or is_worked(file):
                yield Row(file, it.function, it.name, term_of(it.text, it.line), module)


def computed(decider: Decider, row: Row) -> str:
    """What a row comes to, or why it isn't computed. Where a definition speaks of all flows, as one of messages does,
    it is tried with those that the row's values have."""
    decider.forget()
    decider.domains.pop(FLOW, None)
    statement = decider.expression(row.term, row.module, frozenset(GENERIC))
    for is_last in (False, True):
        try:
            found: Env = {GENERIC: Variable(GENERIC, "")}
            return HOLDS if decider.holds((Goal(statement, found),)) else FAILS
        except Unbound:
            if is_last or mentions(row.term, FLOW):
                break
            decider.domains[FLOW] = records_with(FLOW_FIELDS)
        except (NotComputed, NoMeaning) as why:
            return f"{UNREAD}: {why}"
    return OF_ALL


def all_rows(names: Sequence[str] | None = None) -> All:
    """The rows of some files, or of all."""
    library = Library(sources())
    decider = Decider(library)
    return All(library, [(it, computed(decider, it)) for it in [*rows_of(library, names or files())]])

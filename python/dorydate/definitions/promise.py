"""Checks a log against the promise, clause by clause. The clauses and all that they say are read from the definitions.

A log doesn't say all that a book has. Of a life that continues it doesn't say whether somebody has closed it: it counts
as open, unless what crossed doesn't leave it that. Contacts don't cross: those are looked for which leave lives that
were reset their fates, each as late as can be.
"""

from __future__ import annotations

import gc
import sys
import threading
from collections.abc import Callable, Iterator, Sequence
from concurrent.futures import ThreadPoolExecutor
from dataclasses import dataclass, replace
from pathlib import Path
from typing import TypeVar

from dorydate.definitions.clauses import clauses_of, uses_of
from dorydate.definitions.compiling import Decider, Fields, called
from dorydate.definitions.computing import Env, Expression, Goal, Lacking
from dorydate.definitions.library import Defined, Library, Module, Sources, Typed, path_of
from dorydate.definitions.logged import Logged
from dorydate.definitions.reach import Reach
from dorydate.definitions.reading import term_of
from dorydate.definitions.reasons import Reasons
from dorydate.definitions.terms import Term
from dorydate.definitions.values import FALSE, Lambda, Value, data, listed, struct
from dorydate.model.log import Book

# what is promised of a book, and of one among strangers
BOOK, BOOK_AMONG = "headline/src/book.rt", "mixed_worlds/src/book.rt"
ENDS = "Rattle.promise.specs.Ends"
LEFT = ("value", "lawful")  # their clauses that speak of the world and its programs
WORDS_FILE = Path(__file__).with_name("words.txt")  # no .antt: the toolchain asks that each is of a crate
PACKED = Path(__file__).with_name("promised")  # where a release has the files of the definitions
STACK = 1 << 29  # octets of the thread that judges: definitions go through a log from its end to its beginning
DEEPEST = 1 << 20
T = TypeVar("T")


def sources_below(folder: Path) -> Sources:
    """The files below a folder, and that of the library's words."""

    def text_of(path: str) -> str | None:
        file = WORDS_FILE if path == "words.antt" else folder / path
        return file.read_text(encoding="utf-8") if file.is_file() else None

    return text_of


def crates_folder() -> Path:
    """Where the definitions are: in this package, if it was released, or in the clone that it is part of."""
    return PACKED if PACKED.is_dir() else Path(__file__).resolve().parents[3] / "crates"


@dataclass(frozen=True)
class Part:
    """A clause, or a field of a record: its name with those before it, the definition that says it, and its comment."""

    name: str
    definition: str
    comment: str
    statement: Expression
    env: Env


@dataclass(frozen=True)
class Judged:
    """Whether a part holds of a log: None where a log doesn't have what it speaks of."""

    part: Part
    holds: bool | None
    reasons: tuple[str, ...] = ()
    lacks: str = ""


class Judge:
    """Judges logs by the definitions."""

    def __init__(self, sources: Sources | None = None) -> None:
        self.sources = sources or sources_below(crates_folder())
        self.library = Library(self.sources)
        self.decider = Decider(self.library)

    def clauses(self, file: str) -> Iterator[tuple[str, Term, str]]:
        """The clauses of a file that speak of no program, each with its name and its module."""
        text = self.sources(file) or ""
        module = f"clauses of {file}"
        if module not in self.library.modules:
            self.library.modules[module] = Module(module, uses_of(text))
        yield from ((it.name, term_of(it.text, it.line), module) for it in clauses_of(text) if it.name not in LEFT)

    def reach(self, *files: str) -> Reach:
        """The definitions to which the clauses of some files lead."""
        reach = Reach(self.library)
        for file in files:
            for _, term, module in self.clauses(file):
                reach.follow_term(term, module)
        return reach

    def judged(self, book: Book) -> Iterator[Judged]:
        """What each part of the promise is of a log."""
        self.decider.forget()
        logged = Logged(book)
        self.decider.domains["Flow"] = logged.flows
        for part in self.parts(logged):
            yield self.judge(part, logged)

    def judge(self, part: Part, logged: Logged) -> Judged:
        try:
            if self.decider.holds((Goal(part.statement, part.env),)):
                return Judged(part, True)
        except Lacking as what:
            return Judged(part, None, lacks=what.field)
        return Judged(part, False, tuple(Reasons(self.decider, logged.labels).of(part.statement, part.env)))

    # ---- parts

    def parts(self, logged: Logged) -> Iterator[Part]:
        """The parts of what is promised of a log, one after another."""
        kept = logged.kept(*self.unsaid(logged))
        # a log is all that crossed in its network
        seen: Value = Lambda(1, lambda carrier: struct({"hosts": logged.hosts, "log": logged.log}))
        env: Env = {"C": struct({"calls": struct({"seen": seen})})}
        if logged.book.strangers:
            now = struct({"carrier": 0, "kept": kept, "strangers": logged.strangers})
            env |= {"world": struct({"now": now})}
        else:
            env |= {"world": struct({"now": struct({"carrier": 0, "stopped": FALSE})}), "result": kept}
        for name, term, module in self.clauses(BOOK_AMONG if logged.book.strangers else BOOK):
            yield from self.below(Part(name, name, "", self.decider.expression(term, module, frozenset(env)), env))

    def below(self, part: Part) -> Iterator[Part]:
        """A part, or those that it has, if it is a record of statements."""
        said, given = called(part.statement)
        if isinstance(said, Fields) and all(it.statement for it in said.parts.parts):
            record, env = said.structure, {name: it.slot(part.env) for name, it in zip(said.names, given)}
            for it, member in zip(said.parts.parts, record.members):
                assert it.statement
                name, comment = f"{record.name}.{member.name}", member.comment or record.comment
                yield from self.below(Part(f"{part.name}.{member.name}", name, comment, it.statement, env))
        elif said:
            yield replace(part, definition=said.item.name, comment=said.item.comment or part.comment)
        else:
            yield part

    # ---- what a log doesn't say

    def holds(self, module: str, name: str, *arguments: Value) -> bool:
        """Whether a definition of the promise holds of these values."""
        meaning = self.library.found(module, name)
        assert isinstance(meaning, (Defined, Typed))
        return any(self.decider.holds(it) for it in self.decider.defined(meaning).opens(arguments, None))

    def is_left(self, contacts: Sequence[Value], logged: Logged, life: Value, fate: Value) -> bool:
        return self.holds(ENDS, "IsLeft", listed(contacts), logged.log, life, fate)

    def unsaid(self, logged: Logged) -> tuple[list[Value], list[Value]]:
        """The fates of the lives, and the contacts."""
        fates: list[Value] = []
        contacts: list[Value] = []
        for life, fate in logged.each_life():
            closing = data("Closing")
            if fate is data("Open") and not self.is_left([], logged, life, fate):
                fate = closing if self.is_left([], logged, life, closing) else fate
            fates.append(fate)
            if fate is data("Reset") and not self.is_left(contacts, logged, life, fate):
                contacts += self.contact(contacts, logged, life, fate)
        return fates, contacts

    def contact(self, contacts: Sequence[Value], logged: Logged, life: Value, fate: Value) -> list[Value]:
        """The latest contact of a life's host with its peer that leaves the life its fate, if there is any."""
        fields = getattr(life, "fields")
        for place in range(logged.log.length, -1, -1):
            one = struct({"host": fields["host"], "place": place, "peer": fields["peer"]})
            found = [*contacts, one]
            if self.is_left(found, logged, life, fate) and self.holds(ENDS, "AreContacts", listed(found), logged.log):
                return [one]
        return []


def files_of_promise() -> list[str]:
    """The files of the definitions that judge a log, below `crates`: those to which the clauses lead, and those that
    only pass a definition on."""
    judge = Judge()
    modules = [*judge.reach(BOOK, BOOK_AMONG).modules, *judge.library.modules]
    return [BOOK, BOOK_AMONG, *(path_of(it) for it in dict.fromkeys(modules) if it.startswith("Rattle."))]


def deeply(run: Callable[[], T]) -> T:
    """What a function gives that calls itself very often."""
    before, size = sys.getrecursionlimit(), threading.stack_size(STACK)
    sys.setrecursionlimit(DEEPEST)
    gc.disable()  # values are many, and nearly all go when they are forgotten
    try:
        with ThreadPoolExecutor(1) as thread:
            return thread.submit(run).result()
    finally:
        gc.enable()
        sys.setrecursionlimit(before)
        threading.stack_size(size)

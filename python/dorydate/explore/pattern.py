"""Patterns over what a replay prints: lines in their order, with names that are bound, and what must not come between.

    in A B N .. then not out A B N .. then answer incomplete A B N

A part is a line: its words, `_` for any word, `..` once for any words, and a single capital for a name, which is bound where
it first occurs. Parts that `then` joins come one after another; others may come between, but not one that a `not` before the
next part describes (at the end: none until the end). `and` joins patterns that are found anywhere, each in its own order, with
the same names. `where M < N` compares two names as numbers, `where A != B` as words. `calm N: nothing`, `calm N: no WORDS` and
`calm N: K lines` are about a last calm, which is added to the script: it prints nothing, no such line, at least K lines.
"""

from __future__ import annotations

import operator
import re
from collections.abc import Callable, Iterable, Mapping, Sequence
from dataclasses import dataclass, field
from functools import cached_property, lru_cache

from dorydate.sentences.table import filled, sentences

SAID = sentences("patterns")  # what may be wrong with one
Names = tuple[tuple[str, str], ...]  # what is bound, in order of the names
TRACED = frozenset({"noted", "arrives", "slots"})  # the first words of lines that only a trace has (explore.seen)


class BadPattern(ValueError):
    """What is wrong with a pattern."""


def bad(rule: str, **holes: object) -> BadPattern:
    """A fault of a pattern, in the words that the workbench has for it too."""
    return BadPattern(filled(SAID[rule], holes))


@dataclass(frozen=True)
class Part:
    """A line of a pattern."""

    words: tuple[str, ...]
    has_rest: bool = False  # whether any words may follow these
    ending: tuple[str, ...] = ()  # and after those, at the line's end, these

    @staticmethod
    def read(text: str) -> Part:
        words = [".." if it == "..." else it for it in text.split()]
        at = words.index("..") if ".." in words else len(words)
        ending = words[at + 1 :]
        if not at or ".." in ending:
            raise bad("no line", text=text.strip())
        if not re.fullmatch("[a-z]+", words[0]):
            raise bad("no beginning", text=text.strip())
        if small := next((it for it in words if re.fullmatch("[a-z]", it)), None):
            raise bad("small", word=small, text=text.strip())
        return Part(tuple(words[:at]), at < len(words), tuple(ending))

    def match(self, words: Sequence[str], names: Names) -> Names | None:
        """The names with which these words are this line; None where they aren't."""
        if words[0] != self.words[0] or len(words) < len(self.words) + len(self.ending) or (not self.has_rest and len(words) > len(self.words)):
            return None
        bound = dict(names)
        for wanted, word in (*zip(self.words, words), *zip(self.ending, words[len(words) - len(self.ending) :])):
            if wanted == word or wanted == "_":
                continue
            if len(wanted) != 1 or not wanted.isupper() or bound.setdefault(wanted, word) != word:
                return None
        return tuple(sorted(bound.items())) if len(bound) > len(names) else names

    def is_traced(self) -> bool:
        """Whether only a trace has such lines."""
        return self.words[0] in TRACED

    def names(self) -> set[str]:
        """The names that it has."""
        return {it for it in (*self.words, *self.ending) if len(it) == 1 and it.isupper()}

    def __str__(self) -> str:
        return " ".join([*self.words, *([".."] if self.has_rest else []), *self.ending])


@dataclass(frozen=True)
class Sequel:
    """Parts in their order, each with what must not come before it; and what must not come after the last."""

    parts: tuple[tuple[tuple[Part, ...], Part], ...]
    never_after: tuple[Part, ...] = ()

    def heads(self) -> set[str]:
        """The first words of lines that have to come."""
        return {part.words[0] for _, part in self.parts}

    @cached_property
    def words(self) -> frozenset[str]:
        """The first words of all lines that it is about; no other line changes how far it has come."""
        barred = [it for bars, _ in self.parts for it in bars]
        return frozenset(it.words[0] for it in [*barred, *self.never_after]) | self.heads()

    def printed(self) -> Sequel:
        """Its parts that are printed. What must not come is kept between two of these, and only where it names nothing that another
        part binds: so whatever matches all matches this, too."""
        parts: list[tuple[tuple[Part, ...], Part]] = []
        bound: set[str] = set()
        follows = True

        def kept(barred: Iterable[Part]) -> tuple[Part, ...]:
            return tuple(it for it in barred if follows and it.names() <= bound)

        for barred, part in self.parts:
            if not part.is_traced():
                parts.append((kept(barred), part))
                bound |= part.names()
            follows = not part.is_traced()
        return Sequel(tuple(parts), kept(self.never_after))


State = frozenset[tuple[int, Names]]  # how far a pattern has come, with which names
START: State = frozenset({(0, ())})


def step(sequel: Sequel, state: State, words: Sequence[str]) -> State:
    """How far a pattern has come after one more line."""
    found = set()
    for at, names in state:
        barred = sequel.parts[at][0] if at < len(sequel.parts) else sequel.never_after
        if not any(it.match(words, names) is not None for it in barred):
            found.add((at, names))
        if at < len(sequel.parts) and (bound := sequel.parts[at][1].match(words, names)) is not None:
            found.add((at + 1, bound))
    return frozenset(found)


COMPARISONS: Mapping[str, Callable[[int, int], bool]] = {"<": operator.lt, ">": operator.gt, "<=": operator.le, "=": operator.eq}


@dataclass(frozen=True)
class Where:
    """A comparison of two names, or of a name and a number."""

    left: str
    sign: str
    right: str

    def holds(self, names: Mapping[str, str]) -> bool:
        left, right = (names.get(it, it) for it in (self.left, self.right))
        if self.sign == "!=":
            return left != right
        if not (left.isdecimal() and right.isdecimal()):
            return False
        return COMPARISONS[self.sign](int(left), int(right))


@dataclass(frozen=True)
class LastCalm:
    """What is wanted of a last calm that is added."""

    rounds: int = 0
    nothing: bool = False
    least: int = 0
    barred: tuple[Part, ...] = ()

    def holds(self, lines: Sequence[str]) -> bool:
        if (self.nothing and lines) or len(lines) < self.least:
            return False
        return not any(part.match(words_of(line), ()) is not None for part in self.barred for line in lines)


@dataclass(frozen=True)
class Pattern:
    """A pattern: what it was read from, its parts and conditions."""

    text: str
    sequels: tuple[Sequel, ...]
    conditions: tuple[Where, ...] = ()
    calm: LastCalm = field(default_factory=LastCalm)

    def needs_lives(self) -> bool:
        return any("life" in it.heads() for it in self.sequels)

    def needs_trace(self) -> bool:
        """Whether it names lines that only a trace has (explore.seen)."""
        return any(it.heads() & TRACED for it in self.sequels)

    def printed(self) -> Pattern:
        """What it asks of printed lines: whatever matches it matches that, too."""
        return Pattern(self.text, tuple(filter(Sequel.heads, (it.printed() for it in self.sequels))))

    def barred(self) -> set[str]:
        """The first words of lines that it forbids from the start, whatever else they say."""
        parts = [it for sequel in self.sequels for it in sequel.parts[0][0]]
        return {it.words[0] for it in parts if len(it.words) == 1 and it.has_rest}

    def heads(self) -> set[str]:
        return {word for sequel in self.sequels for word in sequel.heads()}

    @cached_property
    def heads_of_all(self) -> frozenset[str]:
        return frozenset(self.heads())

    def depth(self, lines: Iterable[str]) -> int:
        """How many of its parts are found, at best."""
        split = list(map(words_of, lines))
        return sum(max((at for at, _ in run(sequel, split)), default=0) for sequel in self.sequels)

    def length(self) -> int:
        return sum(len(it.parts) for it in self.sequels)

    def match(self, lines: Sequence[str], last: Sequence[str] = ()) -> dict[str, str] | None:
        """The names with which these lines match, the last calm's lines being `last`; None where they don't."""
        if not self.calm.holds(last):
            return None
        split = list(map(words_of, lines))
        if not self.heads_of_all <= {it[0] for it in split}:
            return None
        found: list[dict[str, str]] = [{}]
        for sequel in self.sequels:
            ends = [dict(names) for at, names in run(sequel, split) if at == len(sequel.parts)]
            found = [{**one, **other} for one in found for other in ends if all(one.get(name, word) == word for name, word in other.items())]
        return next((names for names in found if all(it.holds(names) for it in self.conditions)), None)


def run(sequel: Sequel, lines: Iterable[Sequence[str]]) -> State:
    """How far a pattern comes in these lines."""
    state, about = START, sequel.words
    for words in lines:
        if words[0] in about:
            state = step(sequel, state, words)
    return state


@lru_cache(maxsize=65_536)
def words_of(line: str) -> tuple[str, ...]:
    """The words of a line. Many networks print the same ones."""
    return tuple(line.split(" "))


@lru_cache(maxsize=64)
def read(text: str) -> Pattern:
    """A pattern by its text."""
    body, *conditions = re.split(r"\bwhere\b", text)
    calm, sequels = LastCalm(), []
    for piece in filter(str.strip, re.split(r"\band\b|\n", body)):
        if found := re.fullmatch(r"calm (\d+):(.*)", piece.strip()):
            calm = read_calm(number(found[1]), found[2])
        else:
            sequels.append(read_sequel(piece))
    if not sequels and not calm.rounds:
        raise bad("empty")
    return Pattern(text.strip(), tuple(sequels), tuple(map(read_where, conditions)), calm)


def read_sequel(text: str) -> Sequel:
    parts, barred = [], []
    for piece in re.split(r"\bthen\b", text):
        if piece.split()[:1] == ["not"]:
            barred.append(Part.read(piece.strip().removeprefix("not")))
        else:
            parts.append((tuple(barred), Part.read(piece)))
            barred = []
    if not parts:
        raise bad("nothing comes", text=text.strip())
    return Sequel(tuple(parts), tuple(barred))


def read_where(text: str) -> Where:
    found = re.fullmatch(r"\s*([A-Z]|\d+)\s*(<=|<|>|!=|=)\s*([A-Z]|\d+)\s*", text)
    if not found:
        raise bad("no comparison", text=text)
    for side in (found[1], found[3]):
        if side.isdecimal():
            number(side)
    return Where(found[1], found[2], found[3])


def number(digits: str) -> int:
    """A number of a pattern. No line has one of more than ten digits."""
    if len(digits) > 10:
        raise bad("digits", word=digits[:10], digits=len(digits))
    return int(digits)


def read_calm(rounds: int, text: str) -> LastCalm:
    nothing, least, barred = False, 0, []
    for piece in map(str.strip, text.split(",")):
        if piece == "nothing":
            nothing = True
        elif found := re.fullmatch(r"(?:at least )?(\d+) lines", piece):
            least = number(found[1])
        elif piece.startswith("no "):
            barred.append(Part.read(f"{piece[3:]} .."))
        else:
            raise bad("calm", text=piece)
    return LastCalm(rounds, nothing, least, tuple(barred))

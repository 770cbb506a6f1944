"""Reads files of definitions into their items: imports, definitions, records, data, and groups of these."""

from __future__ import annotations

import re
from collections.abc import Iterator, Sequence
from dataclasses import dataclass, field
from typing import Union

from dorydate.definitions.reading import INFIX, NotRead, Parser, Token, tokens_of
from dorydate.definitions.terms import Binder, Implicit, Name, Term

USE = re.compile(r"(pub )?use ([^\s{]+?)(?:\.\{(.*)\}| as (\S+))?$")
MARKS = re.compile(r"^(?:(?:pattern|unfoldable|abbrev|pub|axiom) )+")
WHERE = re.compile(r"(^|\s)where\s*$")
PASSED_OVER = re.compile(r"(pub )?mod |infix|ghost |unfolding|open ")


@dataclass(frozen=True)
class Use:
    """An import: of names, each with the name it has here, or of a module as a whole."""

    module: str
    names: dict[str, str] | None  # by the name here, that there
    alias: str
    is_public: bool


@dataclass(frozen=True)
class Clause:
    """A clause of a definition: its patterns, its value and the definitions of its `where`."""

    patterns: tuple[Term, ...]
    value: Term
    where: tuple[Definition, ...]

    @property
    def given(self) -> tuple[Term, ...]:
        """The patterns that aren't in braces."""
        return tuple(it for it in self.patterns if not isinstance(it, Implicit))


@dataclass
class Definition:
    name: str
    levels: tuple[str, ...]
    type: Term
    comment: str = ""
    is_abbreviation: bool = False
    clauses: list[Clause] = field(default_factory=list)


@dataclass(frozen=True)
class Member:
    """A field of a record, or a constructor of data."""

    name: str
    type: Term
    comment: str


@dataclass(frozen=True)
class Structure:
    """A record, all of whose fields it has, or data, which has one of its forms."""

    name: str
    binders: tuple[Binder, ...]
    type: Term
    members: tuple[Member, ...]
    is_record: bool
    comment: str = ""


@dataclass(frozen=True)
class Group:
    """Items with common parameters, or that call each other."""

    binders: tuple[Binder, ...]
    items: tuple[Item, ...]


Item = Union[Use, Definition, Structure, Group]
Line = tuple[int, str]


@dataclass(frozen=True)
class Block:
    """Lines that belong together, with the comment above them."""

    lines: tuple[Line, ...]
    comment: str

    @property
    def number(self) -> int:
        return self.lines[0][0]

    @property
    def text(self) -> str:
        return "\n".join(line for _, line in self.lines)

    @property
    def flat(self) -> str:
        """Its text in one line."""
        return " ".join(line.strip() for _, line in self.lines)

    @property
    def head(self) -> str:
        return self.lines[0][1].strip()

    @property
    def has_where(self) -> bool:
        return any(WHERE.search(without_comment(line)) for _, line in self.lines)


def indent_of(line: str) -> int:
    return len(line) - len(line.lstrip(" "))


def blocks_of(lines: Sequence[Line]) -> Iterator[Block]:
    """The blocks of some lines: each begins at the least indentation."""
    lasting = [(number, line) for number, line in lines if line.strip() and not line.strip().startswith("--")]
    if not lasting:
        return
    least = min(indent_of(line) for _, line in lasting)
    block: list[Line] = []
    comment: list[str] = []
    above: list[str] = []
    for number, line in lines:
        words = line.strip()
        if words.startswith("--") and block and indent_of(line) > least:
            block.append((number, line))
        elif words.startswith("--"):
            above = [] if words.startswith("-- ----") else [*above, words.removeprefix("--").strip()]
        elif words and (indent_of(line) > least or words[0] in ")]}" or words.startswith("∷ ")):
            block.append((number, line))
            above = []
        else:
            if block and words:
                yield Block(tuple(block), " ".join(comment))
            if words:
                block, comment = [(number, line)], above
            above = []
    yield Block(tuple(block), " ".join(comment))


def without_comment(line: str) -> str:
    return line if (at := line.find("-- ")) < 0 else line[:at]


class FileReader:
    """Reads the items of a file. What it can't read it keeps, with the reason, and passes over."""

    def __init__(self) -> None:
        self.faults: list[str] = []

    def items_of(self, lines: Sequence[Line]) -> tuple[Item, ...]:
        found: list[Item] = []
        for block in blocks_of(lines):
            try:
                self.read(block, found)
            except NotRead as why:
                self.faults.append(f"{block.head[:60]}: {why}")
        return tuple(found)

    def read(self, block: Block, found: list[Item]) -> None:
        """Adds what a block is to the items before it."""
        head = block.head
        if it := USE.match(block.flat):
            found.append(use_of(it))
        elif PASSED_OVER.match(head):
            pass
        elif (it := re.match(r"(?:pub )?(record|data) (?!\s*\{)", head)) and block.has_where:
            found.append(self.structure(block, it[1] == "record"))
        elif head.startswith("module "):
            first, rest = split_where(block)
            parser = Parser(tokens_of(first.strip().removeprefix("module"), block.number))
            parser.next()
            found.append(Group(parser.binders(), self.items_of(rest)))
        elif head == "mutual":
            found.append(Group((), self.items_of(block.lines[1:])))
        else:
            self.signature_or_clause(block, found)

    def structure(self, block: Block, is_record: bool) -> Structure:
        first, rest = split_where(block)
        parser = Parser(tokens_of(re.sub(r"^\s*(pub )?(record|data) ", "", first), block.number))
        name, binders = parser.next().text, parser.binders()
        parser.want(":")
        type_ = parser.whole()
        members = [member for it in blocks_of(rest) if not it.head.startswith("deriving") for member in members_of(it)]
        return Structure(name, binders, type_, tuple(members), is_record, block.comment)

    def signature_or_clause(self, block: Block, found: list[Item]) -> None:
        before, rest = split_where(block) if block.has_where else (block.text, ())
        marks = MARKS.match(before.strip())
        tokens = tokens_of(before.strip()[marks.end() if marks else 0 :], block.number)
        if found_type := signature(tokens, block, marks[0] if marks else ""):
            found.append(found_type)
            return
        patterns, name, value = clause(tokens)
        of = next((it for it in reversed(found) if isinstance(it, Definition) and it.name == name), None)
        if of is None:
            raise NotRead(f"line {block.number}: `{name}` has no type")
        where = tuple(it for it in self.items_of(rest) if isinstance(it, Definition))
        of.clauses.append(Clause(patterns, value, where))


def use_of(found: re.Match[str]) -> Use:
    names = None
    if found[3] is not None:
        pairs = [it.strip().split(" as ") for it in found[3].split(",") if it.strip()]
        names = {it[-1].strip(): it[0].strip() for it in pairs}
    return Use(found[2], names, found[4] or found[2].split(".")[-1], bool(found[1]))


def split_where(block: Block) -> tuple[str, tuple[Line, ...]]:
    """The text of a block before its first `where`, and the lines after that."""
    at = next(at for at, (_, line) in enumerate(block.lines) if WHERE.search(without_comment(line)))
    first = [line for _, line in block.lines[:at]] + [WHERE.sub("", without_comment(block.lines[at][1]))]
    return "\n".join(first), block.lines[at + 1 :]


def members_of(block: Block) -> Iterator[Member]:
    """The fields or constructors of a line."""
    parser = Parser(tokens_of(re.sub(r"^\s*pub ", "", block.text), block.number))
    names = [parser.next().text]
    while not parser.takes(":"):
        names.append(parser.next().text)
    type_ = parser.whole()
    yield from (Member(it, type_, block.comment) for it in names)


def signature(tokens: Sequence[Token], block: Block, marks: str) -> Definition | None:
    """The type that tokens give to a name, `f : T` or `f {ℓ} : T`; None where they are a clause."""
    parser = Parser(tokens)
    name, levels = parser.next().text, list[str]()
    if parser.takes("{"):
        while parser.peek() not in ("}", ""):
            levels.append(parser.next().text)
        parser.want("}")
    if not parser.takes(":"):
        return None
    return Definition(name, tuple(levels), parser.whole(), block.comment, "abbrev" in marks)


def clause(tokens: Sequence[Token]) -> tuple[tuple[Term, ...], str, Term]:
    """The patterns of a clause, the name that it defines, and its value."""
    depth, at = 0, 0
    while at < len(tokens) and (depth or tokens[at].text != "="):
        depth += {"(": 1, "[": 1, "{": 1, ")": -1, "]": -1, "}": -1}.get(tokens[at].text, 0)
        at += 1
    left, right = Parser(tokens[:at]), Parser(tokens[at + 1 :])
    patterns: list[Term] = []
    if len(tokens) > 1 and tokens[1].text in INFIX and tokens[0].text not in ("(", "{"):
        patterns.append(left.atom())
        name = f"◌{left.next().text}◌"
        patterns.append(left.atom())
    else:
        name = left.next().text
        while not left.is_done:
            patterns.append(braced(left) if left.peek() == "{" else left.atom())
    return tuple(patterns), name, right.whole()


def braced(parser: Parser) -> Implicit:
    """A pattern in braces: `{x}` binds x to the argument of that name."""
    parser.want("{")
    name = parser.next().text
    term = parser.term() if parser.takes("=") else Name(name)
    parser.want("}")
    return Implicit(name, term)


def read_file(text: str) -> tuple[tuple[Item, ...], list[str]]:
    """The items of a file, and what was not read."""
    reader = FileReader()
    return reader.items_of([*enumerate(text.split("\n"), 1)]), reader.faults

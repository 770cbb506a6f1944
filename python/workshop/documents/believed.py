"""docs/measured/promise.md: all that the clauses of headline::book_of promise without a program, from the top; and
docs/measured/among.md, all that those of mixed_worlds::book_among promise beside it.

The clauses are read from their source, but for those that compare with the world (`LEFT`). Below each clause are the definitions to which
its names lead, each before those that it uses, by the imports of its file; what reads texts comes last. A name that is both a field's and a
definition's counts as the definition, so the page may have too much, and never too little. Then come the types that are declared in Rust. The first
page has a key to the language, and a book worked by hand; the second one has no definition of the first again.
"""

from __future__ import annotations

import functools
import os
import re
from collections.abc import Iterator
from dataclasses import dataclass, field

from dorydate.definitions.promise import LEFT
from workshop.documents import believed_promises, believed_words
from workshop.documents.rules import Place, read
from workshop.parts import ROOT

MOST_LINES = 642  # without comments, imports and empty lines: what the clauses of book_of need, counted
MOST_AMONG = 137  # and what those of book_among need beside them
WORLD = ("net_sim", "World", "WorldState")  # of a world the clauses of book_among use only what is kept, which HEAD_AMONG says
READING = ("host_pairs", "ncp_control", "bit_messages")  # crates whose definitions say how texts are read
HEAD = """# What must be believed

`./check docs --write` makes this page from the sources. It has all that [the promise](../headline.md) says of a book without speaking of a program: the clause `promise` of `headline::book_of`, and every definition that it uses, each before those that it uses. These are {definitions} definitions of {files} files, in {lines} lines without comments; `./check docs` wants at most {most}. No host program, packet, route or buffer occurs in them, and no other line of any `specs/` changes what is promised, but for a record, `Seen`.

In the clause, `result` is what `book_of` gives of a world. `(C.calls.seen world.now.carrier).hosts` are the hosts of its network, and `.log` is all that crossed there (`crates/interface/specs/Calls.antt`); `world.now.stopped` says whether memory has run out.

Logs are read newest first, and all other lists oldest first. Words that definitions share with Rust are [below](#the-types), and so are [those of the language](#the-words-of-the-language), and [a book to try it on](#a-book-to-try-it-on).
"""
HEAD_AMONG = """# What must be believed among strangers

`./check docs --write` makes this page from the sources. It has what is promised [among strangers](../headline.md#among-strangers) of a book: the clauses of `mixed_worlds::book_among` but `value`, and every definition that they use and that [the promise's page](promise.md) doesn't have, each before those that it uses. These are {definitions} definitions of {files} files, in {lines} lines without comments; `./check docs` wants at most {most}. [The words of the language](promise.md#the-words-of-the-language) are on that page.

In a clause, `strange_in world.now` says of a host whether it is a stranger (`crates/net_sim/specs/Steps.antt`), and `hosts` are all hosts of the network, with strangers. Of a world `w` only what it keeps occurs: `w.kept.book`, in `w.kept.handed` the bits that were handed over to be sent in each of its lives, and in `w.kept.fates` the fate of each (`crates/net_sim/specs/Book.antt`).

Logs are read newest first, and all other lists oldest first.
"""
USE = re.compile(r"^(?:pub )?use Rattle\.(\w+)\.specs\.([\w.]+?)(?:\.\{(.*)\}| as (\w+))?$", re.MULTILINE)
GHOST_USE = re.compile(r"^ghost use Rattle\.(\w+)\.specs\.([\w.]+)\.\{(.*)\};$", re.MULTILINE)
CLAUSE_OF_BOOK = re.compile(r"^    ensures (\w+) \{ (.*) \}$", re.MULTILINE)
BEGINS = re.compile(r"^(?:(?:pub|abbrev|unfoldable) )*(record |data )?([\w'-]+)(?: .*)? ?:")
CONSTRUCTOR = re.compile(r"^ +(?:pub )?([\w'-]+) :", re.MULTILINE)
FIELD = re.compile(r"^  pub ([\w'-]+) :", re.MULTILINE)
WORD = re.compile(r"[\w'.-]+")

Key = tuple[str, str, str]  # a definition: its crate, its file's path and its name


@dataclass(frozen=True)
class Page:
    """A page: its file, the function whose clauses it has, its head, at most how many lines it may have, and the page whose definitions it leaves out."""

    file: str
    source: str
    head: str
    most: int
    beside: Page | None = None


PROMISE = Page("docs/measured/promise.md", "crates/headline/src/book.rt", HEAD, MOST_LINES)
AMONG = Page("docs/measured/among.md", "crates/mixed_worlds/src/book.rt", HEAD_AMONG, MOST_AMONG, PROMISE)


@dataclass(frozen=True)
class Definition:
    """A definition of specs/: where it is, with the comment above it, and its own lines."""

    name: str
    place: Place
    comment: tuple[str, ...]
    lines: tuple[str, ...]

    @property
    def text(self) -> str:
        return "\n".join((*self.comment, *self.lines))

    @property
    def size(self) -> int:
        """How many lines it has without comments and empty ones."""
        return sum(1 for line in self.lines if line.strip() and not line.strip().startswith("--"))


@dataclass
class Module:
    """A file of specs/: its definitions, and for each name, or each name of a module, the module from which it is imported."""

    definitions: dict[str, Definition] = field(default_factory=dict)
    constructors: dict[str, str] = field(default_factory=dict)
    imports: dict[str, tuple[str, str]] = field(default_factory=dict)
    modules: dict[str, tuple[str, str]] = field(default_factory=dict)


def parsed(file: str, text: str) -> Module:
    """The definitions and imports of a file of specs/."""
    module, lines = Module(), text.split("\n")
    for crate, path, names, alias in USE.findall(text):
        module.imports |= dict.fromkeys(re.findall(r"[^\s,]+", names), (crate, path))
        module.modules |= {alias: (crate, path)} if alias else {}
    for at, line in enumerate(lines):
        begins = BEGINS.match(line)
        if not begins or line.startswith(("--", "use ", "pub use ", "mod ")) or begins[2] in module.definitions:
            continue
        end = at + 1
        while end < len(lines) and lines[end] and not lines[end].startswith("--") and not re.match(r"(?:abbrev|pub|record|data|unfoldable) ", lines[end]):
            end += 1
        top = at
        while top > 0 and lines[top - 1].startswith("-- ") and not lines[top - 1].startswith("-- ----"):
            top -= 1
        module.definitions[begins[2]] = Definition(begins[2], Place(file, at + 1), tuple(lines[top:at]), tuple(lines[at:end]))
        if begins[1] == "data ":
            module.constructors |= dict.fromkeys(CONSTRUCTOR.findall("\n".join(lines[at + 1 : end])), begins[2])
    return module


@functools.cache
def module_of(crate: str, path: str) -> Module:
    """A file of a crate's specs/; a module that is none, as those that the compiler makes of Rust, has nothing."""
    file = f"crates/{crate}/specs/{path.replace('.', '/')}.antt"
    return parsed(file, read(f"{ROOT}/{file}")) if os.path.exists(f"{ROOT}/{file}") else Module()


def named(crate: str, path: str, name: str) -> Iterator[Key]:
    """Where the parts of a name in a file may be defined."""
    module, parts = module_of(crate, path), name.split(".")
    if len(parts) > 1 and parts[0] in module.modules:
        yield (*module.modules[parts[0]], parts[1])
    for part in parts:
        own = module.constructors.get(part, part)
        if own in module.definitions:
            yield crate, path, own
        elif part in module.imports:
            yield (*module.imports[part], part)


@dataclass
class Reading:
    """What has been reached so far: definitions in the order in which they are read, types that are declared in Rust, and names of the library."""

    definitions: dict[Key, Definition] = field(default_factory=dict)
    types: set[tuple[str, str]] = field(default_factory=set)
    library: set[str] = field(default_factory=set)
    seen: set[Key] = field(default_factory=set)

    def follow(self, key: Key) -> None:
        """Takes in a definition, and then those to which its names lead, in the order in which it names them."""
        crate, path, name = key
        if path.startswith("declared.") and name[0].isupper():
            self.types.add((crate, path.removesuffix(".TheVariants")))
        if crate == "std":
            self.library.add(name)
        if key in self.seen:
            return
        self.seen.add(key)
        definition = module_of(crate, path).definitions.get(name)
        self.definitions |= {key: definition} if definition else {}
        # a file that has no such definition may pass one on
        for word in WORD.findall("\n".join(definition.lines)) if definition else [name]:
            for it in named(crate, path, word):
                self.follow(it)


@dataclass(frozen=True)
class Clause:
    """A clause of a page: its name, its text, and the definition that it begins with."""

    name: str
    text: str
    first: Key

    @property
    def parts(self) -> list[tuple[str, list[Key]]]:
        """The fields of its definition, each with the definitions that its type names; the definition itself where it has no fields."""
        crate, path, name = self.first
        fields: list[str] = []
        for line in module_of(crate, path).definitions[name].lines[1:]:
            if FIELD.match(line):
                fields.append(line)
            elif fields:
                fields[-1] += line  # a type of several lines
        names = [(FIELD.findall(it)[0], WORD.findall(it.partition(":")[2])) for it in fields]
        return [(part, [key for word in words for key in named(crate, path, word)]) for part, words in names]


def clauses(of: Page = PROMISE) -> list[Clause]:
    """The clauses of a page that speak of no program, in their order."""
    text = read(f"{ROOT}/{of.source}")
    imports = {name: (crate, path) for crate, path, names in GHOST_USE.findall(text) for name in re.findall(r"[^\s,]+", names)}
    found = [(name, said, said.split()[0]) for name, said in CLAUSE_OF_BOOK.findall(text) if name not in LEFT]
    return [Clause(name, said, (*imports[first], first)) for name, said, first in found]


def listed(definitions: dict[Key, Definition]) -> str:
    """Definitions by their files, each file below a link to it, in the order in which they are reached."""
    files: dict[str, list[str]] = {}
    for it in definitions.values():
        files.setdefault(it.place.file, []).append(it.text)
    return "".join(f"\n[{file.removeprefix('crates/')}](../../{file})\n\n```text\n{(chr(10) * 2).join(texts)}\n```\n" for file, texts in files.items())


def rust_type(crate: str, path: str) -> str:
    """A type declared in Rust, with its comments and a link to its file: declared.said.Audit is in src/said.rt."""
    *folders, name = path.split(".")[1:]
    file = f"crates/{crate}/src/{'/'.join(folders)}.rt"
    found = re.search(rf"^((?:///.*\n)*)(?:#\[.*\]\n)*(pub (?:struct|enum) {name}\b(?:.*;\n|[\s\S]*?^}}\n))", read(f"{ROOT}/{file}"), re.MULTILINE)
    text = f"```rust\n{found[1]}{found[2]}```\n" if found else ""
    return f"\n{Place(file).link(f'{crate}::{name}')}\n\n{text}"


def reading(of: Page = PROMISE) -> tuple[list[tuple[str, dict[Key, Definition]]], Reading]:
    """The sections of a page, each with its heading and its definitions, and all that they reach that isn't on the page beside it."""
    whole = Reading(seen={WORLD} | (reading(of.beside)[1].seen if of.beside else set()))
    sections: list[tuple[str, dict[Key, Definition]]] = []

    def section(heading: str, keys: list[Key]) -> None:
        before = set(whole.definitions)
        for key in keys:
            whole.follow(key)
        sections.append((heading, {key: it for key, it in whole.definitions.items() if key not in before and key[0] not in READING}))

    for clause in clauses(of):
        crate, path, name = clause.first
        own = module_of(crate, path).definitions[name]
        heading = f"\n## `{clause.name}`\n\n    ensures {clause.name} {{ {clause.text} }}\n"
        if clause.parts and clause.first not in whole.definitions:
            whole.definitions[clause.first] = own
            whole.seen.add(clause.first)
            sections.append((heading, {clause.first: own}))
            section("\n### Of what\n", [key for word in WORD.findall(own.lines[0]) for key in named(crate, path, word)])
            for part, keys in clause.parts:
                section(f"\n### `{part}`\n", keys)
        else:
            section(heading, [clause.first])
    sections.append(("\n## How texts are read\n", {key: it for key, it in whole.definitions.items() if key[0] in READING}))
    return sections, whole


def page(of: Page = PROMISE) -> str:
    sections, whole = reading(of)
    files = {key[:2] for key in whole.definitions}
    lines = sum(it.size for it in whole.definitions.values())
    parts = [of.head.format(definitions=len(whole.definitions), files=len(files), lines=lines, most=of.most)]
    parts += [f"{heading}{listed(definitions)}" for heading, definitions in sections if definitions]
    parts.append("\n## The types\n\nRecords and variants that definitions share with the program. `HostAddr` is a `Host` here, `Bits` and `BitLog` are lists of bits.\n")
    parts += [rust_type(crate, path) for crate, path in sorted(whole.types - (reading(of.beside)[1].types if of.beside else set()))]
    rest = [] if of.beside else [believed_words.key(), believed_words.worked(), believed_promises.table()]
    return "".join([*parts, *rest])


def field_names() -> set[str]:
    """The fields of the clauses, and of the records in them, with those before them: promise.safe.messages.answered."""

    def below(path: str, key: Key) -> Iterator[str]:
        yield path
        crate, file, name = key
        definition = module_of(crate, file).definitions.get(name)
        for line in definition.lines[1:] if definition and definition.lines[0].startswith("pub record") else ():
            if FIELD.match(line):
                at = f"{path}.{FIELD.findall(line)[0]}"
                first = next(iter(WORD.findall(line.partition(":")[2])), "")
                yield from below(at, next(iter(named(crate, file, first)), ("", "", "")))

    return {it for clause in clauses() for it in below(clause.name, clause.first)}


def left_out(of: Page, whole: Reading) -> Iterator[str]:
    """The definitions that those of a page name, and that are not there, nor on the page beside it."""
    for crate, path, name in whole.definitions:
        for word in WORD.findall("\n".join(module_of(crate, path).definitions[name].lines)):
            for key in named(crate, path, word):
                if key[2] in module_of(*key[:2]).definitions and key not in whole.definitions and key not in whole.seen:
                    yield f"{of.file}: `{name}` names `{key[2]}`, which isn't on the page"


def write() -> None:
    for of in (PROMISE, AMONG):
        text = page(of)
        with open(f"{ROOT}/{of.file}", "w", encoding="utf-8") as file:
            file.write(text)


def faults_of(of: Page, most: int) -> list[str]:
    """Whether a page is as it is made and no longer than it may be, and the key explains each name of the library that it uses."""
    _, whole = reading(of)
    wrong = [] if os.path.exists(f"{ROOT}/{of.file}") and read(f"{ROOT}/{of.file}") == page(of) else [f"{of.file}: not as it is made (./check docs --write)"]
    lines = sum(it.size for it in whole.definitions.values())
    what = "beside the headline" if of.beside else "of the headline"
    wrong += [f"{of.file}: {lines} lines must be believed {what}, of at most {most}"] if lines > most else []
    known = believed_words.known_words()
    wrong += [*dict.fromkeys(left_out(of, whole))]
    return wrong + [f"{of.file}: the key has no word `{it}`" for it in sorted(whole.library) if it.strip("◌") not in known and it not in known]


def faults() -> list[str]:
    """The same of both pages, and whether the first one's table has all that README and the tour promise."""
    return [*faults_of(PROMISE, MOST_LINES), *faults_of(AMONG, MOST_AMONG), *believed_promises.faults(field_names())]

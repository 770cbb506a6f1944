"""The index of rules (`./check docs --rule`): from definitions that contracts cite to functions, rows and planted bugs.

Read from the sources: definitions of specs/ with the comment above them, the clauses `ensures` of functions in src/ and the
fields of those that are records of specs/Laws, the rows of docs/measured/guarded.json, and the edits of wrong-bodies/ by
the function that they change. `./check docs --rule WORD..` prints the rules that have these words, each with its definition and its functions; of a definition that no contract cites, the functions whose contracts
cite one that uses it, by the shortest way. Without a word it prints an index of all, with links as a page of docs/measured.
"""

from __future__ import annotations

import functools
import glob
import json
import os
import re
from collections.abc import Iterable
from dataclasses import dataclass

from workshop.parts import ROOT
from workshop.drawings.repository import layers
from workshop.rows import row_names

HEAD = """# From a rule to its code

`./check docs --write` makes this page from the sources, and `./check docs` compares it. It has each definition that the contract of a function cites, with the comment above it or else its name in words, the function, the rows that fail if the definition is read otherwise, and the bugs that are planted in the function. Each name leads to its line. `./check docs --rule WORD..` prints the rules with these words, with the text of the definition and of its functions; those too that contracts cite only by way of other definitions.
"""
DEFINED = re.compile(r"^(?:(?:unfoldable|abbrev) )?pub (?:record |data )?([\w'-]+)\b.*$", re.MULTILINE)
FUNCTION = re.compile(r"^( *)(?:pub(?:\(\w+\))? )?(?:const )?fn (\w+)", re.MULTILINE)
CLAUSE = re.compile(r"^ *ensures (?:\w+ )?\{(.*)\};?$", re.MULTILINE)
MEMBER = re.compile(r"^    ghost (\w+) = \{(.*)\};$", re.MULTILINE)
IMPORT = re.compile(r"use Rattle\.(\w+)\.specs\.[\w.]+\.\{([^}]*)\}")
WORD = re.compile(r"[\w'-]+")
FIELD = re.compile(r"^  pub «?(\w+)»? :((?:.*)(?:\n {4,}.*)*)", re.MULTILINE)
SHOWN = 3  # functions and bugs of a rule that are named, the others counted


@dataclass(frozen=True)
class Place:
    """A line of a file, which is named from the root of the repository; or a whole file."""

    file: str
    line: int | None = None

    def link(self, name: str) -> str:
        """Returns the name as a link from the page to this place."""
        return f"[`{name}`](../../{self.file}{f'#L{self.line}' if self.line else ''})"


@dataclass(frozen=True)
class Text:
    """A definition or a function: its name, its place, and its own text."""

    name: str
    place: Place
    text: str


@dataclass(frozen=True)
class Definition(Text):
    """A definition of specs/, with the comment above it in one line, or else its name in words."""

    words: str


@dataclass(frozen=True)
class Law(Definition):
    """A record of specs/Laws, whose fields are the clauses of a function: what each of them says, by its name."""

    fields: dict[str, str]

    def names(self) -> set[str]:
        """The names that its fields cite."""
        return {it for field in self.fields.values() for it in WORD.findall(field)}


@dataclass(frozen=True)
class Bug:
    """A planted bug: its name and file, the file that it changes, and the first text that it replaces."""

    name: str
    place: Place
    file: str
    old: str


@dataclass(frozen=True)
class Function(Text):
    """A function of src/: its name with its type, the names that its clauses cite, its planted bugs, and the laws that it ensures."""

    cites: frozenset[str]
    bugs: tuple[Bug, ...]
    laws: tuple[Law, ...] = ()

    def names(self) -> frozenset[str]:
        """The names that its contract cites, in its clauses or in the fields of its laws."""
        return self.cites.union(*(it.names() for it in self.laws))


@dataclass(frozen=True)
class Rule:
    """A definition with the functions whose contracts cite it, and the rows that fail if it is read otherwise."""

    definition: Definition
    functions: list[Function]
    rows: str

    def bugs(self) -> list[Bug]:
        return list(dict.fromkeys(bug for it in self.functions for bug in it.bugs))


def read(path: str) -> str:
    with open(path, encoding="utf-8") as file:
        return file.read()


def files(crate: str, pattern: str) -> list[str]:
    """The files of a crate, named from the root of the repository."""
    return [os.path.relpath(it, ROOT) for it in sorted(glob.glob(f"{ROOT}/crates/{crate}/{pattern}", recursive=True))]


def is_words(line: str) -> bool:
    """Whether a line of a definition's file is a comment that says something."""
    return line.startswith("-- ") and not line.startswith("-- ----")


def in_words(name: str) -> str:
    """The name of a definition in words: `give_up_grows` and `RunGives` are "give up grows" and "run gives"."""
    return re.sub(r"(?<=[a-z])(?=[A-Z])|_", " ", name).lower()


def definitions_in(file: str, text: str) -> list[Definition]:
    """The definitions of a file of specs/, each with the comment above it and up to the next empty line, comment or definition."""
    lines, found = text.split("\n"), []
    for at, line in enumerate(lines):
        name = DEFINED.match(line)
        if not name or name[1] == "use":
            continue
        top, end = at, at + 1
        while top > 0 and is_words(lines[top - 1]):
            top -= 1
        while end < len(lines) and lines[end] and not lines[end].startswith("--") and not DEFINED.match(lines[end]):
            end += 1
        words = " ".join(it.removeprefix("-- ") for it in lines[top:at]).replace("|", "/") or in_words(name[1])
        found.append(Definition(name[1], Place(file, at + 1), "\n".join(lines[top:end]), words))
    return found


def definitions(crate: str) -> dict[str, Definition]:
    """The definitions of a crate's specs/, by their names."""
    found: dict[str, Definition] = {}
    for file in files(crate, "specs/*.antt"):
        stem = os.path.basename(file).removesuffix(".antt")
        if stem not in ("Lib", "Laws", "Examples", "Counterexamples", "Inside") and not stem.startswith("Worked"):
            found |= {it.name: it for it in definitions_in(file, read(f"{ROOT}/{file}"))}
    return found


def laws_in(file: str, text: str) -> list[Law]:
    """The laws of a file of specs/Laws."""
    found = []
    for it in definitions_in(file, text):
        if re.search(rf"^pub record {it.name}\b", it.text, re.MULTILINE):
            fields = {name: " ".join(said.split()) for name, said in FIELD.findall(it.text)}
            found.append(Law(it.name, it.place, it.text, it.words, fields))
    return found


@functools.cache
def laws(crate: str) -> dict[str, Law]:
    """The laws of a crate that are records, by their names."""
    found = [*files(crate, "specs/Laws.antt"), *files(crate, "specs/Laws/*.antt")]
    return {it.name: it for file in found for it in laws_in(file, read(f"{ROOT}/{file}"))}


def bugs(crate: str) -> list[Bug]:
    """The planted bugs of a crate."""
    found = []
    for path in files(crate, "*/*.edit"):
        text = read(f"{ROOT}/{path}")
        file, old = re.search(r"^file: (.*)$", text, re.MULTILINE), re.search(r"^old: (.*)$", text, re.MULTILINE)
        if file and old:
            found.append(Bug(os.path.basename(path).removesuffix(".edit"), Place(path), f"crates/{crate}/{file[1].strip()}", old[1]))
    return found


def owner_at(text: str, place: int) -> str:
    """The type of the `impl` above a place of a file, as the beginning of a path; nothing if there is none."""
    owners = re.findall(r"^impl(?:<[^>]*>)? (?:.* for )?(\w+)", text[:place], re.MULTILINE)
    return f"{owners[-1]}::" if owners else ""


def functions_in(file: str, text: str, planted: list[Bug], known: dict[str, Law] | None = None) -> list[Function]:
    """The functions of a file of src/, and then what its types say of themselves as traits ask for it (`ghost calls = { ..};`).

    A clause that is a known law, of whatever values, has the law's fields for its clauses.
    """
    found, starts = [], list(FUNCTION.finditer(text))
    for at, start in enumerate(starts):
        end = starts[at + 1].start() if at + 1 < len(starts) else len(text)
        whole = text[start.start() : end]
        name = (owner_at(text, start.start()) if start[1] else "") + start[2]
        place = Place(file, text.count("\n", 0, start.start()) + 1)
        own = re.match(rf".*[;}}]$|[\s\S]*?^{start[1]}(?:}}|{{}})$|[\s\S]*?\}};$", whole, re.MULTILINE)
        clauses = CLAUSE.findall(whole)
        cited = frozenset(WORD.findall("\n".join(clauses)))
        inside = tuple(it for it in planted if it.file == file and it.old in whole)
        ensured = [(known or {}).get(clause.split()[0]) for clause in clauses if re.fullmatch(r"[\w. ]+", clause)]
        laws_of = tuple(it for it in ensured if it)
        found.append(Function(name, place, own[0] if own else whole, cited, inside, laws_of))
    for it in MEMBER.finditer(text):
        place = Place(file, text.count("\n", 0, it.start()) + 1)
        found.append(Function(owner_at(text, it.start()) + it[1], place, it[0], frozenset(WORD.findall(it[2])), ()))
    return found


def functions(crate: str) -> list[Function]:
    """The functions of a crate's src/, but for laws and rows."""
    planted = bugs(crate)
    named = [it for it in files(crate, "src/**/*.rt") if not it.removeprefix(f"crates/{crate}/src/").startswith(("law", "worked"))]
    return [it for file in named for it in functions_in(file, read(f"{ROOT}/{file}"), planted, laws(crate))]


@functools.cache
def stored() -> dict[str, Place]:
    """The stored calls and the tables of stored inputs, by their names."""
    paths = [os.path.relpath(it, ROOT) for it in glob.glob(f"{ROOT}/cases/*.rows")]
    tables = {os.path.basename(it).removesuffix(".rows"): Place(it) for it in paths}
    return tables | {name: Place(*place) for name, place in row_names().items()}


@functools.cache
def guarded() -> dict[str, dict[str, list[str]]]:
    """For each crate its definitions with the rows that fail if one is read otherwise (docs/measured/guarded.json)."""
    found: dict[str, dict[str, list[str]]] = json.loads(read(f"{ROOT}/docs/measured/guarded.json"))
    return found


def rows(crate: str) -> dict[str, str]:
    """The rows of a crate's definitions, those that are stored as links."""
    linked = {it: place.link(it) for it, place in stored().items()}
    them = guarded().get(crate, {})
    return {name: ", ".join(linked.get(it, f"`{it}`") for it in its) for name, its in them.items()}


def rules(crate: str) -> list[Rule]:
    """The definitions of a crate that contracts of its functions cite."""
    calls, guarded = functions(crate), rows(crate)
    known = definitions(crate).items()
    found = [Rule(it, [call for call in calls if name in call.names()], guarded.get(name, "")) for name, it in known]
    return [it for it in found if it.functions]


def some(links: list[str]) -> str:
    """The first of these, and how many more there are."""
    return ", ".join(links[:SHOWN]) + (f" and {len(links) - SHOWN} more" if len(links) > SHOWN else "")


def row_of(rule: Rule) -> str:
    definition = rule.definition
    calls = some([it.place.link(it.name) for it in rule.functions])
    attacked = some([it.place.link(it.name) for it in rule.bugs()])
    return f"| {definition.words} | {definition.place.link(definition.name)} | {calls} | {rule.rows} | {attacked} |"


def crates() -> list[str]:
    return [it for layer in layers() for it, kind in layer.crates.items() if kind == "code"]


def page() -> str:
    parts = [HEAD]
    for crate in crates():
        if made := [row_of(it) for it in rules(crate)]:
            parts.append(f"\n## {crate}\n\n| Rule | Definition | Function | Rows | Planted bugs |\n|---|---|---|---|---|\n" + "\n".join(made) + "\n")
    return "".join(parts)


def named(crate: str, file: str, words: Iterable[str]) -> set[tuple[str, str]]:
    """The definitions that these words of a file name, each with its crate: those that the file imports, else of its own crate."""
    imported = {name: owner for owner, names in IMPORT.findall(read(f"{ROOT}/{file}")) for name in re.split(r",\s*", names)}
    return {(imported.get(it, crate), it) for it in words}


class Ways:
    """The ways from each definition to the functions whose contracts cite it, or cite one that uses it."""

    def __init__(self) -> None:
        self.found: dict[tuple[str, str], Definition] = {}
        self.users: dict[tuple[str, str], list[tuple[str, str]]] = {}
        self.calls: dict[tuple[str, str], list[Function]] = {}
        for crate in crates():
            for call in functions(crate):
                of_laws = (named(crate, law.place.file, law.names()) for law in call.laws)
                for it in named(crate, call.place.file, call.cites).union(*of_laws):
                    self.calls.setdefault(it, []).append(call)
            for name, definition in definitions(crate).items():
                self.found[crate, name] = definition
                used = WORD.findall(re.sub(r"--.*", "", definition.text))
                for it in named(crate, definition.place.file, used) - {(crate, name)}:
                    self.users.setdefault(it, []).append((crate, name))

    def shortest(self, start: tuple[str, str]) -> tuple[list[str], list[Function]]:
        """The names on the shortest way from a definition to one that contracts cite, and the functions there."""
        ways: dict[tuple[str, str], list[str]] = {start: []}
        for at in (ahead := [start]):
            if at in self.calls:
                return ways[at], self.calls[at]
            for it in self.users.get(at, []):
                if it not in ways:
                    ways[it] = [*ways[at], it[1]]
                    ahead.append(it)
        return [], []


def has_words(crate: str, definition: Definition, calls: list[Function], words: list[str]) -> bool:
    """Whether all of these words occur in a rule, as the name of its crate or its functions, or in its definition."""
    searched = " ".join([crate, definition.text, *(it.name for it in calls)]).lower()
    return all(it.lower() in searched for it in words)


def shown(definition: Definition, way: list[str], calls: list[Function], guarded: str) -> str:
    """A rule with the text of its definition and of its functions, its rows and its planted bugs."""
    parts: list[Text] = [definition, *(it for call in calls[:SHOWN] for it in (call, *call.laws))]
    texts = [f"{it.place.file}:{it.place.line}\n{it.text}\n" for it in parts]
    if way:
        texts.insert(1, f"used by {', and that by '.join(way)}, which is cited by\n")
    rows_of = [f"rows: {guarded}"] if guarded else []
    attacked = dict.fromkeys(bug for it in calls for bug in it.bugs)
    return "\n".join([*texts, *rows_of, *(f"planted bug: {it.place.file}" for it in attacked), ""])


def show(words: list[str]) -> int:
    """Prints the rules in which all of these words occur, those with them in their names first, or without words the
    index of all, and returns how many there are."""
    if not words:
        print(page(), end="")
        return len(crates())
    ways = Ways()
    found = []
    for (crate, name), it in ways.found.items():
        way, calls = ways.shortest((crate, name))
        if calls and has_words(crate, it, calls, words):
            named_so = name in words, sum(word.lower() in name.lower() for word in words)
            found.append((named_so, -len(way), shown(it, way, calls, rows(crate).get(name, ""))))
    found.sort(key=lambda it: it[:2], reverse=True)
    print("\n".join(text for *_, text in found))
    return len(found)

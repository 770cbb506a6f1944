"""The files in which definitions are, and what a name in one of them means."""

from __future__ import annotations

from collections.abc import Callable, Collection, Sequence
from dataclasses import dataclass
from typing import Generic, TypeVar, Union

from dorydate.definitions.files import Definition, Group, Item, Structure, Use, read_file
from dorydate.definitions.terms import Binder, Field, Name

# the text of a file, by its path below `crates`; None where there is no such file
Sources = Callable[[str], "str | None"]
WORDS = "words"  # the module that has the words of the library
Thing = TypeVar("Thing")


class NoMeaning(Exception):
    """A name that is nowhere defined, or is of a kind that isn't read here."""


@dataclass(frozen=True)
class InModule(Generic[Thing]):
    """What a module declares."""

    module: str
    item: Thing


class Defined(InModule[Definition]):
    """A definition, in its module."""


class Typed(InModule[Structure]):
    """A record or data."""


@dataclass(frozen=True)
class Form:
    """A constructor of data, or a variant of a type that is declared in Rust."""

    type: str
    name: str
    crate: str = ""
    module: str = ""


@dataclass(frozen=True)
class Declared:
    """A type that is declared in Rust: its crate, the path of its file in `src`, and its name."""

    crate: str
    path: str
    name: str


@dataclass(frozen=True)
class Constant:
    """A constant that is declared in Rust."""

    crate: str
    path: str
    name: str


@dataclass(frozen=True)
class Word:
    """A word of the library, by its name."""

    name: str


Meaning = Union[Defined, Typed, Form, Declared, Constant, Word]


class Module:
    """A file's items by their names, and its imports."""

    def __init__(self, name: str, items: tuple[Item, ...], faults: Sequence[str] = ()) -> None:
        self.name, self.items, self.faults = name, items, faults
        self.own: dict[str, Definition | Structure] = {}
        self.forms: dict[str, Structure] = {}
        self.names: dict[str, tuple[str, str]] = {}  # imported names, with their module and their name there
        self.aliases: dict[str, str] = {}
        self.passed: set[str] = set()  # imported names that it passes on
        self.groups: dict[str, tuple[Binder, ...]] = {}  # what a definition takes before its own arguments
        self.take(items, ())

    def take(self, items: tuple[Item, ...], binders: tuple[Binder, ...]) -> None:
        for it in items:
            if isinstance(it, Use):
                self.take_use(it)
            elif isinstance(it, Group):
                self.take(it.items, binders + it.binders)
            else:
                self.own[it.name] = it
                self.groups[it.name] = binders
                if isinstance(it, Structure) and not it.is_record:
                    self.forms |= {member.name: it for member in it.members}

    def take_use(self, use: Use) -> None:
        if use.names is None:
            self.aliases[use.alias] = use.module
            return
        for here, there in use.names.items():
            self.names[here] = use.module, there
        self.passed |= {*use.names} if use.is_public else set()


def path_of(module: str) -> str:
    """The file of a module, below `crates`: `Rattle.CRATE.specs.PATH` is CRATE/specs/PATH.antt."""
    return f"{module.removeprefix('Rattle.').replace('.', '/')}.antt"


class Library:
    """The modules that have been asked for, each read once."""

    def __init__(self, sources: Sources) -> None:
        self.sources = sources
        self.modules: dict[str, Module] = {}
        self.meanings: dict[tuple[str, str, str], Meaning] = {}

    def module(self, name: str) -> Module:
        """The module of a file."""
        if name not in self.modules:
            text = self.sources(path_of(name))
            if text is None:
                raise NoMeaning(f"there is no module {name}")
            self.modules[name] = Module(name, *read_file(text))
        return self.modules[name]

    def has(self, name: str) -> bool:
        return name in self.modules or self.sources(path_of(name)) is not None

    def named(self, term: object, module: str, local: Collection[str] = ()) -> Meaning | None:
        """What a name of a file or of its imports means, or of a module that it imports; None of any other term."""
        here = self.module(module)
        known: tuple[Collection[str], ...] = (here.own, here.forms, here.names)
        if isinstance(term, Name) and term.text not in local and any(term.text in it for it in known):
            return self.meaning(module, term.text)
        of = term.of if isinstance(term, Field) else None
        if isinstance(term, Field) and isinstance(of, Name) and of.text in here.aliases and of.text not in local:
            return self.meaning(module, term.name, of.text)
        return None

    def meaning(self, module: str, name: str, alias: str = "") -> Meaning:
        """What a name means in a module, or in one that it imports as a whole."""
        key = module, alias, name
        if key not in self.meanings:
            here = self.module(module)
            if alias:
                self.meanings[key] = self.found(here.aliases[alias], name)
            elif name in here.names and name not in here.own and name not in here.forms:
                self.meanings[key] = self.found(*here.names[name])
            else:
                self.meanings[key] = self.found(module, name)
        return self.meanings[key]

    def found(self, module: str, name: str) -> Meaning:
        """What a module has under a name: else a word of the library, as `words.txt` defines it, or only its name."""
        parts = module.split(".")
        is_library = parts[1:2] == ["std"]
        if "declared" in parts and not is_library:
            return declared(parts, name)
        if is_library and parts[-1] == "FinMap":
            return Word(f"FinMap.{name}")
        if not is_library and self.has(module):
            here = self.module(module)
            if name in here.own:
                it = here.own[name]
                return Defined(module, it) if isinstance(it, Definition) else Typed(module, it)
            if name in here.forms:
                return Form(here.forms[name].name, name, module=module)
            if name in here.passed:
                return self.found(*here.names[name])
        return Word(name) if module == WORDS else self.found(WORDS, name)


def declared(parts: list[str], name: str) -> Meaning:
    """What is declared in Rust: `Rattle.CRATE.specs.declared.FILE.TYPE`, its variants, or a file's constants."""
    crate, rest = parts[1], parts[parts.index("declared") + 1 :]
    if rest[-1] == "TheVariants":
        return Form(rest[-2], name, crate)
    if rest[-1] == "TheConstants":
        return Constant(crate, "/".join(rest[:-1]), name)
    return Declared(crate, "/".join(rest[:-1]), rest[-1])

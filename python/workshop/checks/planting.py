"""Planted bugs as they are written: the file that each changes, what it puts in the place of what, and the function that this is in."""

from __future__ import annotations

import glob
import hashlib
import os
import re
from collections.abc import Sequence
from dataclasses import dataclass
from functools import cached_property

from workshop.parts import ROOT, text_of

GATE = "# The gate tries this bug."
Texts = dict[str, str]  # files of a crate, each with its text
# the head of an `impl`: its trait if it has one, and its type
IMPL = re.compile(r"impl\b(?:<.*?>)?(?: (\S.*) for)?.*?(\w+)(?:<[^{]*>)? (?:where.*)?\{")


def module_at(path: str) -> list[str]:
    """The module that a file below src/ has, as its parts."""
    return [it for it in path.removesuffix(".rt").split("/") if it not in ("lib", "main", "mod")]


def modules_of(crate: str, name: str) -> list[list[str]]:
    """The modules of a crate that have a type of this name."""
    found: list[list[str]] = []
    for path in sorted(glob.glob(f"{ROOT}/crates/{crate}/src/**/*.rt", recursive=True)):
        found += [module_at(path.partition("/src/")[2]) for _ in re.findall(rf"^(?:pub(?:\(\w+\))? )?(?:struct|enum) {name}\b", text_of(path), re.MULTILINE)]
    return found


def has_ended(lines: Sequence[str], at: int) -> bool:
    """Whether the function that begins at a line ends before the last of these lines, by the layout of `rt fmt`."""
    closing = f"{lines[at][: len(lines[at]) - len(lines[at].lstrip(' '))]}}}"
    return at + 1 < len(lines) and (lines[at].endswith("}") or closing in lines[at + 1 : -1])


@dataclass(frozen=True)
class Edit:
    """A planted bug: its file, the files that it changes, and what it puts in the place of what."""

    crate: str
    path: str
    files: tuple[str, ...]
    pairs: tuple[tuple[str, str], ...]
    is_of_gate: bool

    @staticmethod
    def read(crate: str, path: str) -> Edit:
        text = text_of(path)
        files = sorted({it.strip() for it in re.findall(r"^file: (.*)$", text, re.MULTILINE)})
        pairs: list[tuple[str, str]] = re.findall(r"^old: (.*)\nnew: ?(.*)$", text, re.MULTILINE)
        return Edit(crate, path, tuple(files), tuple(pairs), GATE in text)

    @property
    def name(self) -> str:
        return os.path.basename(self.path)

    @property
    def title(self) -> str:
        """Its name without the ending of its file."""
        return self.name.removesuffix(".edit")

    @property
    def digest(self) -> str:
        """Twelve digits by which its words differ from those of others; the gate's mark and comments don't count."""
        lines = [*self.files, *(text for pair in self.pairs for text in pair)]
        return hashlib.sha256("\n".join(lines).encode()).hexdigest()[:12]

    @property
    def function(self) -> str | None:
        """The function that all of it is in, as a pattern of the checker's names for it and its closures; None where this isn't clear."""
        return self.place[0] if self.place else None

    @property
    def only(self) -> str | None:
        """The function as `rt check --only` takes it."""
        return self.place[1] if self.place else None

    def is_in(self, name: str) -> bool:
        """Whether the checker's name is that of its function, or of a closure in it."""
        return self.function is not None and re.match(self.function, name) is not None

    def source(self) -> str:
        return text_of(f"{ROOT}/crates/{self.crate}/{self.files[0]}")

    @cached_property
    def place(self) -> tuple[str, str | None] | None:
        """The function that all of it is in, in both spellings."""
        found = self.owners()
        if found is None or len(found) != 1:
            return None
        ((trait, owner, name),) = found
        if owner != "}":
            # named by the module of its type, which may be another; where another crate has the type, by that of the file
            modules = modules_of(self.crate, owner) or [module_at(self.files[0][len("src/") :])]
            # a trait's method is under the names of type, trait and the trait's argument, as in LineFaultFromAllocError::from
            of_trait = re.match(r"(?:\w+::)*(\w+)(?:<(?:\w+::)*(\w+))?", trait)
            of_type = owner + "".join(of_trait.groups("") if of_trait else [])
            return rf"{self.crate}::(?:\w+::)*{of_type}[\w+]*::{name}(?=$|::)", "::".join([self.crate, *modules[0], of_type, name]) if len(modules) == 1 else None
        module = "::".join([self.crate, *module_at(self.files[0][len("src/") :])])
        return rf"{module}::(?:fn::)?{name}(?=$|::)", f"{module}::{name}"

    def owners(self) -> set[tuple[str, str, str]] | None:
        """The functions that its texts are in: the trait, the type and the name of each. None where a text isn't in one function."""
        if len(self.files) != 1 or not self.files[0].startswith("src/"):
            return None
        text = self.source()
        found: set[tuple[str, str, str]] = set()
        for old, _ in self.pairs:
            if text.count(old) != 1 or re.search(r"\b(fn|ensures|requires|invariant)\b", old):
                return None  # a contract is read by other functions too
            lines = text[: text.index(old) + len(old)].split("\n")
            names = [(at, it[1]) for at, line in enumerate(lines) if (it := re.match(r"\s*(?:pub(?:\(\w+\))? )?(?:const )?(?:unsafe )?fn (\w+)", line))]
            if not names or has_ended(lines, names[-1][0]):
                return None
            owners = [it.groups() for line in lines[: names[-1][0]] if (it := IMPL.match(line) or re.match(r"()(\})", line))]
            trait, owner = owners[-1] if owners else ("", "}")
            found.add((trait or "", owner, names[-1][1]))
        return found

    def applied(self, texts: Texts) -> Texts | None:
        """The texts with this edit, None where it doesn't fit them."""
        if len(self.files) != 1 or not self.pairs:
            return None
        text = texts.get(self.files[0]) or self.source()
        for old, new in self.pairs:
            if text.count(old) != 1:
                return None
            text = text.replace(old, new)
        return {**texts, self.files[0]: text}


def first_batch(edits: Sequence[Edit]) -> tuple[list[Edit], Texts]:
    """Edits of different functions that fit together, with the texts that they lead to."""
    batch: list[Edit] = []
    functions: set[str] = set()
    texts: Texts = {}
    for edit in edits:
        if edit.function and edit.function not in functions and (with_it := edit.applied(texts)):
            texts = with_it
            batch.append(edit)
            functions.add(edit.function)
    return batch, texts


def edits_of(crate: str) -> list[Edit]:
    """The planted bugs of a crate's wrong-bodies, by name."""
    return [Edit.read(crate, it) for it in sorted(glob.glob(f"{ROOT}/crates/{crate}/wrong-bodies/*.edit"))]

"""Has Agda check the definitions of the promise, and the laws of some crates: each lemma of their proofs."""

from __future__ import annotations

import resource
import shutil
import subprocess
import tempfile
from collections.abc import Iterable, Iterator, Sequence
from dataclasses import dataclass
from functools import partial
from pathlib import Path

from dorydate.definitions.files import Definition, Group, Item, Use
from dorydate.definitions.library import WORDS, Defined, Library, Typed
from dorydate.definitions.promise import WORDS_FILE, Judge, deeply
from dorydate.definitions.reach import Reach, terms_of
from dorydate.definitions.terms import Field, Name, inside
from workshop.parts import ROOT
from workshop.second.agda import BY_HAND as LEMMAS
from workshop.second.agda import Writer, goal_of
from workshop.second.rows import sources
from workshop.tools import lacking

CRATES = ("stream_law", "reset_law", "pairing_law")
BY_HAND = ("Base", "Lemmas", "Linear", "Tactics")
HERE = Path(__file__).parent
HEAD = "{-# OPTIONS --safe #-}"
TACTICS = "Tactics using (rw-; cc-; omega-; search-; eq-or-lt-; no-facts; _&_)"


@dataclass
class Modules:
    """Modules of Agda by their names, each after those that it needs, and how many definitions, types of Rust, lemmas
    and answers they have."""

    texts: dict[str, str]
    definitions: int = 0
    types: int = 0
    lemmas: int = 0
    answers: int = 0

    def add(self, name: str, lines: Iterable[str], imports: Iterable[str]) -> None:
        opened = [f"open import {it}" for it in imports]
        self.texts[name] = "\n".join([HEAD, f"module {name} where", "", *opened, "", *lines])


def of_page(judge: Judge, clauses: Sequence[str]) -> Modules:
    """The definitions to which the clauses of some files lead, as one module."""
    reach = judge.reach(*clauses)
    writer = Writer(judge.library)
    lines = [line for it in reach.definitions.values() for line in writer.written(it)]
    if opaque := " ".join(f"({it}° : Set)" for it in writer.rust.opaque):
        lines = [f"module _ {opaque} where", *(f"  {it}" if it else it for it in lines)]
    own = sum(1 for module, _ in reach.definitions if module != WORDS)
    found = Modules({}, own, len(writer.rust.written))
    found.add("Promise", lines, ["Base"])
    return found


def of_laws(library: Library, crate: str) -> Modules:
    """A crate's laws: the words, the definitions, and each file of its proofs with all of its lemmas."""
    files = in_order(library, files_of(crate))
    reach = reached(library, files)
    writer = Writer(library)
    laws = words(library)
    specs = [line for it in below(reach, files) for line in writer.written(it)]
    laws.definitions = sum(1 for _ in below(reach, files))
    assert not writer.rust.opaque, writer.rust.opaque
    opened = [public(it) for it in ("Base", "Words", "Lemmas", "Linear using (share-le)")]
    laws.add("Specs", specs, [*opened, TACTICS])
    before = ["Specs public"]
    for name in files:
        here = library.module(name)
        many = sum(1 for it in here.own.values() if isinstance(it, Definition))
        is_answer = any(it.endswith(".Goals") for it in here.aliases.values())
        laws.answers += many if is_answer else 0
        laws.lemmas += 0 if is_answer else many
        laws.add(module_name(name), items(writer, here.items, name), [*before, TACTICS])
        before.append(module_name(name))
    return laws


def words(library: Library) -> Modules:
    """The words of the library, as a module."""
    found = Modules({})
    found.add("Words", items(Writer(library), library.module(WORDS).items, WORDS), ["Base"])
    return found


def files_of(crate: str) -> list[str]:
    """The modules of a crate's proofs."""
    root = Path(f"{ROOT}/crates/{crate}/proofs")
    found = [str(it.relative_to(root).with_suffix("")).replace("/", ".") for it in sorted(root.rglob("*.antt"))]
    return [f"Rattle.{crate}.proofs.{it}" for it in found if it not in ("Lib", "lemmas")]


def in_order(library: Library, modules: Sequence[str]) -> list[str]:
    """Modules, each after those that it uses."""
    found: list[str] = []

    def take(name: str) -> None:
        if name not in found and name in modules:
            for it in library.module(name).items:
                if isinstance(it, Use):
                    take(it.module)
            found.append(name)

    for it in modules:
        take(it)
    return found


def reached(library: Library, modules: Sequence[str]) -> Reach:
    """All to which the lemmas of some files lead, and the goals that they name."""
    reach = Reach(library)
    for name in modules:
        here = library.module(name)
        terms = [terms_of(it) for it in here.own.values()]
        reach.follow_term((*terms, *here.groups.values()), name)
        goals = {alias: module for alias, module in here.aliases.items() if module.endswith(".Goals")}
        for it in inside(terms):
            if isinstance(it, Field) and isinstance(it.of, Name) and it.of.text in goals:
                reach.follow_term(*goal_of(library, goals[it.of.text], it.name))
    return reach


def below(reach: Reach, files: Sequence[str]) -> Iterator[Defined | Typed]:
    """What isn't of these files and the words, file by file, in its order."""
    for module in in_order(reach.library, [it for it in reach.modules if it not in files]):
        for name in reach.library.module(module).own:
            if (module, name) in reach.definitions and (module, name) not in LEMMAS:
                yield reach.definitions[module, name]


def public(module: str) -> str:
    """An import that is passed on: of a module, or of some names of it."""
    name, using, names = module.partition(" using ")
    return f"{name} public{using}{names}"


def module_name(module: str) -> str:
    parts = module.split(".")
    return "-".join([parts[1], *parts[3:]]).replace("_", "-")


def items(writer: Writer, found: Sequence[Item], module: str) -> Iterator[str]:
    """The lines of a file's items, in its order."""
    for it in found:
        if isinstance(it, Group):
            before, binders = writer.parameters, list[str]()
            for one in it.binders:
                binders.append(writer.binder(one, module, writer.parameters))
                writer.parameters |= {*one.names}
            yield f"module _ {' '.join(binders)} where" if binders else "mutual"
            yield from (f"  {line}" for line in items(writer, it.items, module))
            writer.parameters = before
        elif not isinstance(it, Use):
            yield from writer.written(Defined(module, it) if isinstance(it, Definition) else Typed(module, it))


def checked(modules: Modules) -> tuple[str, float]:
    """What Agda says is wrong with some modules, nothing where it finds nothing; and its seconds of the processor."""
    with tempfile.TemporaryDirectory() as room:
        for it in BY_HAND:
            shutil.copy(file_of(it), room)
        imports = [f"import {it}" for it in modules.texts]
        for name, text in {**modules.texts, "All": "\n".join([HEAD, "module All where", *imports])}.items():
            Path(f"{room}/{name}.agda").write_text(text, encoding="utf-8")
        before = resource.getrusage(resource.RUSAGE_CHILDREN)
        ran = subprocess.run(["agda", "All.agda"], cwd=room, capture_output=True, text=True, check=False)
        after = resource.getrusage(resource.RUSAGE_CHILDREN)
    said = "" if ran.returncode == 0 else ran.stdout + ran.stderr
    return said, after.ru_utime + after.ru_stime - before.ru_utime - before.ru_stime


def file_of(module: str) -> Path:
    """A module that is written by hand."""
    return HERE / f"{module}.agda" if module == "Base" else HERE / "laws" / f"{module}.agda"


def faults() -> list[str]:
    """What is wrong with the laws, as Agda says; what it read is printed."""
    if not shutil.which("agda"):
        lacking("second", f"Agda over the laws of {', '.join(CRATES)}", "Agda")
        return []
    wrong = []
    for crate in CRATES:
        laws = deeply(partial(of_laws, Library(sources()), crate))
        said, seconds = checked(laws)
        what = f"{laws.lemmas} lemmas and {laws.answers} answers, over {laws.definitions} definitions"
        found = "refused" if said else "each is checked"
        print(f"check second: Agda: {crate}: {what}: {found} ({seconds:.0f} s of the processor)", flush=True)
        wrong += [f"{crate}: {said[-2000:]}"] if said else []
    texts = {it.name: it.read_text(encoding="utf-8") for it in [*map(file_of, BY_HAND), WORDS_FILE]}
    lines = [f"{name} {text.count(chr(10))} lines" for name, text in texts.items()]
    print(f"check second: by hand: {', '.join(lines)}", flush=True)
    return wrong

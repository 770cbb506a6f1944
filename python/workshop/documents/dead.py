"""Which declarations of proofs/ nothing leads to: names are followed by the modules that declare them, from what the checker asks for.

What it asks for are the answers to goals, invariants and proofs of functions, the lemmas that sources name in their tactics and imports, and
of the lemmas that a crate lends only those that another crate takes. From these each name is followed to its declaration, in the same file or by
an import. The rest proves nothing of a contract. `python3 python dead --delete CRATE ..` takes it out of the files.
"""

from __future__ import annotations

import functools
import glob
import os
import re
from collections.abc import Iterator
from dataclasses import dataclass, field

from workshop.parts import ROOT, text_of
from workshop.words import Words

# files whose declarations the checker asks for by their names
ASKED_FOR = ("Answers.antt", "Invariants.antt", "Proof.antt")
USE = re.compile(r"^ *(pub )?use (Rattle\.[^\s{]+?)(?:\.\{([^}]*)\})?(?: as (\S+))?$")
HEAD = re.compile(r"^( *)(?:(?:pub|abbrev|unfoldable|pattern) )*(?:(record|data|ruleset|clause) )?([^\s(){}\[\],;:]+)")
SECTION = re.compile(r"^( *)(?:(?:pub|mutual) )*(?:module|mutual)\b")
TOKEN = re.compile(r"[^\s(){}\[\],;:`\"]+")
CONSTRUCTOR = re.compile(r"^ +(?:pub )?([^\s(){}\[\],;:]+) :")
IN_SOURCE = re.compile(r"\bcrate::proofs::([\w:]+)")
GHOST_USE = re.compile(r"ghost use (Rattle\.\w+\.proofs\.[\w.]+)\.\{([^}]*)\}")

Name = tuple[str, str]  # a module, and a name in it


@dataclass
class Block:
    """The lines of a declaration, from the comment above it on."""

    first: int
    last: int
    words: set[str] = field(default_factory=set)


@dataclass
class Source:
    """A file of proofs/: its declarations, and where the names come from that it imports."""

    path: str
    blocks: dict[str, list[Block]] = field(default_factory=dict)
    imports: dict[str, Name] = field(default_factory=dict)
    aliases: dict[str, str] = field(default_factory=dict)
    heads: set[str] = field(default_factory=set)
    constructors: dict[str, str] = field(default_factory=dict)


def uncommented(line: str) -> str:
    return re.sub(r"(^|\s)--(\s.*|-*)$", "", line)


def taken_in(source: Source, line: str) -> bool:
    """Takes in a line that imports something."""
    found = USE.match(line)
    if not found:
        return False
    if found[3] is not None:
        for it in filter(None, (it.strip() for it in found[3].split(","))):
            name, _, local = it.partition(" as ")
            source.imports[(local or name).strip()] = (found[2], name.strip())
    else:
        source.aliases[found[4] or found[2].rpartition(".")[2]] = found[2]
    return True


def parsed(path: str, text: str) -> Source:
    """The declarations of a file, by its layout: each begins at the indent of its section, and what is further in belongs to it."""
    source = Source(path)
    current: Block | None = None
    indents = [0]  # of the sections that are open
    lines = text.split("\n")
    for at, whole in enumerate(lines):
        line = uncommented(whole).rstrip()
        if not line or taken_in(source, line) or re.match(r" *(?:pub )?mod ", line):
            continue
        depth = len(line) - len(line.lstrip(" "))
        while depth < indents[-1]:
            indents.pop()
        if SECTION.match(line) and depth == indents[-1]:
            source.heads |= {*TOKEN.findall(line)}
            current = None
            indents.append(depth + 2)
            continue
        if depth > indents[-1] or re.match(r" *([\])}]|unfolding )", line):
            if current:
                current.last = at
            (current.words if current else source.heads).update(TOKEN.findall(line))
            continue
        found = HEAD.match(line)
        if found and (found[2] or re.search(r" : |=| where$", line) or line.rstrip().endswith(found[3])):
            current = Block(above(lines, at), at, {*TOKEN.findall(line)})
            source.blocks.setdefault(found[3], []).append(current)
            if found[2] == "data":
                source.constructors |= dict.fromkeys(constructors(lines, at), found[3])
    return source


def above(lines: list[str], at: int) -> int:
    """Where the comment above a line begins."""
    while at > 0 and re.match(r" *-- (?!---)", lines[at - 1]):
        at -= 1
    return at


def constructors(lines: list[str], at: int) -> Iterator[str]:
    for line in lines[at + 1 :]:
        if not (found := CONSTRUCTOR.match(line)):
            return
        yield found[1]


@functools.cache
def sources() -> dict[str, Source]:
    """The files of proofs/ of all crates, by their modules."""
    found = {}
    for path in sorted(glob.glob(f"{ROOT}/crates/*/proofs/**/*.antt", recursive=True)):
        if "/out/" not in path:
            parts = os.path.relpath(path, f"{ROOT}/crates").removesuffix(".antt").removesuffix("/Lib").split("/")
            found["Rattle." + ".".join(parts)] = parsed(path, text_of(path))
    return found


def passed_on(every: dict[str, Source], module: str) -> str:
    """The module itself, or where another passes it on, as `lemmas` does, the one that is meant."""
    above, _, last = module.rpartition(".")
    if module in every or not above:
        return module
    return every[above].aliases.get(last, module) if above in every else module


def declared(every: dict[str, Source], module: str, name: str) -> Iterator[Name]:
    """Where a name that a file uses may be declared: here, or by way of imports."""
    module = passed_on(every, module)
    source = every.get(module)
    if source is None:
        return
    if name in source.blocks:
        yield module, name
    elif name in source.constructors:
        yield module, source.constructors[name]
    elif name in source.imports:
        yield from declared(every, *source.imports[name])


def named(every: dict[str, Source], module: str, word: str) -> Iterator[Name]:
    """The declarations that a word of a file may name: it may have fields after it, or a module before it."""
    source = every[module]
    parts = word.strip(".").split(".")
    yield from (it for part in {word, *parts} for it in declared(every, module, part))
    for count in range(1, len(parts)):
        if (alias := ".".join(parts[:count])) in source.aliases:
            yield from declared(every, source.aliases[alias], parts[count])


def asked_for(every: dict[str, Source]) -> Iterator[Name]:
    """The declarations that the checker, or a source, asks for by name."""
    for module, source in every.items():
        if os.path.basename(source.path) in ASKED_FOR:
            yield from ((module, name) for name in source.blocks)
    for path in glob.glob(f"{ROOT}/crates/*/src/**/*.rt", recursive=True):
        crate, text = os.path.relpath(path, f"{ROOT}/crates").split("/")[0], text_of(path)
        for said in IN_SOURCE.findall(text):
            *parts, name = said.split("::")
            yield from declared(every, ".".join(["Rattle", crate, "proofs", *parts]), name)
        for module, names in GHOST_USE.findall(text):
            yield from (it for name in names.split(",") for it in declared(every, module, name.strip()))


def reached(every: dict[str, Source]) -> set[Name]:
    """All declarations that what is asked for leads to. The heads of sections count as asked for."""
    waiting = [*asked_for(every)]
    waiting += [it for module, source in every.items() for word in source.heads for it in named(every, module, word)]
    seen = {*waiting}
    while waiting:
        module, name = waiting.pop()
        for word in {word for block in every[module].blocks[name] for word in block.words}:
            for it in named(every, module, word):
                if it not in seen:
                    seen.add(it)
                    waiting.append(it)
    return seen


def dead() -> dict[str, list[str]]:
    """The names of each module that nothing leads to."""
    every = sources()
    alive = reached(every)
    found = {module: [name for name in source.blocks if (module, name) not in alive] for module, source in every.items() if os.path.basename(source.path) not in ASKED_FOR}
    return {module: names for module, names in found.items() if names}


def faults() -> list[str]:
    every = sources()
    return [f"{os.path.relpath(every[module].path, ROOT)}:{every[module].blocks[name][0].first + 1}: nothing that is proved leads to `{name}`" for module, names in dead().items() for name in names]


def without(text: str, source: Source, names: list[str]) -> str:
    """A file without these declarations, and without what an empty place leaves."""
    lines = text.split("\n")
    gone = {at for name in names for block in source.blocks[name] for at in range(block.first, block.last + 1)}
    kept = "\n".join(line for at, line in enumerate(lines) if at not in gone)
    kept = re.sub(r"\n *-- ----[^\n]*\n(?=\s*(?:-- ----|$))", "\n", kept)
    return re.sub(r"\n{3,}", "\n\n", without_empty(kept)).rstrip("\n") + "\n"


def without_empty(text: str) -> str:
    """A file without the sections that declare nothing."""
    lines = text.split("\n")
    for at, line in enumerate(lines):
        if SECTION.match(line) and line.endswith("where"):
            after = next((it for it in lines[at + 1 :] if it.strip()), "")
            if len(after) - len(after.lstrip()) <= len(line) - len(line.lstrip()):
                return without_empty("\n".join(lines[:at] + lines[at + 1 :]))
    return text


def without_imports(text: str, gone: dict[str, list[str]]) -> str:
    """A file that takes none of these names from their modules."""
    lines = []
    for line in text.split("\n"):
        found = USE.match(line)
        if found and found[3] is not None and found[2] in gone:
            taken = [it.strip() for it in found[3].split(",")]
            left = [it for it in taken if it.partition(" as ")[0] not in gone[found[2]]]
            if left:
                lines.append(line.replace(f"{{{found[3]}}}", f"{{{', '.join(left)}}}"))
        else:
            lines.append(line)
    return "\n".join(lines)


def main() -> int:
    words = Words(__doc__)
    words.add_argument("--delete", nargs="+", metavar="CRATE", help="take what is dead out of these crates")
    crates = words.asked().delete
    if crates is None:
        print(*faults(), sep="\n")
        return 0
    gone = {module: names for module, names in dead().items() if module.split(".")[1] in crates}
    for module, source in sources().items():
        names = gone.get(module, [])
        before = text_of(source.path)
        text = without_imports(without(before, source, names) if names else before, gone)
        if text != before:
            with open(source.path, "w", encoding="utf-8") as file:
                file.write(text)
        if names:
            print(f"{os.path.relpath(source.path, ROOT)}: {', '.join(names)}")
    return 0

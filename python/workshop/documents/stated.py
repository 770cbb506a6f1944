"""Which lemmas of proofs/ state what std or another lemma of the house states, but for the names of variables.

Each name of a statement is followed to the crate that declares it, so that two laws with an `Event` each are not taken
for one. docs/measured/stated.json has the statements of which more than one lemma is known, each by a sum of its words,
and how many more there are. One more lemma, or one that states what std states, is a fault. `python3 python stated`
prints all of them, and `./check docs --lower` takes off what is gone.
"""

from __future__ import annotations

import functools
import glob
import hashlib
import json
import os
import re
import shutil
from collections import Counter, defaultdict
from collections.abc import Iterator
from dataclasses import dataclass

from workshop.documents import dead
from workshop.documents.dead import Source
from workshop.parts import ROOT, text_of
from workshop.words import Words

KEPT = f"{ROOT}/docs/measured/stated.json"
TOKEN = re.compile(r"[^\s(){}\[\];,]+|[(){}\[\];,]")
BINDER = re.compile(r"[({]\s*([^(){}:]+?)\s+:\s")
LAMBDA = re.compile(r"λ ([^(){}.]+)\.")
SAYS = re.compile(r"[≡≢≤<⊥⊎×↔]|\b(?:Is|Are|Has|Have|All|Any|Contains)\w*")
FEWEST = 4  # words of a statement that is worth comparing
STD = "std"


@dataclass(frozen=True)
class Lemma:
    """A lemma: its file, its line and its name."""

    file: str
    line: int
    name: str

    def __str__(self) -> str:
        return f"{self.file}:{self.line} `{self.name}`"


def statement(lines: list[str], first: int, last: int) -> tuple[int, str, str] | None:
    """The line, the name and the statement of a lemma that these lines declare; None for other declarations."""
    for at in range(first, last + 1):
        found = re.match(r"(?:pub )?([^\s(){}\[\],;:]+) ((?:[({][^:]*:.*[)}] )?): ?(.*)$", lines[at])
        if lines[at].startswith("--") or not found:
            if lines[at].startswith("--"):
                continue
            return None
        said = [found[2], found[3]]
        for more in lines[at + 1 : last + 1]:
            if not more.startswith(" "):
                break
            said.append(more.strip())
        return at, found[1], " ".join(said)
    return None


def origin(every: dict[str, Source], source: Source, module: str, name: str) -> str:
    """A name with the crate that declares it; only the name, where std or what is below it declares it."""
    head, _, rest = name.partition(".")
    if head in source.blocks:
        return f"{crate_of(module)}.{name}"
    if head in source.aliases:
        return f"{crate_of(source.aliases[head])}.{rest}"
    seen = module
    while head in every[seen].imports if seen in every else False:
        if head in every[seen].blocks:
            break
        seen, head = every[seen].imports[head]
    whole = f"{crate_of(seen)}.{head}.{rest}" if rest else f"{crate_of(seen)}.{head}"
    return name if seen == module or not is_of_house(seen) else whole


@functools.cache
def crates() -> frozenset[str]:
    return frozenset(os.path.basename(it) for it in glob.glob(f"{ROOT}/crates/*"))


def crate_of(module: str) -> str:
    """The crate of a module. A file may move in it, so its statements stay what they are."""
    return module.split(".")[1] if "." in module else module


def is_of_house(module: str) -> bool:
    """Whether a module is of one of the crates here."""
    parts = module.split(".")
    return len(parts) > 1 and parts[0] == "Rattle" and parts[1] in crates()


def normal(said: str, named: dict[str, str]) -> str:
    """A statement with its variables by their order and each other name by its origin."""
    bound = {name for it in (*BINDER.findall(said), *LAMBDA.findall(said)) for name in it.split()}
    order: dict[str, str] = {}
    words = []
    for word in TOKEN.findall(re.sub(r"\{[\w ]+ : Type 0\} →", "", said)):
        head, dot, rest = word.partition(".")
        if head in bound:
            words.append(order.setdefault(head, f"v{len(order)}") + dot + rest)
        else:
            words.append(named.get(word, word))
    # (a : A) (b : A) and (a b : A) are one thing
    text = " ".join(words)
    while (joined := re.sub(r"\( ((?:v\d+ )+): ([^()]*) \) \( ((?:v\d+ )+): \2 \)", r"( \1\3: \2 )", text)) != text:
        text = joined
    return text


def lemmas(every: dict[str, Source], module: str) -> list[tuple[str, Lemma]]:
    """The lemmas at the top of a file, each with its statement in its normal form."""
    source = every[module]
    lines = text_of(source.path).split("\n")
    found = []
    for blocks in source.blocks.values():
        for block in blocks[:1]:
            if not (stated := statement(lines, block.first, block.last)):
                continue
            at, name, said = stated
            words = [it for it in TOKEN.findall(said) if it not in "(){}[];,"]
            if len(words) < FEWEST or not SAYS.search(said) or "goal." in said or said.rstrip().endswith("Type 0"):
                continue
            named = {it: origin(every, source, module, it) for it in words}
            found.append((normal(said, named), Lemma(os.path.relpath(source.path, ROOT), at + 1, name)))
    return found


def parsed(folder: str, prefix: str) -> dict[str, Source]:
    """The files of a folder of proofs, by their modules."""
    found = {}
    for path in sorted(glob.glob(f"{folder}/**/*.antt", recursive=True)):
        parts = os.path.relpath(path, folder).removesuffix(".antt").removesuffix("/Lib").split("/")
        found[".".join([prefix, *parts])] = dead.parsed(path, text_of(path))
    return found


def passed_by(source: Source) -> Iterator[str]:
    """The names that a file imports and passes on."""
    for line in text_of(source.path).split("\n"):
        found = dead.USE.match(line)
        if found and found[1] and found[3]:
            for it in found[3].split(","):
                name, _, local = it.partition(" as ")
                yield (local or name).strip()


@functools.cache
def of_std() -> dict[str, str]:
    """What std states in lemmas that others may take: each statement, and where. Nothing without a toolchain."""
    rt = shutil.which("rt")
    if not rt:
        return {}
    folder = f"{os.path.dirname(os.path.dirname(os.path.realpath(rt)))}/rattle"
    every: dict[str, Source] = {}
    for crate in ("std", "core"):
        every |= parsed(f"{folder}/{crate}/proofs", f"Rattle.{crate}.proofs")
    lent = {module: source for module, source in every.items() if "/std/proofs/lemmas/" in source.path}
    passed = {source.imports[name]: f"{module}.{name}" for module, source in lent.items() for name in passed_by(source)}
    found: dict[str, str] = {}
    for module, source in every.items():
        lines = text_of(source.path).split("\n")
        for said, lemma in lemmas(every, module):
            own = f"{module}.{lemma.name}" if module in lent else passed.get((module, lemma.name))
            if lines[lemma.line - 1].startswith("pub ") and (name := own):
                found.setdefault(said, name)
    return found


@functools.cache
def of_house() -> dict[str, list[Lemma]]:
    """The lemmas of the house by what they state."""
    every = dead.sources()
    found: dict[str, list[Lemma]] = defaultdict(list)
    for module in every:
        for said, lemma in lemmas(every, module):
            found[said].append(lemma)
    return found


def sum_of(said: str) -> str:
    return hashlib.sha256(said.encode()).hexdigest()[:12]


def counted() -> dict[str, int]:
    """How many lemmas more than one state the same, and how many state what std does, by the sum of the statement."""
    std = of_std()
    many = {sum_of(said): len(them) if said in std else len(them) - 1 for said, them in of_house().items()}
    return {key: it for key, it in many.items() if it}


def kept() -> dict[str, int]:
    if not os.path.exists(KEPT):
        return {}
    return {key: int(many) for key, many in json.loads(text_of(KEPT)).items()}


def over(house: dict[str, list[Lemma]], std: dict[str, str], most: dict[str, int]) -> list[str]:
    """The statements of which there are more lemmas than there may be, each with a lemma that may be taken instead."""
    found = []
    for said, them in house.items():
        elsewhere = std.get(said)
        if len(them) - (0 if elsewhere else 1) > most.get(sum_of(said), 0):
            *others, last = them
            more = len(others) - (0 if elsewhere else 1)
            others_do = f", and {more} more do" if more else ""
            found.append(f"{last}: it states what {elsewhere or others[0]} does{others_do}")
    return found


def faults() -> list[str]:
    """The lemmas that state once more what another lemma, or one of std, states."""
    return over(of_house(), of_std(), kept())


def summary() -> str:
    now = Counter(counted())
    return f"{now.total():,} lemmas state what another does"


def lower() -> None:
    """Writes how many there are, where that is fewer."""
    most = kept() if os.path.exists(KEPT) else None
    now = {key: many if most is None else min(many, most.get(key, 0)) for key, many in counted().items()}
    with open(KEPT, "w", encoding="utf-8") as file:
        file.write("{\n" + ",\n".join(f' "{key}": {many}' for key, many in sorted(now.items()) if many) + "\n}\n")


def main() -> int:
    Words(__doc__).asked()
    std = of_std()
    groups = [(said, them) for said, them in of_house().items() if len(them) > 1 or said in std]
    for said, them in sorted(groups, key=lambda it: -len(it[1])):
        known = f", and {std[said]}" if said in std else ""
        print(f"{len(them)} times{known}: {'; '.join(str(it) for it in them)}")
    print(summary())
    return 0

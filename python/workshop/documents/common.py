"""A crate's proofs/Common.antt passes on the names that several of its proofs take from elsewhere: one line a file.

Elsewhere is std, other crates and the crate's own definitions. A name that two modules declare keeps its own lines, and
so does one that a file unfolds, renames or declares. A file takes what it names of a module through Common where all of
that may come so, and where the octets of its lines become fewer; and a module is passed on where those of all files do.
`python3 python common CRATE ..` writes the module and the lines.
"""

from __future__ import annotations

import glob
import os
import re
from collections import Counter, defaultdict
from collections.abc import Iterable
from dataclasses import dataclass

from workshop.documents import budget
from workshop.parts import ROOT, text_of
from workshop.words import Words

TAKEN = re.compile(r"use ([^\s{]+)\.\{([^}]*)\}")
DECLARED = re.compile(r" *(?:(?:pub|abbrev|unfoldable|pattern|record|data) )*([^(){}:]+?) (?:\(.*\) )?:")
HEAD = "-- The names that several files of these proofs take from elsewhere, passed on from one place.\n"
FEWEST = 2  # files that take a name which is passed on

Use = tuple[str, str]  # a module, and a name of it


@dataclass(frozen=True)
class Proofs:
    """A crate's folder of proofs."""

    crate: str
    root: str = ROOT

    @property
    def folder(self) -> str:
        return f"{self.root}/crates/{self.crate}/proofs"

    @property
    def module(self) -> str:
        return f"Rattle.{self.crate}.proofs.Common"

    @property
    def common(self) -> str:
        return f"{self.folder}/Common.antt"

    def is_elsewhere(self, module: str) -> bool:
        return not module.startswith(f"Rattle.{self.crate}.proofs.")

    def files(self) -> dict[str, list[str]]:
        """The lines of each file that may take from the module: not lists of modules, nor what other crates take."""
        paths = sorted(glob.glob(f"{self.folder}/**/*.antt", recursive=True))
        may = [it for it in paths if it != self.common and os.path.basename(it) != "lemmas.antt"]
        texts = {path: text_of(path).split("\n") for path in may}
        return {path: lines for path, lines in texts.items() if not any(re.match(r"(pub )?mod ", it) for it in lines)}

    def passed_on(self) -> dict[str, str]:
        """The names that the module passes on today, each with the module that declares it."""
        if not os.path.exists(self.common):
            return {}
        lines = text_of(self.common).replace("pub use", "use").split("\n")
        return {name: module for line in lines for module, name in names(line)}

    def faults(self) -> list[str]:
        """The names that the module passes on to fewer than two files."""
        uses = [use for lines in self.files().values() for line in lines for use in names(line)]
        counted = Counter(name for module, name in uses if module == self.module)
        where = os.path.relpath(self.common, self.root)
        few = [(name, counted[name]) for name in self.passed_on() if counted[name] < FEWEST]
        return [f"{where}: passes on `{name}`, which {many} files take" for name, many in few]


def names(line: str) -> list[Use]:
    """What a line takes by its name."""
    if not (found := TAKEN.fullmatch(line)):
        return []
    return [(found[1], name) for it in found[2].split(",") if (name := it.strip())]


def own(lines: list[str]) -> set[str]:
    """The names that keep lines of their own in a file: those that it unfolds or declares."""
    unfolded = {word for line in lines if line.lstrip().startswith("unfolding ") for word in line.split()[1:]}
    declared = {word for line in lines if (found := DECLARED.match(line)) for word in found[1].split()}
    return unfolded | declared


def spelled_out(proofs: Proofs, lines: list[str]) -> list[str]:
    """A file that takes each name from where it is declared, in one line for each module."""
    passed = proofs.passed_on()
    by_module: dict[str, dict[str, None]] = {}
    places: list[str | None] = []  # the module that a line takes from
    out: list[str] = []
    for line in lines:
        uses = names(line)
        if not uses or not (uses[0][0] == proofs.module or proofs.is_elsewhere(uses[0][0])):
            places, out = [*places, None], [*out, line]
            continue
        for module, name in uses:
            module = passed.get(name, module) if module == proofs.module else module
            if module not in by_module:
                places, out = [*places, module], [*out, ""]
            by_module.setdefault(module, {})[name] = None
    merged = {module: f"use {module}.{{{', '.join(several)}}}" for module, several in by_module.items()}
    return [merged[at] if at else line for at, line in zip(places, out, strict=True)]


def taken(proofs: Proofs, lines: list[str]) -> dict[int, list[Use]]:
    """What each line takes from elsewhere, by the line's place."""
    return {at: uses for at, line in enumerate(lines) if (uses := names(line)) and proofs.is_elsewhere(uses[0][0])}


def shared(proofs: Proofs, files: Iterable[list[str]]) -> set[Use]:
    """The names of one module each that enough files take as they are."""
    counted = Counter(use for lines in files for use in {use for uses in taken(proofs, lines).values() for use in uses})
    modules = defaultdict(set)
    for module, name in counted:
        modules[name].add(module)
    enough = {use for use, many in counted.items() if many >= FEWEST}
    return {(module, name) for module, name in enough if len(modules[name]) == 1 and " as " not in name}


def octets_of(lines: Iterable[str]) -> int:
    return sum(len(it.encode()) + 1 for it in lines)


def through(proofs: Proofs, lines: list[str], common: set[Use]) -> tuple[list[Use], int]:
    """What a file takes through the module, and how many octets that saves it; nothing where it saves none."""
    kept = own(lines)
    by_module: defaultdict[str, list[Use]] = defaultdict(list)
    for uses in taken(proofs, lines).values():
        by_module[uses[0][0]] += uses
    whole = [uses for uses in by_module.values() if all(it in common and it[1] not in kept for it in uses)]
    found = [it for uses in whole for it in uses]
    saved = octets_of(grouped(found)) - octets_of([one_line(proofs, found)])
    return (found, saved) if saved > 0 else ([], 0)


def one_line(proofs: Proofs, uses: list[Use]) -> str:
    return f"use {proofs.module}.{{{', '.join(name for _, name in uses)}}}"


def taking(proofs: Proofs, lines: list[str], found: list[Use]) -> list[str]:
    """A file that takes these from the module."""
    places = taken(proofs, lines)
    out = []
    for at, line in enumerate(lines):
        out += [one_line(proofs, found)] if found and at == min(places) else []
        out += grouped([use for use in places[at] if use not in found]) if at in places else [line]
    return out


def grouped(uses: list[Use], before: str = "") -> list[str]:
    """A line for each module of these names."""
    by_module = defaultdict(list)
    for module, name in uses:
        by_module[module].append(name)
    return [f"{before}use {module}.{{{', '.join(several)}}}" for module, several in by_module.items()]


def settled(proofs: Proofs, direct: dict[str, list[str]]) -> tuple[dict[str, list[str]], set[Use]]:
    """The files where each name that comes through the module does so in enough of them, and these names."""
    common = shared(proofs, direct.values())
    while True:
        found = {path: through(proofs, lines, common)[0] for path, lines in direct.items()}
        counted = Counter(use for uses in found.values() for use in uses)
        few = {use for use in common if counted[use] < FEWEST} or dear(found.values(), {*counted})
        if not few:
            return {path: taking(proofs, lines, found[path]) for path, lines in direct.items()}, common
        common -= few


def dear(files: Iterable[list[Use]], passed: set[Use]) -> set[Use]:
    """What is passed on of the module whose line costs most beyond what files save; nothing where each saves some."""
    cost: Counter[str] = Counter()
    for line in grouped(sorted(passed), "pub "):
        cost[line.removeprefix("pub use ").split(".{")[0]] += octets_of([line])
    for module in (module for uses in files for module in {module for module, _ in uses}):
        cost[module] -= octets_of([f"use {module}.{{}}"])
    worst, most = max(cost.items(), key=lambda it: it[1], default=("", 0))
    return {use for use in passed if use[0] == worst} if most > 0 else set()


def written(proofs: Proofs) -> dict[str, str]:
    """The files that change, and what they have then; none where they wouldn't have fewer octets."""
    files = proofs.files()
    now, passed = settled(proofs, {path: spelled_out(proofs, lines) for path, lines in files.items()})
    changed = {path: "\n".join(lines) for path, lines in now.items() if lines != files[path]}
    changed[proofs.common] = HEAD + "\n".join(grouped(sorted(passed), "pub ")) + "\n"
    listed = f"{proofs.folder}/Lib.antt"
    if "mod Common" not in text_of(listed):
        changed[listed] = re.sub(r"^(?=(?:pub )?mod )", "pub mod Common\n", text_of(listed), count=1, flags=re.M)
    return changed if fewer(changed) > 0 else {}


def fewer(changed: dict[str, str]) -> int:
    """How many octets these files have less than they had."""
    before = sum(budget.octets_of(text_of(it)) for it in changed if os.path.exists(it))
    return before - sum(budget.octets_of(it) for it in changed.values())


def faults() -> list[str]:
    """What the modules of all crates pass on to fewer than two files."""
    paths = sorted(glob.glob(f"{ROOT}/crates/*/proofs/Common.antt"))
    return [it for path in paths for it in Proofs(os.path.relpath(path, f"{ROOT}/crates").split("/")[0]).faults()]


def main() -> int:
    for crate in Words(__doc__).names("crate", "the crates whose proofs are gathered").asked().crate:
        changed = written(Proofs(crate))
        saved = fewer(changed)
        for path, text in changed.items():
            with open(path, "w", encoding="utf-8") as file:
                file.write(text)
        print(f"{crate}: {len(changed)} files, {saved:,} octets fewer")
    return 0

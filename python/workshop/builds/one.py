"""Checks one crate over libraries that were proved before on this machine (seconds to minutes):
tools/check-one CRATE [--from CLONE] [WORDS FOR THE CHECKER ..]

After an `rt ci`, plain `rt check` in a fresh clone proves each crate below anew. Here the crate is checked over the
libraries that `rt ci` keeps beside the kit: of each crate below the newest whose definitions and clauses are those of
this clone. A crate of which none is kept is read from its sources, as is each above it; these are named first, and
`--only` should then name what is to be checked. Over sources more is in scope, so that a goal which `search` answers over
libraries may meet its limits: what is proved so is proved, and what isn't is to be seen over libraries. What a check
finds is kept in out/one/, and the next one begins with it.

Kit 13b keeps nothing beside it. There `--from CLONE` takes the libraries that an `rt ci` left in another clone, while
it still runs, too: of each crate whose sources are those of this clone, with all below it.

The words go to the checker: `--only PATH` for one function and the lemma files that its proof cites, `--allow-holes`,
`--jobs N`. No verdict rests on such a check: the gate is `rt ci`.
"""

from __future__ import annotations

import graphlib
import hashlib
import json
import os
import re
import shutil
import subprocess
import sys
from collections.abc import Iterator
from dataclasses import dataclass
from functools import cached_property

from workshop.builds.drivers import crates_below
from workshop.checks.copies import lines_of_crates
from workshop.parts import ROOT, text_of
from workshop.words import Words

CLAUSE = re.compile(r"^\s*(?:ensures|requires|ghost)\b.*?(?= ?(?:;|\{ ?\}?)?$)", re.MULTILINE)

ANSWERS = ("Answers.antt", "Invariants.antt", "Proof.antt")  # no other file can cite what is in these


def kit() -> str:
    """The folder of the toolchain."""
    return os.path.dirname(os.path.dirname(os.path.realpath(shutil.which("rt") or sys.exit("check-one: the toolchain's command rt is not on the path"))))


def store() -> str:
    """Where `rt ci` keeps what it proved."""
    return f"{os.path.dirname(kit())}/rattle-kept"


@dataclass(frozen=True)
class Library:
    """A proved library that `rt ci` kept: its crate, and the folder in which its files have numbers for names."""

    crate: str
    folder: str

    @cached_property
    def sums(self) -> dict[str, str]:
        """The sum of each of its files, by the path in the library."""
        with open(f"{self.folder}/made.json", encoding="utf-8") as file:
            return {path.removeprefix(f"rlib/{self.crate}.rlib/"): sum_of for path, sum_of in json.load(file)["files"]}

    @cached_property
    def places(self) -> dict[str, str]:
        """Where each of its files is kept."""
        return {path: f"{self.folder}/{number}" for number, path in enumerate(self.sums)}

    def is_of_sources(self) -> bool:
        """Whether its definitions are those of this clone, as are the lemmas that are still there, and each of its clauses is in the sources."""
        own = f"{ROOT}/crates/{self.crate}"
        texts = {module_of(os.path.relpath(path, own)): sum_of(path) for path in files_of(own, ("specs", "proofs"), ".antt")}
        kept = {path: it for path, it in self.sums.items() if re.match(r"lang/antt/(specs|proofs)[/.]", path)}
        if any(texts[path] != it for path, it in kept.items() if path in texts and os.path.basename(path) not in ANSWERS):
            return False
        if {it for it in texts if it.startswith("lang/antt/specs")} != {it for it in kept if it.startswith("lang/antt/specs")}:
            return False
        clauses = {line for path in files_of(own, ("src",), ".rt") for line in clauses_of(path)}
        return all(line in clauses for path, place in self.places.items() if path.startswith("lang/src/") for line in clauses_of(place))

    def put(self, folder: str) -> None:
        """Puts its files into a folder under their own names."""
        for path, place in self.places.items():
            os.makedirs(os.path.dirname(f"{folder}/{self.crate}.rlib/{path}"), exist_ok=True)
            os.link(place, f"{folder}/{self.crate}.rlib/{path}") if same_device(place, folder) else shutil.copyfile(place, f"{folder}/{self.crate}.rlib/{path}")


def same_device(one: str, other: str) -> bool:
    return os.stat(one).st_dev == os.stat(other).st_dev


def module_of(path: str) -> str:
    """Where a library has a file of a crate: a folder's Lib.antt is the folder's own module."""
    return f"lang/antt/{path.removesuffix('/Lib.antt').removesuffix('.antt')}.antt"


def sum_of(path: str) -> str:
    with open(path, "rb") as file:
        return hashlib.sha256(file.read()).hexdigest()


def files_of(folder: str, parts: tuple[str, ...], ending: str | tuple[str, ...]) -> Iterator[str]:
    """The files of some parts of a crate that end so, by their paths."""
    for part in parts:
        for at, _, names in os.walk(f"{folder}/{part}"):
            yield from (f"{at}/{it}" for it in names if it.endswith(ending))


def clauses_of(path: str) -> list[str]:
    """The first lines of the clauses in a source, without the blanks around them."""
    return [re.sub(r"\s+", " ", it).strip() for it in CLAUSE.findall(text_of(path))]


def libraries_of(crate: str) -> list[Library]:
    """What is kept of a crate, the newest first."""
    found = [it for it in os.listdir(store()) if re.fullmatch(rf"proof-{crate}-[0-9a-f]{{64}}", it)]
    return sorted((Library(crate, f"{store()}/{it}") for it in found), key=lambda it: -os.stat(it.folder).st_mtime)


def chosen(lines: dict[str, list[str]], needed: list[str], unusable: set[str]) -> dict[str, Library]:
    """A library for each of these crates that has a usable one, as have all below it. Each of `needed` comes after those
    below it."""
    if not os.path.isdir(store()):
        sys.exit("check-one: this kit keeps no libraries; --from CLONE takes those that `rt ci` left in a clone")
    found: dict[str, Library] = {}
    for crate in needed:
        fitting = (it for it in libraries_of(crate) if it.is_of_sources())
        is_over_others = all(below in found for below in lines[crate] if below in lines)
        if crate not in unusable and is_over_others and (library := next(fitting, None)):
            found[crate] = library
    return found


def left_in(clone: str, lines: dict[str, list[str]], needed: list[str]) -> dict[str, str]:
    """The folders of the libraries that an `rt ci` left in a clone, of the crates that are the same here with all below
    them. Each of `needed` comes after those below it."""
    if not os.path.exists(f"{clone}/crates.txt"):
        sys.exit(f"check-one: {clone} is no clone of this repository")
    found: dict[str, str] = {}
    for crate in needed:
        folder = f"{clone}/crates/{crate}/out/rlib"
        below = [it for it in lines[crate] if it in lines]
        is_there = os.path.exists(f"{folder}/{crate}.rlib/format") and all(it in found for it in below)
        if is_there and sources_of(clone, crate) == sources_of(ROOT, crate):
            found[crate] = folder
    return found


def sources_of(clone: str, crate: str) -> dict[str, str]:
    """The sum of each source of a crate."""
    own = f"{clone}/crates/{crate}"
    paths = files_of(own, ("src", "specs", "proofs"), (".rt", ".antt"))
    return {os.path.relpath(path, own): sum_of(path) for path in paths}


def command(crate: str, lines: dict[str, list[str]], built: dict[str, str], kept: str, words: list[str]) -> list[str]:
    """The check that `rt ci` makes of a crate, with a place where what it finds is kept. What isn't built below it is
    read from its sources."""
    read = [it for it in below_first(lines, crate) if it != crate and it not in built]
    used = sorted({below for it in [crate, *read] for below in [*lines[it], "std"]} - {*read})
    direct = {it: f"{built[it]}/{it}.rlib" if it in built else f"{kit()}/rlibs/{it}.rlib" for it in used}
    top = "main" if os.path.exists(f"{ROOT}/crates/{crate}/src/main.rt") else "lib"
    found = [f"{kit()}/bin/rattle", "check", "--crate-name", crate, f"src/{top}.rt"]
    found += [word for it, path in direct.items() for word in ("--extern", f"{it}={path}")]
    for it in read:
        found += ["--lib", f"{it}:{','.join([*lines[it], 'std'])}={ROOT}/crates/{it}/src/lib.rt"]
    found += [word for it in [f"{kit()}/rlibs", *built.values()] for word in ("-L", f"dependency={it}")]
    found += ["--antt-project", f"{kit()}/rattle/logic/antt-project.json", "--logic-built", f"{kit()}/logic_built"]
    return [*found, "--links", f"{crate}=", *([] if "--jobs" in words else ["--jobs", "1"]), "--incremental", kept, *words]


def main() -> int:
    takes = Words(__doc__)
    takes.add_argument("crate", metavar="CRATE", help="its name, and then the words for the checker")
    asked, words = takes.parse_known_args()
    crate = asked.crate
    lines = {name: below.split() for name, below in lines_of_crates().items()}
    if crate not in lines:
        sys.exit(f"check-one: crates.txt has no crate {crate}")
    unusable: set[str] = set()
    while True:
        status, crates = checked(crate, lines, words, unusable)
        if not crates - unusable:
            return status
        unusable |= crates
        print(f"check-one: once more, without libraries of {' '.join(sorted(unusable))}", flush=True)


def checked(crate: str, lines: dict[str, list[str]], words: list[str], unusable: set[str]) -> tuple[int, set[str]]:
    """Checks a crate without some libraries. Gives the status, and the crates whose libraries the checker finds unusable:
    those that were proved over another build of one below them."""
    room = f"{ROOT}/out/one"
    needed = [it for it in below_first(lines, crate) if it != crate]
    if "--from" in words:
        at = words.index("--from")
        built = left_in(os.path.abspath("".join(words[at + 1 : at + 2])), lines, needed)
        words = words[:at] + words[at + 2 :]
    else:
        built = put_into(room, chosen(lines, needed, unusable))
    if read := [it for it in needed if it not in built]:
        print(f"check-one: read from their sources: {' '.join(read)}", flush=True)
    os.makedirs(room, exist_ok=True)
    words = command(crate, lines, built, f"{room}/kept-{crate}", words)
    found: set[str] = set()
    folder = f"{ROOT}/crates/{crate}"
    with subprocess.Popen(words, cwd=folder, stdin=subprocess.DEVNULL, stderr=subprocess.STDOUT, stdout=subprocess.PIPE, text=True) as ran:
        for line in ran.stdout or ():
            print(line, end="", flush=True)
            found |= {*re.findall(r"error\[unusable-built-library\]: the rlib of `(\w+)`", line)}
    return ran.returncode, found


def put_into(room: str, found: dict[str, Library]) -> dict[str, str]:
    """Puts libraries into folders of their own, where they aren't yet. Gives these."""
    built = {name: f"{room}/{os.path.basename(library.folder)}" for name, library in found.items()}
    for name, library in found.items():
        if not os.path.isdir(built[name]):
            library.put(f"{built[name]}.new")
            os.rename(f"{built[name]}.new", built[name])
    return built


def below_first(lines: dict[str, list[str]], crate: str) -> list[str]:
    """A crate and those of the repository that it uses, each after those below it."""
    below = {it: [low for low in lines[it] if low in lines] for it in crates_below(lines, crate)}
    return [*graphlib.TopologicalSorter(below).static_order()]

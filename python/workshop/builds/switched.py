"""One program that has many planted bugs, of which the variable PLANTED chooses one for a run.

A program for each bug would take minutes each. So each function that bugs change is there once more for each of them,
under another name, and the function itself only asks which one to call (`planted::chosen`). Rattle has no variables of
a process, so `chosen` says no in Rattle, and in the module that LLVM compiles a function in C takes its place, which
reads PLANTED. The program keeps its checks: a bug that leaves a list stops it.

A bug is left out where it isn't in one function, or where that can't be copied: a constant one, or one of a trait that
names a type of its trait.
"""

from __future__ import annotations

import os
import re
import shutil
import subprocess
from collections.abc import Iterator, Mapping, Sequence
from dataclasses import dataclass

from workshop.builds.optimised import OF_CLANG, OF_LLVM, TARGET, toolchain
from workshop.checks.planting import Edit
from workshop.parts import ROOT, text_of

HEAD = re.compile(r"(\s*)(?:pub(?:\(\w+\))? )?fn (\w+)")
CLAUSE = re.compile(r"\s*(?:requires|ensures|ghost|decreases|//|#\[)")
OF_TRAIT = re.compile(r"impl(?:<(.*?)>)? \S.* for (.*)")
CHOOSING = '''//! Which planted bug a run has.
#![tactic(auto)]

/// Whether it is the one of this number.
pub fn chosen(number: u32) -> bool {
    number == 4_294_967_295
}
'''
IN_C = r'''
#include <stdlib.h>
_Bool planted_chosen(unsigned number)
{
    static long which = -1;
    if (which < 0) {
        const char *word = getenv("PLANTED");
        which = word ? atol(word) : 0;
    }
    return (long)number == which;
}
'''


@dataclass(frozen=True)
class Function:
    """A function of a file: its first and its last line, its margin, its name, and the block that it is in, if any."""

    first: int
    last: int
    margin: str
    name: str
    block: str | None


def functions_of(lines: Sequence[str]) -> Iterator[Function]:
    """The functions of a file, by the layout of `rt fmt`: each ends at the first brace at its own margin."""
    block: str | None = None
    for first, line in enumerate(lines):
        if line.startswith("impl"):
            rest = "\n".join(lines[first : first + 12])
            block = " ".join(rest[: rest.index(" {")].split())
        elif line == "}":
            block = None
        if head := HEAD.match(line):
            end = f"{head[1]}}}"
            ends = (at for at in range(first, len(lines)) if lines[at] == end)
            last = first if line.endswith("}") else next(ends, -1)
            if last >= 0:
                yield Function(first, last, head[1], head[2], block)


def parts_at_commas(text: str) -> list[str]:
    """The parts of a list, whose own commas are between brackets."""
    found, depth = [""], 0
    for at, letter in enumerate(text):
        depth += (letter in "([{<") - (letter in ")]}" or (letter == ">" and text[at - 1] not in "-="))
        if letter == "," and depth == 0:
            found.append("")
        else:
            found[-1] += letter
    return [it.strip() for it in found if it.strip()]


def enclosed(text: str) -> str:
    """What is between the first bracket of a text and its partner."""
    start, depth = text.index("("), 0
    for at in range(start, len(text)):
        depth += (text[at] == "(") - (text[at] == ")")
        if depth == 0:
            return text[start + 1 : at]
    raise ValueError(text)


class Copied:
    """A function as it is written: its head, its clauses and its body; and how it is called."""

    def __init__(self, lines: Sequence[str], it: Function) -> None:
        self.lines, self.it = lines[it.first : it.last + 1], it
        opens = [line == f"{it.margin}{{" or (line.endswith("{") and not CLAUSE.match(line)) for line in self.lines]
        self.opening = opens.index(True) if True in opens else 0
        self.clause = next((at for at in range(self.opening) if CLAUSE.match(self.lines[at])), self.opening)
        head = " ".join(self.lines[: self.clause + (self.clause == self.opening)]).partition(f"fn {it.name}")[2]
        self.given = parts_at_commas(enclosed(head))
        self.is_of_trait = OF_TRAIT.fullmatch(it.block or "") is not None
        self.can = not re.search(r"\bconst fn\b|\bunsafe fn\b", self.lines[0]) and len(self.lines) > 1
        names = [re.sub(r"^mut ", "", given.split(":")[0].strip()) for given in self.given]
        self.has_self = bool(self.given) and re.fullmatch(r"(?:&(?:'\w+ )?)?(?:mut )?self", self.given[0]) is not None
        names = names[self.has_self :]
        self.can = self.can and all(re.fullmatch(r"\w+", name) and name != "_" for name in names)
        self.arguments = ", ".join(names)

    def under(self, name: str, edit: Edit | None) -> list[str]:
        """The function under another name, without its clauses, with a bug; nothing where the bug doesn't fit it."""
        text = "\n".join(self.lines)
        for old, new in edit.pairs if edit else ():
            if text.count(old) != 1:
                return []
            text = text.replace(old, new)
        copy = text.split("\n")
        copy[0] = re.sub(rf"(?:pub(?:\(\w+\))? )?fn {self.it.name}\b", f"fn {name}", copy[0], count=1)
        return [*copy[: self.clause], *copy[self.opening :]]

    def asking(self, names: Mapping[int, str]) -> list[str]:
        """The function, whose body only asks which bug is chosen; under 0 it is as it was."""
        before = "self." if self.has_self else "Self::" if self.it.block else ""
        arguments = self.arguments
        if self.is_of_trait:
            before, arguments = "", ", ".join(["self"] * self.has_self + [arguments] * bool(arguments))
        calls = {number: f"{{ {before}{name}({arguments}) }}" for number, name in names.items()}
        cases = " else ".join(f"if planted::chosen({number}) {call}" for number, call in calls.items() if number)
        return [*self.lines[: self.opening + 1], f"{self.it.margin}    {cases} else {calls[0]}", f"{self.it.margin}}}"]


def freed(copy: Sequence[str], block: str) -> list[str]:
    """A function of a trait as one of no type: what it is called on is its first argument."""
    generics, type_ = OF_TRAIT.fullmatch(block).groups("")  # type: ignore[union-attr]
    type_, _, where = type_.partition(" where ")
    text = re.sub(r"\bSelf\b", type_, "\n".join(copy))
    text = re.sub(r"\((&(?:'\w+ )?(?:mut )?|mut )?self\b", lambda it: receiver(it[1] or "", type_), text, count=1)
    text = re.sub(r"\bself\b", "this", text)
    used = (it for it in parts_at_commas(generics) if re.search(rf"{re.split('[: ]', it)[0]}\b", text))
    if generics := ", ".join(used):
        text = re.sub(r"fn (\w+)(?:<(.*?)>)?\(", lambda it: f"fn {it[1]}<{merged(generics, it[2])}>(", text, count=1)
    if where:
        text = text.replace("{", f"where {where} {{", 1)
    return text.split("\n")


def receiver(passed: str, type_: str) -> str:
    """The first argument of a function that was called on a value."""
    return f"(mut this: {type_}" if passed == "mut " else f"(this: {passed}{type_}"


def merged(one: str, other: str | None) -> str:
    """Two lists of what a function is generic over, lifetimes first."""
    parts = [*parts_at_commas(one), *parts_at_commas(other or "")]
    return ", ".join(sorted(parts, key=lambda it: not it.startswith("'")))


def switched(text: str, edits: dict[int, Edit]) -> tuple[str, list[int]]:
    """A file whose functions ask for these bugs, and the numbers of those that it has."""
    lines, there = text.split("\n"), list[int]()
    wanted: dict[Function, dict[int, Edit]] = {}
    bodies = {it: "\n".join(lines[it.first : it.last + 1]) for it in functions_of(lines)}
    for number, edit in edits.items():
        olds = [old for old, _ in edit.pairs]
        inside = [it for it, body in bodies.items() if all(body.count(old) == text.count(old) == 1 for old in olds)]
        if len(inside) == 1:
            wanted.setdefault(inside[0], {})[number] = edit
    for it in sorted(wanted, key=lambda it: -it.first):
        copied = Copied(lines, it)
        names = {number: f"{it.name}_planted_{number}" for number in wanted[it]}
        names = {number: name for number, name in names.items() if copied.under(name, wanted[it][number])}
        if not copied.can or not names or (copied.is_of_trait and "Self::" in bodies[it]):
            continue
        there += names
        names[0] = f"{it.name}_unchanged_{min(names)}"
        copies = [copied.under(name, wanted[it].get(number)) for number, name in names.items()]
        if copied.is_of_trait:
            end = next(at for at in range(it.last, len(lines)) if lines[at] == "}")
            lines[end + 1 : end + 1] = [line for copy in copies for line in ("", *freed(copy, it.block or ""))]
            lines[it.first : it.last + 1] = copied.asking(names)
        else:
            lines[it.first : it.last + 1] = [*copied.asking(names), *(line for copy in copies for line in ("", *copy))]
    return "\n".join(lines), there


def write_sources(folder: str, crates: dict[str, list[str]], edits: dict[int, Edit]) -> list[int]:
    """Copies crates into a folder, whose functions ask for bugs. Gives the numbers of the bugs that they have."""
    there, left = list[int](), shutil.ignore_patterns("out", "wrong-bodies")
    for name in crates:
        shutil.copytree(f"{ROOT}/crates/{name}", f"{folder}/crates/{name}", ignore=left)
    by_file: dict[str, dict[int, Edit]] = {}
    for number, edit in edits.items():
        if edit.crate in crates and len(edit.files) == 1 and edit.pairs:
            by_file.setdefault(f"{edit.crate}/{edit.files[0]}", {})[number] = edit
    for file, some in by_file.items():
        text, found = switched(text_of(f"{ROOT}/crates/{file}"), some)
        there += found
        with open(f"{folder}/crates/{file}", "w", encoding="utf-8") as into:
            into.write(text)
    os.makedirs(f"{folder}/crates/planted/src")
    with open(f"{folder}/crates/planted/src/lib.rt", "w", encoding="utf-8") as into:
        into.write(CHOOSING)
    with open(f"{folder}/crates.txt", "w", encoding="utf-8") as into:
        into.write("planted:\n")
        into.writelines(f"{name}: {' '.join([*below, 'planted'])}\n" for name, below in crates.items())
    return there


def blamed(said: str) -> set[int]:
    """The numbers of the bugs in whose copies, or where these are called, the compiler found errors."""
    found: set[int] = set()
    for path, line in re.findall(r"^(/\S+\.rt):(\d+):\d+: error", said, re.MULTILINE):
        lines = text_of(path).split("\n")[: int(line)]
        heads = re.findall(r"^\s*fn (\w+)", "\n".join(lines), re.MULTILINE)
        found |= {*map(int, re.findall(r"_planted_(\d+)$", heads[-1] if heads else ""))}
        found |= {*map(int, re.findall(r"planted::chosen\((\d+)\)", lines[-1]))}
    return found


def link(room: str, file: str) -> None:
    """Makes a program of the module in a folder, whose switch reads PLANTED. It keeps its checks."""
    kit = toolchain()
    clang = f"{kit}/toolchain/bin/clang"
    words = [clang, "-S", "-emit-llvm", "-x", "ir", "module.bc", "-o", "module.ll"]
    subprocess.run(words, cwd=room, check=True, stderr=subprocess.DEVNULL)
    before, after = f"{room}/module.ll", f"{room}/short.ll"
    with open(before, encoding="utf-8") as module, open(after, "w", encoding="utf-8") as short:
        is_switch = False
        for line in module:
            if line.startswith("define") and '@"planted::chosen"' in line:
                is_switch = True
                short.write("declare zeroext i1 @planted_chosen(i32)\n")
            if not is_switch:
                short.write(line.replace("sanitize_address", "").replace('@"planted::chosen"', "@planted_chosen"))
            is_switch = is_switch and not line.startswith("}")
    options = [*TARGET, f"--sysroot={kit}/toolchain", *OF_CLANG, *(word for it in OF_LLVM for word in ("-mllvm", it))]
    subprocess.run([clang, *options, "-O1", "-c", "-x", "ir", "short.ll", "-o", "module.o"], cwd=room, check=True)
    with open(f"{room}/chosen.c", "w", encoding="utf-8") as into:
        into.write(IN_C)
    libraries = [f"{kit}/c/libos_c.a", f"{kit}/c/liblibc_c.a", "-lm"]
    subprocess.run(["gcc", f"{room}/module.o", f"{room}/chosen.c", *libraries, "-s", "-o", file], check=True)

"""What functions promise and ask, and each definition, in two revisions: python3 python clauses BEFORE [AFTER]

Without AFTER it is compared with the files as they are. A clause of `requires` is named so. A definition of specs/ is
compared by its words, wherever it is in its crate. A law with clauses that are longer than a line is a record of
specs/Laws, whose fields are the clauses. So a clause may move into a field, and into a definition or out of one, but
its statement stays: each clause is compared by the words of its statement, each with the module that declares it.
`./check docs` counts the clauses that are only names for statements of specs/Laws.
"""

from __future__ import annotations

import glob
import os
import re
import subprocess
import sys
import tempfile
from dataclasses import dataclass, field

from workshop.parts import ROOT
from workshop.words import Words

KINDS = ("ensures", "requires")
DEFINITION = re.compile(r"^(?:abbrev pub|unfoldable pub|pub record|pub data) ([^\s:]+)")
FUNCTION = re.compile(r"^( *)(?:pub(?:\(\w+\))? )?(?:const )?fn (\w+)", re.MULTILINE)
OWNER = re.compile(r"^impl(?:<[^>]*>)? (?:.* for )?(\w+)|^pub trait (\w+)", re.MULTILINE)
IMPORT = re.compile(r"^(?:ghost )?use (Rattle\.[^\s{;]+?)(?:\.\{([^}]*)\})?(?: as (\w+))?;?$", re.MULTILINE)
SAID = r"((?:.*)(?:\n +.*)*)"
NAMED = re.compile(rf"^abbrev pub ([\w'-]+) : {SAID}\n\1((?: \{{?[\w'-]+\}}?)*) ={SAID}", re.MULTILINE)
RECORD = re.compile(r"^pub record ([\w'-]+)(.*?) : Type 0 where\n((?:(?: .*)?\n)*)", re.MULTILINE)
FIELD = re.compile(r"^  pub «?(\w+)»? :((?:.*)(?:\n {4,}.*)*)", re.MULTILINE)
TOKEN = re.compile(r"[^\s(){}\[\];,]+|[(){}\[\];]")
Names = dict[str, str]


@dataclass(frozen=True)
class Statement:
    """A statement, its parameters, and where the names in it come from."""

    text: str
    parameters: tuple[str, ...]
    names: Names


@dataclass
class Laws:
    """What a crate's specs/Laws names: statements, and records of them."""

    named: dict[str, Statement] = field(default_factory=dict)
    records: dict[str, dict[str, Statement]] = field(default_factory=dict)


def read(path: str) -> str:
    with open(path, encoding="utf-8") as file:
        return file.read()


def names_of(text: str) -> Names:
    """Where the names of a file come from: names with their modules, and modules by their short names."""
    found: Names = {}
    for module, names, alias in IMPORT.findall(text):
        for it in filter(None, map(str.strip, names.split(","))):
            name, _, local = it.partition(" as ")
            found[local or name] = f"{module}.{name}"
        if not names:
            found[f"{alias or module.rpartition('.')[2]}."] = module
    return found


def parameters(said: str) -> tuple[str, ...]:
    """The explicit parameters of a record, by their names."""
    return tuple(name for names in re.findall(r"\(([^():]*):", said) for name in names.split())


def laws_of(crate: str) -> Laws:
    """What the folder of a crate names in specs/Laws."""
    found = Laws()
    for path in sorted([*glob.glob(f"{crate}/specs/Laws.antt"), *glob.glob(f"{crate}/specs/Laws/*.antt")]):
        text = re.sub(r"^ *--.*\n", "", read(path), flags=re.MULTILINE)
        names = names_of(text)
        for name, _, given, said in NAMED.findall(text + "\n"):
            found.named[name] = Statement(said, tuple(it for it in given.split() if not it.startswith("{")), names)
        for name, given, body in RECORD.findall(text + "\n"):
            found.records[name] = {it: Statement(said, parameters(given), names) for it, said in FIELD.findall(body)}
    return found


def arguments(said: str) -> list[str]:
    """The arguments that follow a name in a clause."""
    return re.findall(r"\([^()]*\)|\S+", said)[1:]


def words(said: str, names: Names) -> str:
    """A statement by its words, each with the module that declares it."""
    found = []
    for word in TOKEN.findall(said):
        head, dot, rest = word.partition(".")
        if dot and head + dot in names:
            found.append(f"{names[head + dot]}.{rest}")
        else:
            found.append(names.get(word) or names.get(head, head) + dot + rest)
    return re.sub(r"\.specs\.Laws\.[\w.]*?(\w+)\b(?!\.)", r".specs.Laws.\1", " ".join(found).replace(" ; }", " }"))


def filled(statement: Statement, given: list[str], names: Names) -> str:
    """A statement by its words, with arguments for its parameters."""
    said = {**statement.names}
    for parameter, it in zip(statement.parameters, given):
        said[parameter] = words(it.strip("()"), names)
    return words(statement.text, said)


def clauses_in(whole: str, kind: str = "ensures") -> list[tuple[str, str]]:
    """The clauses of a kind that a function has, each with its name."""
    found, lines = [], iter(whole.split("\n"))
    for line in lines:
        if not line.strip().startswith(kind):
            continue
        said = line.strip()
        while said.count("{") > said.count("}") and (more := next(lines, None)) is not None:
            said += " " + more.strip()
        if one := re.match(kind + r" (?:(\w+) )?\{(.*)\};?$", said):
            found.append((one[1] or "", one[2].strip()))
    return found


def promised(crate: str) -> dict[str, str]:
    """Each clause of a crate's functions by the path of its function and its name: its statement by its words."""
    laws = laws_of(crate)
    found: dict[str, str] = {}
    for path in sorted(glob.glob(f"{crate}/src/**/*.rt", recursive=True)):
        text = read(path)
        names, starts = names_of(text), [*FUNCTION.finditer(text)]
        for at, start in enumerate(starts):
            end = starts[at + 1].start() if at + 1 < len(starts) else len(text)
            owners = [one or other for one, other in OWNER.findall(text[: start.start()])] if start[1] else []
            module = os.path.basename(path).removesuffix(".rt")
            call = "::".join([os.path.basename(crate), module, *owners[-1:], start[2]])
            for kind in KINDS:
                of = call if kind == "ensures" else f"{call} {kind}"
                for name, said in clauses_in(text[start.start() : end], kind):
                    found |= {f"{of} {it}".strip(): law for it, law in stated(laws, name, said, names).items()}
    return found


def stated(laws: Laws, name: str, said: str, names: Names) -> Names:
    """What a clause states, by its name; or, where it is a record of statements, by the names of its fields."""
    first = said.split()[0] if said else ""
    if first in laws.records and not name:
        given = arguments(said)
        return {it: filled(law, given, names) for it, law in laws.records[first].items()}
    if first in laws.named:
        return {name: filled(laws.named[first], arguments(said), names)}
    return {name: words(said, names)}


def defined(crate: str) -> dict[str, str]:
    """Each definition of a crate's specs by its name: its words, without comments."""
    found: dict[str, str] = {}
    for path in sorted(glob.glob(f"{crate}/specs/**/*.antt", recursive=True)):
        bare = re.sub(r"(?m)^ *--.*\n", "", read(path))
        for block in re.split(r"\n(?=\S)", bare):
            if name := DEFINITION.match(block):
                place = f"{os.path.basename(crate)} defines {name[1]}"
                found[place if place not in found else f"{place} ({os.path.basename(path)})"] = " ".join(block.split())
            elif found and not block.startswith(("use", "pub", "mod")):
                last = next(reversed(found))
                found[last] += " " + " ".join(block.split())
    return found


def faults() -> list[str]:
    """The clauses that are a name for a statement of specs/Laws."""
    found = []
    for crate in sorted(glob.glob(f"{ROOT}/crates/*")):
        named = laws_of(crate).named
        for path in sorted(glob.glob(f"{crate}/src/**/*.rt", recursive=True)):
            for name, said in clauses_in(read(path)):
                if said and said.split()[0] in named:
                    where = os.path.relpath(path, ROOT)
                    found.append(f"{where}: `{name}` is a name for a statement; make it a field of its law's record")
    return found


def tree(revision: str, folder: str) -> str:
    """The crates of a revision, put into a folder."""
    packed = subprocess.run(["git", "-C", ROOT, "archive", revision, "crates"], check=True, capture_output=True).stdout
    subprocess.run(["tar", "-x", "-C", folder], input=packed, check=True)
    return f"{folder}/crates"


def all_promised(crates: str) -> dict[str, str]:
    found: dict[str, str] = {}
    for crate in sorted(glob.glob(f"{crates}/*")):
        found |= {**promised(crate), **defined(crate)}
    return found


def compared(before: dict[str, str], after: dict[str, str]) -> list[str]:
    """What isn't promised any more, what is promised beside, and what is said otherwise."""
    gone = [f"gone: {it}" for it in before if it not in after]
    more = [f"more: {it}" for it in after if it not in before]
    changed = [it for it in before if it in after and before[it] != after[it]]
    other = [f"otherwise: {it}\n    {before[it]}\n    {after[it]}" for it in changed]
    return [*gone, *more, *other]


def main() -> int:
    words = Words(__doc__, "python3 python clauses")
    words.add_argument("before", metavar="BEFORE", help="a revision")
    words.add_argument("after", nargs="?", metavar="AFTER", help="another one, else the files as they are")
    asked = words.parse_args()
    with tempfile.TemporaryDirectory() as one, tempfile.TemporaryDirectory() as other:
        try:
            before = all_promised(tree(asked.before, one))
            after = all_promised(tree(asked.after, other) if asked.after else f"{ROOT}/crates")
        except subprocess.CalledProcessError as why:
            print(f"clauses: {why.stderr.decode().strip()}", file=sys.stderr)
            return 1
    found = compared(before, after)
    print(*found, sep="\n", end="\n" if found else "")
    kinds = {"gone": "gone", "more": "more", "otherwise": "say otherwise"}
    counts = ", ".join(f"{sum(it.startswith(kind) for it in found)} {said}" for kind, said in kinds.items())
    print(f"clauses: {len(before):,} before, {len(after):,} after; {counts}")
    return 1 if found else 0

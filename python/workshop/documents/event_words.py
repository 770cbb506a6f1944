"""The table of events and refusals that Python and JavaScript read: python/dorydate/sentences/events.mjs.

It is made from the definitions, so that an event is written down once: its word and its operands are those of its
spelling, whether plain mailboxes have a part in it is in their refusals, and where it happens is the scope that traces
give it. A refusal's name is the one that is printed. The order is that of docs/program.md, whose rows have to have the
same words with as many operands, and the same names.

No source beside it may list them once more: six words of events that carriers have, or six names of refusals, in one
list or set, or in one text with `|`, commas or spaces between, are refused. A dictionary may have a value for each.
"""

from __future__ import annotations

import ast
import glob
import itertools
import json
import os
import re
from collections.abc import Collection, Iterable, Iterator, Mapping
from dataclasses import dataclass

from workshop.parts import ROOT, text_of

TABLE = f"{ROOT}/python/dorydate/sentences/events.mjs"
PAGE = f"{ROOT}/docs/program.md"
WORLDS = "world_script/specs/WorldSpelling"
SPELLINGS = ("script/specs/Spelling", WORLDS)
MAILBOXES, SCOPES = "leader1822/specs/Boxes", "subnet_trace/specs/*"
SPELLED = re.compile(r'^(\w*spelling) .*?\((?:\w+\.)(\w+)[^=]* = codes "(\w+) " \+\+ (.*)$', re.MULTILINE)
REFUSED = re.compile(r"^step_refusal b \(event\.(\w+)[^)]*\) = ", re.MULTILINE)
BARRED = re.compile(r"^IsWorldEvent \w+ \(world\.Happen \(event\.(\w+)[^=]*= (?:⊥$|\(strangers ≡)", re.MULTILINE)
SCOPE = re.compile(r"^scope_of n \(event\.(?:Net \(net\.)?(\w+)[^=]*\) = (.*)$", re.MULTILINE)
ROW = re.compile(r"^\| ((?:`[a-z]+ [A-Z][^`]*`(?:, )?)+) \| .* \|$", re.MULTILINE)
NAMES = ("replay/specs/Output", "world_replay/specs/Printed")
NAMED_REFUSAL = re.compile(r'^(\w+)_name (?:\w+\.)?\w+ = codes "([A-Z]\w+)"$', re.MULTILINE)
ENDING = {"Stopped", "OutOfMemory"}  # names of what ends a run, which no event prints
PART = re.compile(
    r"(host_text|flow_text|message_text|direction_text|octets_text|decimal) \(?(?:length )?(\w+)|\+\+ (text)\)"
)
# the operands that a part is spelled by, and those of numbers and hosts by the names that the definitions give them
OPERANDS = {"flow_text": "S D N", "message_text": "S D N BITS OCTETS", "direction_text": "+|-", "octets_text": "OCTETS"}
NAMED = {
    "h": "H", "peer": "P", "line": "L", "frame": "K", "imp": "I", "at": "I", "from": "J", "rounds": "ROUNDS",
    "octet": "OCTET", "socket": "SOCKET", "listen": "SOCKET", "base": "SOCKET", "own": "OWN", "foreign": "FOREIGN",
    "size": "SIZE", "bits": "COUNT", "text": "TEXT",
}  # fmt: skip
OF_WORDS = {
    "grant": {"messages": "MESSAGES", "bits": "ALLOWED"},
    "askback": {"messages": "FRACTION", "bits": "FRACTION"},
}
# where an event happens, by what its scope names: an operand whose IMP it is, or the line
PLACES = {
    "m.flow.source.imp": "S", "f.source.imp": "S", "f.destination.imp": "D", "h.imp": "H", "i": "I", "at": "I",
    "l": "L", "l d": "+|-",
}  # fmt: skip
HEAD = """\
/**
 * The events of scripts and the refusals of events: a table that `./check docs --write` makes of the definitions
 * (python/workshop/documents/event_words.py). After the word of an event come its operands; whether scripts of raw
 * networks have it, of programs or of both, or it happens in every carrier or in a subnet only; and the operand that
 * says where it happens. After a refusal comes who refuses. What follows the name is JSON.
 */
export const TABLE = """


LEAST = 6  # words that make a list
SEPARATOR = ",\n"
PLACES_OF_LISTS = ("python/dorydate/**/*.py", "python/workshop/**/*.py", "web/**/*.js", "web/**/*.mjs")
# inputs of tests, and a reader of the definitions
NO_LISTS = ("/tests/", "/second/", "node_modules", "workshop/documents/tests.py")
LIST_OF_SCRIPT = re.compile(r"\[[^\[\]]*\]")  # of JavaScript
TEXT_OF_SCRIPT = re.compile(r"'([^'\n]*)'|\"([^\"\n]*)\"|((?:\w+\|)+\w+)")


class Unlike(Exception):
    """What the definitions or the page have that isn't understood."""


@dataclass(frozen=True)
class Row:
    """An event: its word, its operands, what it is of, and the operand that says where it happens."""

    word: str
    operands: str
    of: str
    at: str


def definition(name: str) -> str:
    """The definitions of a file of specs/, or of all of a crate."""
    return "\n".join(map(text_of, sorted(glob.glob(f"{ROOT}/crates/{name}.antt"))))


def operands_of(word: str, spelled: str) -> str:
    """The operands of a word, by what is spelled after it."""
    names = {**NAMED, **OF_WORDS.get(word, {})}
    found = []
    for kind, name, text in PART.findall(spelled):
        if (operand := OPERANDS.get(kind) or names.get(name or text)) is None:
            raise Unlike(f"`{word}`: {name} is no operand that is known")
        found.append(operand)
    return " ".join(found)


def places() -> dict[str, str]:
    """Where the events of carriers happen, by their names."""
    found = {}
    for name, scope in SCOPE.findall(definition(SCOPES)):
        what = re.sub(r"^scope(?:\.\w+|_of_delivery n) ?", "", scope)
        if what and what not in PLACES:
            raise Unlike(f"crates/{SCOPES}: `{scope}` is no place that is known")
        found[name] = PLACES.get(what, "")
    return found


def of_what(spelling: str, name: str, both: bool) -> str:
    """What an event is of, by the definition that spells it."""
    if spelling == "net_spelling":
        return "carrier" if name in REFUSED.findall(definition(MAILBOXES)) else "subnet"
    return "every" if both else "raw" if spelling == "spelling" else "programs"


def barred_words() -> set[str]:
    """The words of what only strangers do, which no script has where all hosts run the program."""
    text = definition(WORLDS)
    names = BARRED.findall(text)
    spelled = re.findall(r'^world_spelling \(world\.Happen \(event\.(\w+)[^=]* = codes "(\w+) ', text, re.MULTILINE)
    return {word for name, word in spelled if name in names}


def spelled_rows() -> Mapping[str, Row]:
    """The events of the definitions, by their words."""
    found: dict[str, Row] = {}
    at = places()
    barred = barred_words()
    for spelling, name, word, rest in (it for path in SPELLINGS for it in SPELLED.findall(definition(path))):
        if word in found and word in barred:
            continue
        of = of_what(spelling, name, word in found)
        row = Row(word, operands_of(word, rest), of, at.get(name, "H") if of != "programs" else "H")
        if word in found and found[word].operands != row.operands:
            raise Unlike(f"`{word}` is spelled in two ways")
        found[word] = row
    return found


def page_rows() -> Iterator[tuple[str, int]]:
    """The words of the page's rows in their order, each with how many operands it has there."""
    _, _, scripts = text_of(PAGE).partition("\n### The script\n")
    for row in ROW.findall(scripts.partition("\n## The output\n")[0]):
        for form in re.findall(r"`([^`]*)`", row):
            word, *operands = form.split(" ")
            yield word, len(operands)


def rows() -> list[Row]:
    """The events, in the page's order."""
    found, page = spelled_rows(), dict(page_rows())
    if unlike := {*found} ^ {*page}:
        raise Unlike(f"docs/program.md and the definitions don't have the same events: {', '.join(sorted(unlike))}")
    if wrong := [it for it, many in page.items() if many != len(found[it].operands.split(" "))]:
        raise Unlike(f"docs/program.md has other operands of {', '.join(wrong)}")
    return [found[word] for word in page]


def refusals() -> dict[str, str]:
    """The refusals that are printed, in the page's order, each with who refuses: a carrier, or a host's program."""
    found = {}
    for kind, name in (it for path in NAMES for it in NAMED_REFUSAL.findall(definition(path)) if it[1] not in ENDING):
        found[name] = "carrier" if kind == "fault" else "programs"
    _, _, page = text_of(PAGE).partition("\n| Name | Why |\n|---|---|\n")
    rows = (row.split("|")[1] for row in page.partition("\n\n")[0].splitlines())
    names = [name for row in rows for name in re.findall(r"`(\w+)`", row)]
    if unlike := {*found} ^ {*names}:
        raise Unlike(f"docs/program.md and the definitions don't have the same refusals: {', '.join(sorted(unlike))}")
    return {name: found[name] for name in names}


def group(name: str, lines: Iterable[tuple[str, object]]) -> str:
    """A group of the table, a line for each name."""
    spelled = (f"{json.dumps(it)}: {json.dumps(what)}" for it, what in lines)
    return f"{json.dumps(name)}: {{\n{SEPARATOR.join(spelled)}\n}}"


def made() -> str:
    """The table."""
    events = group("events", ((it.word, [it.operands, it.of, it.at]) for it in rows()))
    return f"{HEAD}{{\n{events},\n{group('refusals', refusals().items())}\n}};\n"


def in_a_row(text: str, known: Collection[str]) -> Iterator[set[str]]:
    """The known words of a text that come one after another."""
    for is_known, words in itertools.groupby(re.findall(r"\w+", text), known.__contains__):
        if is_known:
            yield set(words)


def lists_in(source: str, known: Collection[str]) -> Iterator[set[str]]:
    """The known words of each list, set, tuple, case and text of a source in Python."""
    for node in ast.walk(ast.parse(source)):
        values: list[ast.expr] = []
        if isinstance(node, (ast.List, ast.Set, ast.Tuple)):
            values = node.elts
        elif isinstance(node, ast.MatchOr):
            values = [it.value for it in node.patterns if isinstance(it, ast.MatchValue)]
        elif isinstance(node, ast.Constant) and isinstance(node.value, str):
            yield from in_a_row(node.value, known)
        yield {it.value for it in values if isinstance(it, ast.Constant) and it.value in known}


def lists_of_script(source: str, known: Collection[str]) -> Iterator[set[str]]:
    """The known words of each list, text and choice of a pattern of a source in JavaScript."""
    for found in LIST_OF_SCRIPT.findall(source):
        yield {it for it in re.findall(r"[\"'](\w+)[\"']", found) if it in known}
    for parts in TEXT_OF_SCRIPT.findall(source):
        yield from in_a_row("".join(parts), known)


def listed_in(path: str, source: str, known: Iterable[Collection[str]]) -> list[str]:
    """The words of each group that a source lists once more."""
    lists = lists_in if path.endswith(".py") else lists_of_script
    found = (it for words in known for it in lists(source, words))
    return [", ".join(sorted(it)) for it in found if len(it) >= LEAST]


def second_lists() -> Iterator[str]:
    """The sources that list events or refusals once more."""
    known = ([it.word for it in rows() if it.of in ("carrier", "subnet")], [*refusals()])
    for path in sorted(it for pattern in PLACES_OF_LISTS for it in glob.glob(f"{ROOT}/{pattern}", recursive=True)):
        if path != TABLE and not any(it in path for it in NO_LISTS):
            for words in listed_in(path, text_of(path), known):
                yield f"{os.path.relpath(path, ROOT)} lists {words}: python/dorydate/sentences/events.mjs has them"


def faults() -> list[str]:
    """What isn't as it is made, and what is listed once more."""
    try:
        is_made = text_of(TABLE) == made()
        stale = [] if is_made else [f"{os.path.relpath(TABLE, ROOT)} isn't as `./check docs --write` makes it"]
        return [*stale, *second_lists()]
    except Unlike as why:
        return [str(why)]


def write() -> None:
    with open(TABLE, "w", encoding="utf-8") as file:
        file.write(made())

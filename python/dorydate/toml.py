"""TOML documents, as far as topologies have them: read soon, also where Python has no reader of TOML."""

from __future__ import annotations

import importlib
import re
from collections.abc import Sequence
from typing import Any, NamedTuple

MOST_NUMBER = 63  # in a topology: of an IMP
MOST_DOTS = 100  # in a line that is given to Python's reader of TOML
MOST_DIGITS = 1000  # of a number in it
STRING = re.compile(r""""[^"]*"|'[^']*'""")
TABLE = re.compile(r"\s*\[\[\s*(\w+)\s*\]\]\s*(#.*)?")
PAIR = re.compile(r'\s*(\w+)\s*=\s*("[^"\\]*"|true|false|-?[0-9]+(?:\.[0-9]+)?|\[[-0-9, ]*\])\s*(#.*)?')


class Fault(NamedTuple):
    """A fault, and the number of the line of the file that has it; None where that isn't known."""

    line: int | None
    why: str


class Beyond(ValueError):
    """A document that Python's reader of TOML doesn't read, or not soon, and no topology."""

    def __init__(self, fault: Fault) -> None:
        super().__init__(fault.why)
        self.fault = fault


def beyond_reading(lines: Sequence[str]) -> Fault | None:
    """The first line that Python's reader of TOML wouldn't read, or not soon, and that no topology has."""
    for number, line in enumerate(lines, 1):
        written = STRING.sub("", line).partition("#")[0]
        if written.count(".") > MOST_DOTS:
            return Fault(number, f"It has more than {MOST_DOTS} dots, and nothing in a topology has any.")
        if re.search(f"[0-9_]{{{MOST_DIGITS}}}", written):
            return Fault(number, f"It has a number of {MOST_DIGITS} digits or more, and those of a topology are at most {MOST_NUMBER}.")
    return None


def document_of(text: str) -> dict[str, Any]:
    """A TOML document. Python before 3.11 has no reader of TOML: there it is read in the plain spelling, one key a line."""
    if fault := beyond_reading(text.split("\n")):
        raise Beyond(fault)
    try:
        toml = importlib.import_module("tomllib")
    except ImportError:
        return by_hand(text)
    try:
        found: dict[str, Any] = toml.loads(text)
    except RecursionError:
        raise Beyond(Fault(None, "The topology has brackets within brackets, hundreds deep. Those of a topology are two deep.")) from None
    return found


def by_hand(text: str) -> dict[str, Any]:
    """A document in the plain spelling that topologies have here, one key a line."""
    document: dict[str, Any] = {}
    table = document
    for number, line in enumerate(text.split("\n"), 1):
        if not line.split("#")[0].strip():
            continue
        if found := TABLE.fullmatch(line):
            table = {}
            document.setdefault(found[1], []).append(table)
        elif (found := PAIR.fullmatch(line)) and found[1] not in table:
            table[found[1]] = value_of(found[2])
        else:
            raise ValueError(f"a table or a key with its value is expected, each key once in its table (at line {number})")
    return document


def value_of(word: str) -> object:
    """The value of a key in the plain spelling."""
    if word[0] == '"':
        return word[1:-1]
    if word[0] == "[":
        return [int(it) for it in word[1:-1].split(",") if it.strip()]
    if word in ("true", "false"):
        return word == "true"
    return float(word) if "." in word else int(word)


# ---- lines of a document


def line_of_table(lines: Sequence[str], name: str, place: int) -> int | None:
    """The number of the line that opens the table of this name at this place, None where it is spelled in another way."""
    found = [number for number, line in enumerate(lines, 1) if (table := TABLE.fullmatch(line)) and table[1] == name]
    return found[place] if place < len(found) else None


def line_of_key(lines: Sequence[str], key: str, after: int = 0) -> int | None:
    """The number of the first line with this key after a line that opens a table, or of all; None where there is none before the next table."""
    for number, line in enumerate(lines[after:], after + 1):
        if re.match(rf"\s*{re.escape(key)}\s*=", line):
            return number
        if after and TABLE.fullmatch(line):
            return None
    return None


def line_in_table(lines: Sequence[str], name: str, place: int, key: str) -> int | None:
    """The number of the line with this key in the table of this name at this place, None where it is spelled in another way."""
    opened = line_of_table(lines, name, place)
    return opened and line_of_key(lines, key, opened)

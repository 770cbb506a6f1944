"""What is wrong with a topology that the program refuses, and in which line of the file."""

from __future__ import annotations

import difflib
import re
from collections import Counter
from collections.abc import Mapping, Sequence
from typing import Any

from dorydate.given import Input, shown
from dorydate.network import MOST_IMPS, MOST_LINES, TOPOLOGIES, wrong_with_numbers
from dorydate.program import MOST_OCTETS
from dorydate.sentences.events import EVENTS
from dorydate.sentences.table import TABLE, filled, pattern, sentences
from dorydate.toml import Beyond, Fault, document_of, line_in_table, line_of_key, line_of_table
from dorydate.where import here

MARKERS = [(pattern(it.replace("{events}", "|".join(EVENTS))), *names) for it, *names in TABLE["rules of markers"]]
RANGES: dict[str, dict[str, tuple[int, int]]] = {"imp": {}, "line": {}}
for of, key, least, most in TABLE["tables"]:
    RANGES[of][key] = least, most
KEYS = ("carrier", "raw", *RANGES)
Table = Mapping[str, Any]


def wrong_with_topology(given: Input) -> str | None:
    """Why an input's topology is refused, with the line of the file where one can be named; None where no cause is found."""
    fault = found_in(given)
    return fault and at_line(given, fault)


def found_in(given: Input) -> Fault | None:
    """The fault of an input's topology."""
    if len(given.octets) > MOST_OCTETS:
        return Fault(None, filled(TOPOLOGIES["octets"], most=MOST_OCTETS))
    if given.marker is None:
        return wrong_with_marker(given)
    octets = given.topology()
    try:
        text = octets.decode().removeprefix("\ufeff")
    except UnicodeDecodeError as fault:
        return Fault(octets[: fault.start].count(10) + 1, "The topology is not UTF-8: see the octet after the backslash.")
    try:
        document = document_of(text)
    except Beyond as beyond:
        return beyond.fault
    except ValueError as fault:
        line = re.search(r"at line (\d+)", str(fault))
        return Fault(int(line[1]) if line else given.marker, f"The topology is not a TOML document: {fault}.")
    return wrong_with_network(document, text.split("\n"))


def at_line(given: Input, fault: Fault) -> str:
    """A cause after the line of the file that it is in, if that is known."""
    return f"Line {fault.line} of the file:\n  {shown(given.lines[fault.line - 1])}\n{fault.why}" if fault.line else fault.why


def wrong_with_marker(given: Input) -> Fault:
    """Why an input has no marker line."""
    if given.octets[:2] in (b"\xff\xfe", b"\xfe\xff"):
        return Fault(None, "The file is UTF-16, as some editors and shells of Windows write it. Save it as UTF-8 or ASCII.")
    if not given.octets.strip():
        return Fault(None, TOPOLOGIES["empty"])
    if is_log(given.lines):
        return Fault(None, here(TOPOLOGIES["log"]))
    for number, line in enumerate(given.lines, 1):
        for it, *names in MARKERS:
            if it.search(line.decode("latin-1")):
                return Fault(number, " ".join(TOPOLOGIES[name] for name in names))
    return Fault(None, TOPOLOGIES["marker"])


def is_log(lines: list[bytes]) -> bool:
    """Whether the lines are those of a log, which has no marker line: some begin with words that no script line begins with."""
    return any(line.startswith((b"in ", b"answer ", b"life ", b"handed ")) for line in lines) or lines[-2:] == [b"end", b""]


# ---- networks


def wrong_with_network(document: Table, lines: Sequence[str]) -> Fault | None:
    """Which rule of networks a document breaks; None where it breaks none."""
    if further := [it for it in document if it not in KEYS]:
        near = difflib.get_close_matches(further[0].lower(), KEYS, 1)
        hint = f" {filled(sentences('faults')['meant'], meant=near[0])}" if near else ""
        line = line_of_table(lines, further[0], 0) or line_of_key(lines, further[0])
        return Fault(line, f"{filled(TOPOLOGIES['key'], key=further[0])}{hint}")
    if document.get("carrier", "subnet") not in ("plain", "subnet"):
        return Fault(line_of_key(lines, "carrier"), TOPOLOGIES["carrier"])
    if not isinstance(document.get("raw", False), bool):
        return Fault(line_of_key(lines, "raw"), TOPOLOGIES["raw"])
    imps: Any = document.get("imp")
    joined: Any = document.get("line", [])
    if not is_tables(imps) or not 1 <= len(imps) <= MOST_IMPS:
        return Fault(None, TOPOLOGIES["imps"])
    if not is_tables(joined):
        return Fault(None, TOPOLOGIES["lines"])
    found = wrong_with_imps(imps, lines) or wrong_with_lines(joined, [imp["id"] for imp in imps], lines)
    return found or wrong_with_strangers(imps, document.get("raw", False), lines)


def wrong_with_imps(imps: Sequence[Table], lines: Sequence[str]) -> Fault | None:
    """The same of the tables of IMPs."""
    numbers: list[int] = []
    for place, imp in enumerate(imps):
        if found := wrong_with_table("imp", place, imp, lines):
            return found
        if imp["id"] in numbers:
            return Fault(line_of_table(lines, "imp", place), filled(TOPOLOGIES["two imps"], number=imp["id"]))
        numbers.append(imp["id"])
    return None


def wrong_with_lines(joined: Sequence[Table], numbers: list[int], lines: Sequence[str]) -> Fault | None:
    """The same of the tables of lines, between IMPs of these numbers."""
    ends: Counter[int] = Counter()
    pairs: set[tuple[int, int]] = set()
    for place, line in enumerate(joined):
        if found := wrong_with_table("line", place, line, lines):
            return found
        a, b = sorted((line["a"], line["b"]))
        ends.update((a, b))
        full = [it for it in (a, b) if ends[it] > MOST_LINES]
        why = (
            filled(TOPOLOGIES["joins"], line) if a == b or not {a, b} <= {*numbers}
            else filled(TOPOLOGIES["two lines"], a=a, b=b) if (a, b) in pairs
            else filled(TOPOLOGIES["five lines"], number=full[0]) if full
            else ""
        )  # fmt: skip
        if why:
            return Fault(line_of_table(lines, "line", place), why)
        pairs.add((a, b))
    return None


def wrong_with_strangers(imps: Sequence[Table], raw: bool, lines: Sequence[str]) -> Fault | None:
    """The same of the strangers that IMPs name; None where none names any."""
    named = [(place, imp) for place, imp in enumerate(imps) if "foreign" in imp]
    for place, imp in named:
        if why := "foreign raw" if raw and imp["foreign"] != [] else wrong_with_numbers(imp["foreign"], imp["hosts"]):
            holes = {"imp": imp["id"], "hosts": imp["hosts"]}
            return Fault(line_in_table(lines, "imp", place, "foreign"), filled(TOPOLOGIES[why], holes))
    return None


def is_tables(value: object) -> bool:
    return isinstance(value, list) and all(isinstance(it, dict) for it in value)


def wrong_with_table(name: str, place: int, table: Table, lines: Sequence[str]) -> Fault | None:
    """Why a table has not exactly its keys with whole numbers in their ranges; None where it has."""
    ranges = RANGES[name]
    if displaced := [it for it in table if it in ("raw", "carrier")]:
        why = filled(TOPOLOGIES["displaced"], key=displaced[0], table=name)
        return Fault(line_in_table(lines, name, place, displaced[0]), why)
    if {*table} - ({"foreign"} if name == "imp" else set()) != {*ranges}:
        found = ", ".join(table) or "none"
        why = filled(TOPOLOGIES["keys"], table=name, keys=" and ".join(ranges), found=found)
        return Fault(line_of_table(lines, name, place), why)
    for key, (least, most) in ranges.items():
        if type(table[key]) is not int or not least <= table[key] <= most:
            why = filled(TOPOLOGIES["number"], key=key, table=name, least=least, most=most)
            return Fault(line_in_table(lines, name, place, key), why)
    return None

"""Whole inputs of any octets: how the program has to end on them, independently implemented.

It was written from docs/program.md. Of TOML it knows the plain spelling that topologies have here, one key a line, which the
inputs of `check readers` begin with: prefixes of it, and octets of it changed to ones that TOML has nowhere, are judged rightly.
"""

from __future__ import annotations

import re
from collections.abc import Sequence
from typing import Union

from dorydate.model.runs import End, expected
from dorydate.model.topology import Topology

BLANK = re.compile(rb"[ \t]*(#[^\x00-\x08\x0a-\x1f\x7f]*)?")
TABLE = re.compile(rb"\[\[(imp|line)\]\]")
PAIR = re.compile(rb'([a-z]+) = ("[ !#-\[\]-~]*"|true|false|0|[1-9][0-9]*)')
MOST_OCTETS = 268_435_456
TOO_LONG = 1, "", "arpasim: input too long\n"
BAD_TOPOLOGY = 1, "", "arpasim: bad topology\n"
FORMS: dict[str, type] = {"carrier": str, "raw": bool, "id": int, "hosts": int, "a": int, "b": int}
ALL_KEYS = {"imp": {"id", "hosts"}, "line": {"a", "b"}}

Value = Union[str, bool, int]
Table = dict[str, Value]


class BadTopology(Exception):
    """A document that describes no network."""


def value_of(word: bytes) -> Value:
    """The value that a word spells."""
    if word[:1] == b'"':
        return word[1:-1].decode()
    return word == b"true" if word in (b"true", b"false") else int(word)


def document_of(octets: bytes) -> list[tuple[str, Table]]:
    """The tables of a document, the top one first, each with the name that opens it."""
    tables: list[tuple[str, Table]] = [("", {})]
    octets.decode()
    for line in octets.split(b"\n"):
        if BLANK.fullmatch(line):
            continue
        if found := TABLE.fullmatch(line):
            tables.append((found[1].decode(), {}))
            continue
        found = PAIR.fullmatch(line)
        key = found[1].decode() if found else ""
        if not found or key in tables[-1][1]:
            raise BadTopology
        tables[-1][1][key] = value_of(found[2])
    return tables


def network_in(octets: bytes) -> Topology:
    """The network that a document describes."""
    (_, top), *tables = document_of(octets)
    whole = [top, *(table for _, table in tables)]
    if not top.keys() <= {"carrier", "raw"} or any(table.keys() != ALL_KEYS[name] for name, table in tables):
        raise BadTopology
    if any(type(value) is not FORMS[key] for table in whole for key, value in table.items()):
        raise BadTopology
    imps = [(int(table["id"]), int(table["hosts"])) for name, table in tables if name == "imp"]
    lines: list[tuple[int, ...]] = [(int(table["a"]), int(table["b"])) for name, table in tables if name == "line"]
    return Topology(str(top.get("carrier", "subnet")), bool(top.get("raw", False)), imps, lines)


def ends(octets: bytes, options: Sequence[str] = ()) -> End:
    """How the program ends on an input."""
    if len(octets) > MOST_OCTETS:
        return TOO_LONG
    lines = octets.split(b"\n")
    if b"%" not in lines:
        return BAD_TOPOLOGY
    marker = lines.index(b"%")
    try:
        network = network_in(b"\n".join(lines[:marker]))
    except (BadTopology, UnicodeDecodeError):
        return BAD_TOPOLOGY
    return expected(options, network, [line.decode("latin-1") for line in lines[marker + 1 :]])

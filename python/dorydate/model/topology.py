"""Topologies in the plain spelling that the examples have, one key a line: read and written."""

from __future__ import annotations

from collections.abc import Sequence
from typing import NamedTuple

from dorydate.model.names import HostName


class Topology(NamedTuple):
    """A network: its carrier, `plain` or `subnet`; whether its script is raw; IMPs with their hosts; lines; strangers."""

    carrier: str
    raw: bool
    imps: list[tuple[int, int]]
    lines: list[tuple[int, ...]]  # the two ends, and of a wrong one whatever further numbers its table has
    foreign: list[tuple[int, list[int]]] | None = None  # the numbers of the strangers of each IMP that names some

    def strangers(self) -> list[HostName]:
        """The hosts that run no program, in the order of the document."""
        return [HostName(number, imp) for imp, numbers in self.foreign or [] for number in numbers]


def network_of(text: str) -> Topology:
    """The network that a document of the plain spelling describes. Raises a ValueError or KeyError where it has another form."""
    top: dict[str, str] = {}
    tables: list[tuple[str, dict[str, str]]] = [("", top)]
    for line in filter(None, (line.split("#")[0].strip() for line in text.splitlines())):
        if line in ("[[imp]]", "[[line]]"):
            tables.append((line, {}))
        else:
            key, value = line.split(" = ")
            tables[-1][1][key] = value.strip('"')
    imps = [(int(table["id"]), int(table["hosts"])) for name, table in tables if name == "[[imp]]"]
    lines: list[tuple[int, ...]] = [(int(table["a"]), int(table["b"])) for name, table in tables if name == "[[line]]"]
    named = [table for name, table in tables if name == "[[imp]]" and "foreign" in table]
    foreign = [(int(table["id"]), numbers_of(table["foreign"])) for table in named]
    return Topology(top.get("carrier", "subnet"), top.get("raw", "false") == "true", imps, lines, foreign or None)


def numbers_of(word: str) -> list[int]:
    """The numbers of an array."""
    if word[:1] != "[" or word[-1:] != "]":
        raise ValueError
    return [int(it) for it in word[1:-1].split(",")] if word[1:-1].strip() else []


def spelled(network: Topology) -> str:
    """The document of a network."""
    carrier, raw, imps, lines, foreign = network
    named = {imp: f"\nforeign = [{', '.join(map(str, numbers))}]" for imp, numbers in foreign or []}
    text = [f'carrier = "{carrier}"', f"raw = {str(raw).lower()}"]
    text += [] if imps else ["imp = []"]
    text += [f"[[imp]]\nid = {number}\nhosts = {hosts}{named.get(number, '')}" for number, hosts in imps]
    for line in lines:
        text += ["[[line]]", *(f"{key} = {number}" for key, number in zip("abc", line))]
    return "\n".join(text)


def spelled_input(network: Topology, lines: Sequence[str]) -> bytes:
    """The input of a network and the lines of a script."""
    return "\n".join([spelled(network), "%", *lines, ""]).encode("latin-1")

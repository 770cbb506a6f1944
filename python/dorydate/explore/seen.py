"""Lines of what only a trace shows, for patterns over the inside: they are put among the printed ones, where they happen.

| Line | When |
|---|---|
| `noted FATE S D N K` | the destination's IMP notes `waits`, `taken`, `dead` or `never` for message K of the flow |
| `arrives KIND S D N K` | a packet about message K of the flow arrives for the first time at the IMP that it is for |
| `slots I C` | IMP I holds pieces of C messages |
"""

from __future__ import annotations

import json
from collections.abc import Iterable, Iterator, Mapping, Sequence
from typing import Any

from dorydate.network import Network
from dorydate.trace import fold

LINES = ("noted", "arrives", "slots")


class Seen:
    """Follows a trace of a network."""

    def __init__(self, network: Network) -> None:
        self.network = network
        self.parts: dict[str, Any] = {}
        self.arrived: set[str] = set()

    def lines(self, trace: Iterable[str]) -> Iterator[tuple[str, Sequence[str]]]:
        """For each record the name of an IMP or a line that its event names, and what is printed and seen."""
        for record in trace:
            read = json.loads(record)
            found = list(read["printed"])
            if read.get("fate", "impdown") not in ("impdown", "enddown"):
                found += self.arrivals(read["event"])
            found += [*self.notes(read["parts"]), *self.slots(read["parts"])]
            fold(self.parts, read["parts"], None)
            yield self.named(read["event"]), found

    def named(self, event: str) -> str:
        """The IMP or the line that is first in an event, as its part is called; empty where the network has none of this number."""
        kind, first = event.split(" ")[:2]
        number = int(first.rpartition("/")[2])
        if kind in ("deliver", "drop", "garble"):
            return f"line {number}" if number < len(self.network.lines) else ""
        return f"imp {number}" if any(it.number == number for it in self.network.imps) else ""

    def arrivals(self, event: str) -> Iterator[str]:
        """What a frame brings to an IMP that it is for, for the first time."""
        _, line, way, place = event.split(" ")
        ends = self.network.lines[int(line)]
        packet = self.parts[f"line {line}"][way][int(place)].get("packet")
        if packet is None:
            return
        target = packet["to"] if packet["kind"] in ("data", "ask") else packet["from"]
        key = json.dumps(packet)
        if target.endswith(f"/{ends.b if way == '+' else ends.a}") and key not in self.arrived:
            self.arrived.add(key)
            yield f"arrives {packet['kind']} {packet['from']} {packet['to']} {packet['link']} {packet['number']}"

    def notes(self, told: Mapping[str, Any]) -> Iterator[str]:
        """The numbers that are noted, or noted with another fate."""
        for name, value in told.items():
            kind, _, flow = name.partition(" ")
            if kind == "kept" and value and value != self.parts.get(name):
                yield f"noted {value['fate']} {flow} {value['number']}"

    def slots(self, told: Mapping[str, Any]) -> Iterator[str]:
        """How many messages an IMP holds pieces of, where these are more or fewer than before."""
        for name, value in told.items():
            if name.startswith("imp "):
                was, now = (len((part or {"slots": []})["slots"]) for part in (self.parts.get(name), value))
                if was != now:
                    yield f"slots {name[4:]} {now}"

"""A trace for Perfetto and Chrome, in JSON as the document *Trace Event Format* describes it.

There is a track for each flow, with its messages from `out` to the answer; for each end of a connection; and for each way of a line,
with the frames that arrive and are dropped. Counters show of each IMP what its store and channels hold, its slots and its distances,
of each line the frames that are live, of each end of a connection what may still be sent or come, and of the whole network the messages
that have no answer.
"""

from __future__ import annotations

import json
from collections.abc import Iterator, Mapping
from typing import Any

from dorydate.export.replayed import MICROSECONDS, Moment, Replayed

FLOWS, CONNECTIONS, LINES, IMPS = 1, 2, 3, 4  # the processes that tracks belong to
FAR = 63  # the distance that means no way
PROCESSES = {FLOWS: "flows", CONNECTIONS: "connections", LINES: "lines", IMPS: "IMPs"}
Event = dict[str, Any]


class Tracks:
    """The numbers of tracks: those of a process are numbered as they first come."""

    def __init__(self) -> None:
        self.numbers: dict[tuple[int, str], int] = {}

    def of(self, process: int, name: str) -> Event:
        """Where an event belongs."""
        return {"pid": process, "tid": self.numbers.setdefault((process, name), len(self.numbers) + 1)}

    def named(self) -> Iterator[Event]:
        """The events that name processes and tracks."""
        for process in dict.fromkeys(it for it, _ in self.numbers):
            yield {"ph": "M", "name": "process_name", "pid": process, "args": {"name": PROCESSES[process]}}
        for (process, name), number in self.numbers.items():
            yield {"ph": "M", "name": "thread_name", "pid": process, "tid": number, "args": {"name": name}}


class Spans:
    """What lasts from one moment to another on a track: messages and connections."""

    def __init__(self, tracks: Tracks) -> None:
        self.tracks = tracks
        self.open: dict[tuple[int, str], Event] = {}

    def begin(self, process: int, track: str, name: str, time: int, **args: object) -> None:
        self.open[process, track] = {"ph": "X", "name": name, "ts": time, **self.tracks.of(process, track), "args": args}

    def end(self, process: int, track: str, time: int, **args: object) -> Iterator[Event]:
        """The span that ends now, if one is open."""
        if span := self.open.pop((process, track), None):
            yield {**span, "dur": time - span["ts"], "args": {**span["args"], **args}}

    def rest(self, time: int) -> Iterator[Event]:
        """What never ends."""
        for process, track in [*self.open]:
            yield from self.end(process, track, time, end="none")


def instant(tracks: Tracks, process: int, track: str, name: str, time: int, **args: object) -> Event:
    return {"ph": "i", "s": "t", "name": name, "ts": time, **tracks.of(process, track), "args": args}


def crossings(moment: Moment, tracks: Tracks, spans: Spans) -> Iterator[Event]:
    """What the lines of a moment show of messages and connections."""
    said = moment.happened.said
    for line in moment.lines:
        match line.words:
            case ["out", source, destination, link, bits, octets]:
                spans.begin(FLOWS, f"{source} {destination} {link}", f"{bits} bits", moment.time, octets=octets, script=said)
            case ["in", *flow, _, _]:
                yield instant(tracks, FLOWS, " ".join(flow), "taken", moment.time, script=said)
            case ["answer", kind, *flow]:
                yield from spans.end(FLOWS, " ".join(flow), moment.time, answer=kind)
            case ["opened", host, socket, peer, foreign]:
                spans.begin(CONNECTIONS, f"{host} socket {socket}", f"with socket {foreign} of {peer}", moment.time, script=said)
            case ["ended", host, socket, *_]:
                yield from spans.end(CONNECTIONS, f"{host} socket {socket}", moment.time, end="closed")
            case ["pairreset", host, peer]:
                for (process, track), span in [*spans.open.items()]:
                    if process == CONNECTIONS and track.startswith(f"{host} ") and span["name"].endswith(f" of {peer}"):
                        yield from spans.end(process, track, moment.time, end="reset")
            case ["sent" | "arrived" as word, host, socket, bits]:
                yield instant(tracks, CONNECTIONS, f"{host} socket {socket}", f"{bits} bits {word}", moment.time, script=said)


def frames(moment: Moment, tracks: Tracks) -> Iterator[Event]:
    """A frame that arrives or is dropped."""
    match moment.event.split(" "):
        case ["deliver" | "drop" | "garble" as word, line, way, _] if not moment.lines:
            yield instant(tracks, LINES, f"line {line} {way}", moment.fate or word, moment.time, event=moment.event, script=moment.happened.said)


class Counters:
    """The counters of all parts; one is written again when it changes."""

    def __init__(self) -> None:
        self.told: dict[str, Mapping[str, int]] = {}
        self.outstanding: set[str] = set()  # the flows with a message without an answer

    def see(self, parts: Mapping[str, Any], time: int) -> Iterator[Event]:
        """The counters that parts change."""
        for name, part in parts.items():
            if name.startswith("source "):
                (self.outstanding.add if part and part["state"] == "outstanding" else self.outstanding.discard)(name)
            elif name.startswith("imp "):
                for what, values in of_imp(part).items():
                    gone = {key: FAR for key in self.told.get(f"{name}: {what}", {})}
                    yield from self.tell(IMPS, f"{name}: {what}", {**gone, **values}, time)
            elif name.startswith("line "):
                yield from self.tell(LINES, f"{name}: live frames", {way: len(part[way]) for way in "+-"}, time)
            elif name.startswith("host ") and "messages" in part:
                yield from self.tell(IMPS, f"{name}: waits", {key: len(part[key]) for key in ("messages", "answers")}, time)
        if any(name.startswith(("imp ", "source ")) for name in parts):
            yield from self.tell(FLOWS, "messages without answer", {"messages": len(self.outstanding)}, time)

    def see_programs(self, programs: Mapping[str, Any], time: int) -> Iterator[Event]:
        """The counters of the ends of connections."""
        for host, program in programs.items():
            for end in (end for pair in (program or {"pairs": []})["pairs"] for end in pair["ends"]):
                yield from self.tell(CONNECTIONS, f"{host} socket {end['socket']}: allocation", end["allocation"], time)

    def tell(self, process: int, name: str, values: Mapping[str, int], time: int) -> Iterator[Event]:
        if self.told.get(name) != values:
            self.told[name] = values
            yield {"ph": "C", "name": name, "pid": process, "ts": time, "args": {**values}}


def of_imp(imp: Any) -> dict[str, dict[str, int]]:
    """The counters of an IMP; of one that is down all are zero, and it has no distances. A distance that is lost is `FAR`."""
    if imp is None:
        return {"packets": {"store": 0, "channels": 0}, "slots": {"slots": 0}, "distances": {}}
    busy = sum("packet" in it for port in imp["ports"] for it in port["sending"])
    return {"packets": {"store": len(imp["store"]), "channels": busy}, "slots": {"slots": len(imp["slots"])}, "distances": imp["distances"]}


def events(what: Replayed) -> Iterator[Event]:
    """All events, in order of time but for spans, which come when they end, and names, which come last."""
    tracks, counters = Tracks(), Counters()
    spans = Spans(tracks)
    yield from counters.see(what.opening(), 0)
    for moment in what.moments():
        yield from crossings(moment, tracks, spans)
        yield from frames(moment, tracks)
        yield from counters.see(moment.parts, moment.time)
        yield from counters.see_programs(moment.programs, moment.time)
    yield from spans.rest(len(what.events) * MICROSECONDS)
    yield from tracks.named()


def trace(what: Replayed) -> str:
    """The trace of a replay."""
    lines = ",\n".join(json.dumps(it, separators=(",", ":")) for it in events(what))
    return f'{{"displayTimeUnit":"ms","otherData":{{"inside":{json.dumps(bool(what.trace))}}},"traceEvents":[\n{lines}\n]}}\n'

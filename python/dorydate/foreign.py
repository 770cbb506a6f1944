"""A log made of the trace of another implementation, as an example: PYTHONPATH=python python3 -m dorydate.foreign < python/tests/two-programs.jsonl > LOG

A trace is what two programs might write down, a JSON value in each line, in the order in which it happened. Each names its `host`.
`put` and `got` say a message that went out and one that came in, as the other host, the link and the octets of the text; with `asks` it has
the request of the first of two sockets to the second. `answer` is what became of a message. The others are about a socket: `open` with its peer
and the peer's socket, `grants`, `took`, `sent`, `user` with what a user handed over, `closes` where somebody at the host closes the end, and `over` with
why the user was informed that it is over: `cls`, `reset` or `stopped`.
"""

from __future__ import annotations

import json
import sys
from collections.abc import Iterable, Iterator
from dataclasses import dataclass, field
from typing import Any

from dorydate import ending

Event = dict[str, Any]
CROSSINGS = "put", "got", "answer"
OVER = {"cls": None, "reset": "reset", "stopped": "stopped"}  # over by CLS it is closed or ended, by who closed it


@dataclass
class End:
    """An end of a connection: the first words of its life's line, and what happened on it."""

    words: str
    sends: bool
    octets: str = ""
    messages: int = 0
    granted: list[int] = field(default_factory=lambda: [0, 0])
    handed: str = ""
    closing: bool = False
    fate: str = "open"

    def keep(self, event: Event) -> None:
        """Adds what happened."""
        if "grants" in event:
            self.granted = [had + more for had, more in zip(self.granted, event["grants"])]
        elif "user" in event:
            self.handed += event["user"]
        elif "closes" in event:
            self.closing = True
        elif "over" in event:
            self.fate = OVER[event["over"]] or ("closed" if self.closing else "ended")
        else:
            self.octets += event["sent" if self.sends else "took"]
            self.messages += 1

    def life(self) -> str:
        """The line of its life."""
        kind, bits = "send" if self.sends else "receive", 4 * len(self.octets)
        return f"life {self.words} {kind} {self.messages} {bits} {self.granted[0]} {self.granted[1]} 0 0 {self.fate} {self.octets or '-'}"


def log_of(events: Iterable[Event]) -> Iterator[str]:
    """The lines of the log."""
    asked: dict[str, int] = {}  # where a request last went out or came in, by the host and its sockets
    newest: dict[str, End] = {}  # the newest life of each socket
    ends: list[End] = []
    place = 0
    for event in events:
        host, end = event["host"], f"{event['host']} {event.get('socket')}"
        if any(it in event for it in CROSSINGS):
            yield crossing(event)
            if "asks" in event:
                own, foreign = event["asks"]
                asked[f"{host} put {own} {foreign}" if "put" in event else f"{host} got {foreign} {own}"] = place
            place += 1
        elif "open" in event:
            socket, (peer, foreign) = event["socket"], event["open"]
            own, partner = asked[f"{host} put {socket} {foreign}"], asked[f"{host} got {socket} {foreign}"]
            newest[end] = End(f"{end} {peer} {foreign} {own} {partner}", socket % 2 == 1)
            ends.append(newest[end])
        else:
            newest[end].keep(event)
    yield from (it.life() for it in ends)
    yield from (f"handed {spelled(it.handed)}" for it in ends)
    yield "end"


def crossing(event: Event) -> str:
    """The line of what crossed."""
    host = event["host"]
    if "answer" in event:
        kind, peer, link = event["answer"]
        return f"answer {kind} {host} {peer} {link}"
    peer, link, text = event["put"] if "put" in event else event["got"]
    return f"out {host} {peer} {link} {spelled(text)}" if "put" in event else f"in {peer} {host} {link} {spelled(text)}"


def spelled(octets: str) -> str:
    """The number of bits of some octets, and the octets."""
    return f"{4 * len(octets)} {octets or '-'}"


def main() -> int:
    """Prints the log of the trace on standard input. The exit status."""
    read = 0

    def events() -> Iterator[Event]:
        nonlocal read
        for read, line in enumerate(sys.stdin.buffer, 1):
            yield json.loads(line)

    try:
        lines = [*log_of(events())]
    except (ArithmeticError, AttributeError, LookupError, RecursionError, TypeError, ValueError):
        print(f"foreign: line {read} is no event of such a trace, or one before it is missing", file=sys.stderr)
        return 1
    print(*lines, sep="\n")
    return 0


if __name__ == "__main__":
    sys.exit(ending.run("foreign", main))

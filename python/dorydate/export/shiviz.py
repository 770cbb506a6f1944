"""A log with vector clocks for ShiViz, as its page *Log format* describes it.

The processes are the hosts. A host's clock counts its printed lines; a message that is taken brings the clock of the line at which
it went out, and an RFNM that of the line at which its message was taken.
"""

from __future__ import annotations

import json
from collections.abc import Iterator, Mapping

from dorydate.export.replayed import Replayed

EXPRESSION = r"(?<host>\S+) (?<clock>\{.*?\}) (?<line>[0-9]+) (?<event>.*)"  # the line is that of the script
Clock = dict[str, int]


def host_of(words: tuple[str, ...]) -> str | None:
    """The host at which a line is printed; None of a line about no host."""
    match words:
        case ["in", _, destination, *_]:
            return destination
        case ["answer" | "done" | "failed", _, host, *_]:
            return host
        case ["refused" | "life", *_]:
            return None
    return words[1]


def merged(clock: Mapping[str, int], other: Mapping[str, int]) -> Clock:
    """What is known to one of two clocks."""
    return {host: max(clock.get(host, 0), other.get(host, 0)) for host in [*clock, *(it for it in other if it not in clock)]}


class Clocks:
    """The clocks of all hosts, and what was known when a flow's last message went out and was taken."""

    def __init__(self) -> None:
        self.of_hosts: dict[str, Clock] = {}
        self.at_out: dict[tuple[str, ...], Clock] = {}
        self.at_taking: dict[tuple[str, ...], Clock] = {}

    def see(self, host: str, words: tuple[str, ...]) -> Clock:
        """The clock of a line that is printed at a host."""
        brought: Clock = {}
        if words[0] == "in":
            brought = self.at_out[words[1:4]]
        elif words[:2] == ("answer", "rfnm"):
            brought = self.at_taking[words[2:5]]
        clock = merged(self.of_hosts.get(host, {}), brought)
        clock[host] = clock.get(host, 0) + 1
        self.of_hosts[host] = clock
        if words[0] == "out":
            self.at_out[words[1:4]] = clock
        elif words[0] == "in":
            self.at_taking[words[1:4]] = clock
        return clock


def lines(what: Replayed) -> Iterator[str]:
    """The lines of the log: ShiViz's expression, an empty line since there is one execution, and then a line for each printed one."""
    yield EXPRESSION
    yield ""
    clocks = Clocks()
    for happened, line in what.lines():
        if host := host_of(line.words):
            clock = json.dumps(clocks.see(host, line.words), separators=(",", ":"))
            yield f"{host} {clock} {happened.number} {line}"


def log(what: Replayed) -> str:
    """The log of a replay."""
    return "".join(f"{it}\n" for it in lines(what))

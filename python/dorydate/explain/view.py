"""What is seen of a subnet of the independent model before and after an event: words for lines, frames sent, and routes."""

from __future__ import annotations

from collections.abc import Callable
from dataclasses import dataclass

from dorydate.model.alive import Held, everything, frame_in_words
from dorydate.model.crossings import Carrier, Reply
from dorydate.model.imp import Imp
from dorydate.model.imp_state import Arrived
from dorydate.model.names import HostName, spell_host
from dorydate.model.packets import ASK, DATA
from dorydate.model.runs import Place
from dorydate.model.subnet import Subnet
from dorydate.sentences.table import filled, listed, sentences

INSIDE = sentences("inside")
Sentences = Callable[[], list[str]]  # what is said once the event has happened
Ways = dict[int, bool]  # for each other IMP whether a route to it is known


def host_in_words(host: HostName) -> str:
    return f"host {spell_host(host)}"


def imp_in_words(number: int) -> str:
    return f"IMP {number}"


@dataclass(frozen=True)
class View:
    """A subnet, and the world or the raw network that it is the carrier of."""

    subnet: Subnet
    place: Place

    def imp(self, number: int) -> Imp | None:
        """An IMP that is up."""
        return self.subnet.imps.get(number)

    # ---- words

    def line_ends(self, line: int, way: str) -> tuple[int, int]:
        """The IMPs from which and to which a way of a line leads."""
        a, b = self.subnet.ends[line][:: 1 if way == "+" else -1]
        return a, b

    def sendings(self, number: int, how: str = "sends") -> str:
        """The frames that an IMP sent in its last call, without plain acknowledgements; nothing for none."""
        imp, lines = self.subnet.up(number), self.subnet.lines_of(number)
        sent: list[str] = []
        for port, _, content in imp.frames:
            if content is not None:
                ends = self.subnet.ends[lines[port]]
                far = ends[1 if ends[0] == number else 0]
                sent.append(f"{frame_in_words(content)} to IMP {far} on line {lines[port]}")
        return filled(INSIDE[how], imp=imp_in_words(number), frames=listed(sent)) if sent else ""

    # ---- routes

    def ways(self, number: int) -> Ways:
        """For each other IMP whether a route to it is known."""
        imp = self.imp(number)
        return {it: imp is not None and imp.route(it) is not None for it in self.subnet.sites if it != number}

    def new_ways(self, number: int, before: Ways) -> str:
        """How the routes that an IMP knows have changed."""
        now = self.ways(number)
        gained = [imp_in_words(it) for it in now if now[it] and not before[it]]
        lost = [imp_in_words(it) for it in now if before[it] and not now[it]]
        said = f"It now knows a route to {listed(gained)}." if gained else ""
        return f"{said} It no longer knows a route to {listed(lost)}.".strip() if lost else said

    def leads(self, number: int, to: int) -> bool:
        """Whether an IMP knows a route to another one."""
        return self.subnet.up(number).route(to) is not None

    # ---- what waits

    def answers_of(self, host: HostName) -> list[Reply]:
        """The answers that wait for a host."""
        imp = self.imp(host.imp)
        return imp.hosts[host.number].answers if imp is not None and host.number < len(imp.hosts) else []

    def waiting_for(self, host: HostName) -> Arrived | None:
        """The message that a host takes next; None where an answer comes first, or nothing."""
        imp = self.imp(host.imp)
        if imp is None or host.number >= len(imp.hosts) or imp.hosts[host.number].answers:
            return None
        return next(iter(imp.hosts[host.number].messages), None)

    def coming(self, host: HostName) -> list[str]:
        """What is still in transit to a host."""
        return [*{it.what: None for it in everything(self.subnet) if self.is_coming(it, host)}]

    def is_coming(self, it: Held, host: HostName) -> bool:
        """Whether something that is alive may still come to a host: a message that it has not taken, or an answer that it waits for."""
        imp = self.subnet.up(host.imp)
        if it.kind == DATA:
            return it.flow.destination == host and imp.is_new(it.flow, it.number)
        return it.kind != ASK and it.flow.source == host and imp.outstanding.get(it.flow) == it.number


def view_of(place: Place, carrier: Carrier) -> View | None:
    """What is seen of a place, None where its carrier has no inside."""
    return View(carrier, place) if isinstance(carrier, Subnet) else None

"""What each event of a script does inside a subnet, in sentences, and what is in the way of one that is refused.

The program prints only what crosses the interfaces of hosts. So the independent model in Python goes along, and whoever
uses this compares what the model prints with what the program printed: `Inside.happen` gives both.
"""

from __future__ import annotations

from collections.abc import Callable, Sequence
from dataclasses import dataclass
from functools import partial
from typing import Any

from dorydate.explain import deeds, frames, messages
from dorydate.explain.in_the_way import InTheWay, Parts, Sending
from dorydate.explain.not_open import why_not_open
from dorydate.explain.view import Sentences, View, view_of
from dorydate.model.bits import octets
from dorydate.model.crossings import Answered, Crossing, Passed
from dorydate.model.runs import OF_CROSSINGS, Place, log_of, opened
from dorydate.model.script import Event
from dorydate.model.topology import Topology
from dorydate.model.world import World

MOST_ROUNDS = 20_000  # rounds of calm that are followed at most: the model is slow

# what is looked at before an event happens, and gives what is said after it
LOOKS: dict[str, Callable[..., Sentences | None]] = {
    "take": messages.taken,
    "deliver": frames.delivered,
    "drop": frames.dropped,
    "garble": frames.garbled,
    "resend": frames.sent_again,
    "route": frames.routes_sent,
    "claim": frames.claimed,
    "enddown": frames.end_down,
    "endup": frames.end_up,
    "impdown": messages.imp_down,
    "impup": messages.imp_up,
    "hostdown": messages.host_down,
    "giveup": messages.given_up,
    "ask": messages.asked,
    "forget": messages.forgotten,
    "abandon": messages.abandoned,
    "calm": messages.rounds_passed,
}


class TooLong(Exception):
    """The script has more rounds than the model follows."""


@dataclass(frozen=True)
class Told:
    """What the model says of an event: the lines that it prints, for each what crossed (None where nothing did), and sentences
    about the inside of the network."""

    printed: list[str]
    crossings: list[Crossing | None]
    sentences: list[str]

    def texts(self) -> list[tuple[bytes, int] | None]:
        """For each line the text of its message as octets and the number of its bits, None where it has none."""
        return [(octets(it.text), len(it.text)) if isinstance(it, Passed) else None for it in self.crossings]

    def answers(self) -> list[str | None]:
        """For each line the answer that crossed, None where there is none. Two answers are printed alike."""
        return [it.answer if isinstance(it, Answered) else None for it in self.crossings]


class Inside:
    """A replay by the independent model, which says after each event what it did inside the subnet; or by another place in
    its stead, which has the same parts."""

    def __init__(self, network: Topology, place: Place | None = None) -> None:
        self.place = place or opened(network)
        self.carrier = self.place.carrier if isinstance(self.place, World) else self.place
        self.view: View | None = view_of(self.place, self.carrier)
        self.rounds = 0

    def happen(self, event: Event) -> Told:
        """Lets an event happen, and says what it did. Raises TooLong instead where it would take too long."""
        kind, *parts = event
        if kind == "calm":
            self.rounds += parts[0]
            if self.rounds > MOST_ROUNDS:
                raise TooLong
        lines, crossed = len(self.place.printed), len(log_of(self.place))
        message = self.message_of(kind, parts)
        after = self.look(kind, parts, message)
        self.place.happen(*event)
        printed = self.place.printed[lines:]
        if printed[-1:] and printed[-1].startswith("refused "):
            sentences = self.refusal(printed[-1].split(" ")[1], kind, parts, message)
        else:
            sentences = after() if after else []
        return Told(printed, beside_lines(printed, log_of(self.place)[crossed:]), [it for it in sentences if it])

    def refusal(self, name: str, kind: str, parts: Parts, message: Sending | None) -> list[str]:
        """Why the event was refused; nothing where only the host's program could say it."""
        if name == "NotOpen" and isinstance(self.place, World):
            return [why_not_open(self.place, kind, parts)]
        return [] if self.view is None else InTheWay(self.view.subnet).refusal(name, kind, parts, message)

    def look(self, kind: str, parts: Parts, message: Sending | None) -> Sentences | None:
        """What will be said of an event, looked at before it happens."""
        if isinstance(self.place, World) and (deed := deeds.looked(self.place, kind, *parts)):
            return deed
        if self.view is None:
            return None
        view = self.view
        if kind in ("out", "offer"):
            return partial(messages.sent, view, message) if message else None
        look = LOOKS.get(kind)
        return look(view, *parts) if look else None

    def message_of(self, kind: str, parts: Sequence[Any]) -> Sending | None:
        """The flow and the text of the message that an event would send; None where it sends none."""
        if self.view is None:
            return None
        if kind == "out":
            return parts[0], parts[1]
        if kind == "offer" and isinstance(self.place, World):
            program = self.place.hosts.get(parts[0])
            return program.next_out() if program is not None else None
        return None


def beside_lines(printed: Sequence[str], crossings: Sequence[Crossing]) -> list[Crossing | None]:
    """What crossed, each beside its line; None beside all other lines."""
    left = iter(crossings)
    return [next(left) if line.split(" ")[0] in OF_CROSSINGS else None for line in printed]

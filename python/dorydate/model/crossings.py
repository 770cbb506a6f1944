"""What crosses the interface between hosts and their network, and what is common to both readings of a network.

Both readings, `boxes` and `subnet`, keep their crossings, and spell and print them.
"""

from __future__ import annotations

from abc import ABC, abstractmethod
from typing import Any, Literal, NamedTuple, Union

from dorydate.model.bits import Bits
from dorydate.model.names import Flow, HostName, Refused, spell_flow, spell_host

Answer = Literal["rfnm", "dead", "incomplete", "nottaken"]
ANSWERS: dict[str, str] = {"rfnm": "RFNM", "dead": "Dead", "incomplete": "Incomplete", "nottaken": "NotTaken"}
PRINTED = {"nottaken": "incomplete"}  # an answer that is printed as another one


# ---- crossings


class Passed(NamedTuple):
    """A message goes out into the network, or is taken from it."""

    kind: Literal["out", "in"]
    flow: Flow
    text: Bits


class Answered(NamedTuple):
    """A host takes the answer about its message."""

    kind: Literal["answer"]
    answer: Answer
    flow: Flow


class Turned(NamedTuple):
    """A host goes down, or comes up."""

    kind: Literal["down", "up"]
    host: HostName


Crossing = Union[Passed, Answered, Turned]


def spell_crossing(crossing: Crossing) -> str:
    """The line that is printed for a crossing."""
    if isinstance(crossing, Passed):
        return f"{crossing.kind} {spell_flow(crossing.flow)} {len(crossing.text)}"
    if isinstance(crossing, Answered):
        return f"answer {PRINTED.get(crossing.answer, crossing.answer)} {spell_flow(crossing.flow)}"
    return f"{crossing.kind} {spell_host(crossing.host)}"


# ---- what a host takes


class Reply(NamedTuple):
    """The answer about one of its messages."""

    kind: Answer
    flow: Flow


class Message(NamedTuple):
    """A message for it."""

    kind: Literal["message"]
    flow: Flow
    text: Bits


Given = Union[Reply, Message]


# ---- carriers


class Printing(ABC):
    """Something to which events happen, with the lines that they print."""

    printed: list[str]

    @abstractmethod
    def step(self, kind: str, *parts: Any) -> None:
        """Lets an event happen, which may be refused."""

    def happen(self, kind: str, *parts: Any) -> None:
        """Lets an event happen, and prints what comes of it or why it is refused."""
        try:
            self.step(kind, *parts)
        except Refused as refused:
            self.printed.append(f"refused {refused}")


class Carrier(Printing):
    """A network with its log, the oldest crossing first, and the lines that it printed."""

    def __init__(self) -> None:
        self.log: list[Crossing] = []
        self.printed: list[str] = []

    def cross(self, crossing: Crossing) -> None:
        """Notes a crossing, and prints it."""
        self.log.append(crossing)
        self.printed.append(spell_crossing(crossing))

    def step(self, kind: str, *parts: Any) -> None:
        """Lets an event happen, which may be refused: the method of its kind."""
        getattr(self, kind)(*parts)

    @abstractmethod
    def hosts(self) -> list[HostName]:
        """All hosts, in order of IMP and host."""

    @abstractmethod
    def out(self, flow: Flow, text: Bits) -> None:
        """A host sends a message."""

    @abstractmethod
    def take(self, host: HostName) -> Given | None:
        """A host takes what waits for it: an answer, or else a message. What it was given, if anything."""

    @abstractmethod
    def giveup(self, flow: Flow) -> None:
        """A message without an answer is given up."""

    @abstractmethod
    def hostdown(self, host: HostName) -> None:
        """A host goes down."""

    @abstractmethod
    def hostup(self, host: HostName) -> None:
        """A host comes up."""

    @abstractmethod
    def calm(self, rounds: int) -> None:
        """Quiet rounds, in each of which every host that is up then takes what waits."""

    @abstractmethod
    def quiet_round(self) -> None:
        """What is on its way arrives."""

    @abstractmethod
    def is_quiet(self) -> bool:
        """Whether a quiet round is known to change nothing."""

    @abstractmethod
    def state(self) -> object:
        """All that decides what comes, equal to another such copy where a round between them changed nothing."""

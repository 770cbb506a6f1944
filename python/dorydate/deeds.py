"""What a call of a replay did: the plain events that it became, and what each printed."""

from __future__ import annotations

from collections.abc import Sequence
from dataclasses import dataclass
from typing import Union

from dorydate import sentences
from dorydate.printed import flow_of, refusal
from dorydate.script import BadLine, Event, Flow, Text

Octets = Union[bytes, str, Text]


class Stopped(Exception):
    """Why a replay can't continue.

    >>> net.back(2)
    Traceback (most recent call last):
        ..
    dorydate.deeds.Stopped: 1 events have happened, so 2 can't be taken back
    """


@dataclass(frozen=True)
class Step:
    """A plain event with what it printed.

    >>> net.out("UCLA", "SRI", 5, b"LO").steps[0].texts
    ('out 0/1 0/2 5 16 4C4F',)
    """

    event: Event
    printed: tuple[str, ...]
    texts: tuple[str, ...] = ()  # the same lines, with the octets of messages after them
    why: str = ""

    @property
    def refused(self) -> str | None:
        """The name of its refusal; it changed nothing then.

        >>> print(net.take("UCLA").steps[0].refused)
        None
        """
        return refusal(self.printed)

    @property
    def meanings(self) -> list[str]:
        """What its lines mean, a sentence each; of an event that printed nothing, what that means.

        >>> net.out("UCLA", "SRI", 5, b"LO").steps[0].meanings
        ['Host 0/1 hands its IMP a message for host 0/2 on link 5: 16 bits.']
        """
        if not self.printed:
            return [sentences.silence(str(self.event).split(" "))]
        return [sentences.meaning(it) for it in self.printed]

    def __str__(self) -> str:
        return "\n".join([str(self.event), *(f"    {it}" for it in self.printed)])


@dataclass(frozen=True)
class Deed:
    """What a call did: the plain events that it became, those that were tried and refused, and what is to be said of it.

    >>> deed = net.give_up("UCLA", "SRI")
    >>> bool(deed), deed.refused, net.text.splitlines()[-1]
    (False, 'NotOutstanding', 'giveup 0/1 0/2 0')
    """

    steps: tuple[Step, ...]
    tried: tuple[Step, ...] = ()
    note: str = ""

    @property
    def printed(self) -> list[str]:
        """All lines that its events printed.

        >>> net.out("UCLA", "SRI", 5, b"LO").printed
        ['out 0/1 0/2 5 16']
        """
        return [line for step in self.steps for line in step.printed]

    @property
    def refused(self) -> str | None:
        """The name of the refusal that it came to, None where all was done.

        >>> net.host_up("UCLA").refused
        'IsUp'
        """
        return next((step.refused for step in (*self.steps, *self.tried[-1:] * (not self.steps)) if step.refused), None)

    @property
    def flow(self) -> Flow | None:
        """The flow of the message that it sent.

        >>> str(net.out("UCLA", "SRI", 5).flow)
        '0/1 0/2 5'
        """
        return next((flow_of(it) for it in self.printed if it.startswith("out ")), None)

    @property
    def text(self) -> Text | None:
        """The text of the last message that crossed.

        >>> net.out("UCLA", "SRI", 5, b"LO").text
        Text(octets=b'LO', bits=16)
        """
        crossed = [it.split(" ") for step in self.steps for it in step.texts if it.startswith(("out ", "in "))]
        return Text.read(*crossed[-1][4:]) if crossed else None

    def __bool__(self) -> bool:
        return self.refused is None

    def __str__(self) -> str:
        tried = [f"(tried: {step.event}: {step.refused})" for step in self.tried]
        return "\n".join([*map(str, self.steps), *tried, *([self.note] if self.note else [])])

    def __repr__(self) -> str:
        return str(self)


def text_of(octets: Octets) -> Text:
    """A text of octets, or of the characters of ASCII."""
    if isinstance(octets, Text):
        return octets
    if not isinstance(octets, (bytes, str)) or isinstance(octets, str) and not octets.isascii():
        raise BadLine(f"{octets!r} is no text: octets (bytes), a string of ASCII, or a Text")
    return Text.of(octets if isinstance(octets, bytes) else octets.encode("ascii"))


def together(deeds: Sequence[Deed]) -> Deed:
    """Several deeds as one."""
    return Deed(tuple(it for deed in deeds for it in deed.steps), tuple(it for deed in deeds for it in deed.tried), " ".join(it.note for it in deeds if it.note))

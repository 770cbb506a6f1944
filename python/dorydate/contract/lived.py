"""Users' deeds as the lives of `arpasim --log` leave them open: each is taken where it is lawful, if it is somewhere.

A life says how much was granted, handed over and counted, and how it ended, and not when. Grants and bits are taken as
given when the end opens, a contact just before the RST that goes out. A close is taken just before the CLS, or before
the first message that the life passes over, unless the life says that its partner ended it: then nobody here closed it.
"""

from __future__ import annotations

from collections import deque
from collections.abc import Iterable
from dataclasses import dataclass

from dorydate.contract.acts import (
    Arrived, AtEnd, Closes, Comes, Contacts, Crosses, Goes, Grants, Hands, Opened, Returned,
)  # fmt: skip
from dorydate.contract.ends import End
from dorydate.contract.fold import Broken
from dorydate.contract.lines import Hearing
from dorydate.contract.logs import Lived, Log
from dorydate.contract.texts import commands_of
from dorydate.model.commands import CLS, RET, RST
from dorydate.model.names import spell_host


@dataclass
class Open:
    """A life that its end has begun, and how many of its messages are counted."""

    lived: Lived
    end: End
    at: AtEnd
    counted: int = 0
    is_returned: bool = False


class Lives:
    """The lives of one host, given to its fold where they may be."""

    def __init__(self, log: Log, host: str, hearing: Hearing) -> None:
        self.own = hearing.own
        self.lines = log.places
        self.to_open: dict[int, deque[Lived]] = {}  # by the line at which both requests have crossed
        mine = [it for it in log.lives if spell_host(it.life.host) == host]
        for lived in mine:
            if max(lived.life.own, lived.life.partner) < len(log.places):
                line = log.places[max(lived.life.own, lived.life.partner)]
                self.to_open.setdefault(line, deque()).append(lived)
        self.count = len(mine)
        self.open: dict[tuple[str, int, int], Open] = {}
        self.notes: list[str] = []

    def crosses(self, line: int, act: Crosses) -> None:
        """Something crosses: users do before it what it needs, and hear after it what comes of it."""
        self.pass_over()
        if isinstance(act, Goes) and act.link == 0:
            self.before(line, act)
        self.own.step(line, act)
        for lived in self.to_open.pop(line, ()):
            self.begin(line, lived)
        for it in self.of_ends(self.own.pending):
            self.counts(line, it)
        if isinstance(act, Comes) and act.link == 0 and any(it.code == RET for it in commands_of(act.text)):
            for it in self.of_ends([*self.own.pair(act.peer).ends.values()]):
                self.returns(line, it)

    def pass_over(self) -> None:
        """A message that came and isn't counted: its user had closed the end before, unless nobody has."""
        for it in self.of_ends(self.own.pending):
            if it.end.waits and it.end.is_unclosed() and it.lived.life.fate != "ended":
                self.own.closes(Closes(it.at.peer, *it.at.sockets))
                first = f"the message of line {it.end.waits[0].place} isn't counted"
                self.notes.append(f"{first}, so its user is taken to have closed socket {it.at.own} before")

    def before(self, line: int, act: Goes) -> None:
        """What users do just before: a contact before an RST, a close before a CLS."""
        for said in commands_of(act.text):
            if said.code == RST:
                self.own.step(line, Contacts(act.peer))
            elif said.code == CLS:
                own, foreign = said.numbers
                found = self.open.get((act.peer, own, foreign))
                if found and found.lived.life.fate != "ended":
                    self.own.step(line, Closes(act.peer, own, foreign))

    def of_ends(self, ends: Iterable[End]) -> list[Open]:
        """The lives of these ends."""
        found = [self.open.get((it.peer, *it.sockets)) for it in dict.fromkeys(ends)]
        return [it for it in found if it is not None and it.end.over in (None, self.own.place)]

    def begin(self, line: int, lived: Lived) -> None:
        """Its user is notified that an end is open, and grants and hands over."""
        life = lived.life
        at = AtEnd(spell_host(life.peer), life.socket, life.foreign)
        self.own.step(line, Opened(at.peer, *at.sockets))
        end = self.own.lives[-1]
        if (end.asked, end.partner) != (self.lines[life.own], self.lines[life.partner]):
            raise Broken("opens", f"the life of line {lived.line} names other requests")
        self.open[at.peer, at.own, at.foreign] = Open(lived, end, at)
        if life.receives():
            self.own.step(line, Grants(at.peer, *at.sockets, *life.granted))
        else:
            self.own.step(line, Hands(at.peer, *at.sockets, lived.handed))

    def counts(self, line: int, it: Open) -> None:
        """It counts what has come, as far as the life does."""
        while it.end.waits and it.counted < it.lived.life.messages:
            self.own.step(line, Arrived(it.at.peer, *it.at.sockets))
            it.counted += 1

    def returns(self, line: int, it: Open) -> None:
        """Its user is notified of a return when RETs have said so much."""
        returned = it.lived.life.returned
        if any(returned) and not it.is_returned and it.end.back.covers(*returned):
            self.own.step(line, Returned(it.at.peer, *it.at.sockets, *returned))
            it.is_returned = True

    def end(self) -> None:
        """The log has ended."""
        self.pass_over()
        for it in self.open.values():
            life = it.lived.life
            if life.receives() and it.counted < life.messages:
                counts = f"the life of line {it.lived.line} counts {life.messages} messages"
                raise Broken("takes", f"{counts}, and {it.counted} came")

"""Weather: rounds of single events, by a seed. Frames get lost, come twice and overtake; lines are cut, IMPs stop."""

from __future__ import annotations

from collections.abc import Iterator, Sequence
from dataclasses import dataclass
from functools import partial
from random import Random

from dorydate.live.session import Session, Wish
from dorydate.network import Host, Line
from dorydate.printed import refusal
from dorydate.script import Deliver, Drop, EndDown, EndUp, Event, HostUp, ImpDown, ImpUp, Offer, Resend, Route, Take
from dorydate.unanswered import before_a_start

FRAMES = 6  # of a way of a line, in a round
TURNS = 3  # of a host with a program: what it takes and offers in a round


@dataclass(frozen=True)
class Rates:
    """How often something happens to a frame (lose, repeat, overtake), and in a round (cut, stop)."""

    lose: float = 0.1
    repeat: float = 0.1
    overtake: float = 0.1
    cut: float = 0.01
    stop: float = 0.003


class Weather:
    """What happens in bad weather. It looks at nothing that is on the lines: what isn't there is refused."""

    def __init__(self, session: Session, seed: int, rates: Rates = Rates()) -> None:
        self.session, self.random, self.rates = session, Random(seed), rates
        self.cuts: dict[int, int] = {}  # lines that are cut, and for how many rounds
        self.stopped: dict[int, int] = {}  # IMPs that have stopped, and for how many rounds
        self.returning: set[Host] = set()  # hosts with programs that are to start again
        network = session.network
        self.programs = [it for it in network.hosts() if it not in network.strangers()]

    def chance(self, rate: float) -> bool:
        return self.random.random() < rate

    def is_over(self) -> bool:
        """Whether all that broke is whole again."""
        return not self.cuts and not self.stopped and not self.returning

    def wishes(self) -> Iterator[Wish]:
        """The events of a round."""
        yield from map(Wish, self._frames())
        yield from self._lines()
        yield from self._imps()
        yield from (Wish(HostUp(it), partial(self._is_up, it)) for it in sorted(self.returning, key=str))

    def _frames(self) -> Iterator[Event]:
        network = self.session.network
        for imp in network.imps:
            if imp.number not in self.stopped:
                yield Route(imp.number)
                yield Resend(imp.number)
        for number in range(len(network.lines)):
            for way in "+-":
                for _ in range(FRAMES):
                    yield from self._frame(number, way)
        for host in self.programs:
            for _ in range(TURNS):
                yield Take(host)
                yield Offer(host)

    def _frame(self, number: int, way: str) -> Iterator[Event]:
        """What becomes of the oldest frame of a line, or of the one after it."""
        rates, place = self.rates, 0
        which = self.random.random()
        if which < rates.lose:
            yield Drop(number, way, 0)
            return
        if which < rates.lose + rates.overtake:
            place = 1
        yield Deliver(number, way, place)
        if not rates.lose + rates.overtake <= which < rates.lose + rates.overtake + rates.repeat:
            yield Drop(number, way, place)

    def _lines(self) -> Iterator[Wish]:
        lines = self.session.network.lines
        for number in [it for it in self.cuts if self._is_due(self.cuts, it)]:
            del self.cuts[number]
            yield from (Wish(EndUp(imp, number)) for imp in ends(lines[number]))
        if lines and not self.cuts and self.chance(self.rates.cut):
            number = self.random.randrange(len(lines))
            self.cuts[number] = self.random.randint(2, 12)
            self.session.say(f"line {number} is cut")
            yield from (Wish(EndDown(imp, number)) for imp in ends(lines[number]))

    def _imps(self) -> Iterator[Wish]:
        known = self.session.known
        for imp in [it for it in self.stopped if self._is_due(self.stopped, it)]:
            yield from map(Wish, before_a_start(imp, known.without_answer(), known.reached[imp] - {imp}))
            yield Wish(ImpUp(imp), partial(self._starts, imp))
        if not self.stopped and self.chance(self.rates.stop):
            imp = self.random.choice(self.session.network.imps).number
            self.stopped[imp] = self.random.randint(2, 10)
            self.session.say(f"IMP {imp} stops")
            yield Wish(ImpDown(imp))

    @staticmethod
    def _is_due(left: dict[int, int], which: int) -> bool:
        left[which] -= 1
        return left[which] <= 0

    def _starts(self, imp: int, said: Sequence[str]) -> None:
        if refusal(said) is None:
            del self.stopped[imp]
            self.session.known.reached[imp].clear()
            self.returning |= {it for it in self.programs if it.imp == imp}
            self.session.say(f"IMP {imp} is up")

    def _is_up(self, host: Host, said: Sequence[str]) -> None:
        if refusal(said) in (None, "IsUp"):
            self.returning.discard(host)


def ends(line: Line) -> tuple[int, int]:
    return line.a, line.b

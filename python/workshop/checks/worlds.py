"""The promise of the book, in random worlds that only the model runs (half a minute for 1,000): ./check worlds [--mixed] [RUNS]

Runs hosts with their programs over random networks, only in the model, and audits their books: ./check worlds [RUNS]. With --mixed
some hosts of each network are strangers, that run anything (python/workshop/checks/mixed.py).

The model is the independent model of the rules (python/dorydate/model/world.py). Of each book it is computed whether it is
safe, from the crossings, the lives and the bits that were handed over (python/dorydate/model/audit.py): at the end of each run, and after each
event of some; in these it is looked at too whether what had an effect on a host went out after that host's last clean point for
its sender (python/dorydate/model/clean.py), and whether each message that a life counts is, with its number, one of its partner
(python/dorydate/model/was_sent.py), and each message of data has its two lives (python/dorydate/model/between.py). Of each run it is judged too what endings mean, at each moment (python/dorydate/model/endings.py), and
whether the log determines the bits of its lives (python/dorydate/model/firsts.py), and
what RFNM of data means (python/dorydate/model/arrived.py), and whether each life is left its fate
(python/dorydate/model/left.py). So this script doesn't try the program. It tries the promise itself, and with it two facts that are stronger: no program is ever notified of an error, and two lives that continue and
have each other's hosts and sockets are one connection.

First the audit itself is tried, on books that are right and books that are wrong in one place; and readings of the safe book
that are wrong in one place have to be distinguished from the right one by one of these books.
"""

from __future__ import annotations

import copy
from collections import Counter
from collections.abc import Callable, Iterable, Iterator
from dataclasses import replace
from typing import Any, NamedTuple, TypeVar

from workshop.checks import mixed
from workshop.checks.broken import Broken, Watched, broken, runs_that_keep
from workshop.checks.lefts import Books
from workshop.words import Words
from dorydate.model import arrived
from dorydate.model.audit import CONTROL, audit, partners_are_kept
from dorydate.model.book import Life
from dorydate.model.chance.worlds import reached, some_script
from dorydate.model.crossings import Answered, Carrier, Crossing, Passed
from dorydate.model.endings import EndingWorld
from dorydate.model.misread_arrived import MISREADINGS as MISREAD_ARRIVED
from dorydate.model.misread_endings import MISREADINGS as MISREAD_ENDINGS
from dorydate.model.misread_left import MISREADINGS as MISREAD_LEFT
from dorydate.model.misreadings import MISREADINGS
from dorydate.model.names import Flow, HostName
from dorydate.model.runs import opened_carrier
from dorydate.model.script import read_event
from dorydate.model.topology import Topology
from dorydate.model.world import World

RUNS = 3000
CLOSELY = 10  # of this many runs one is audited after each event

# a connection that carries data, and what is not sent is returned
OPENING = ["contact 0/1 0/2", "calm 3", "listen 0/2 33 8", "openrecv 0/1 0/2 16 33", "calm 2"]
DIALOGUE = [*OPENING, "grant 0/1 16 2 100", "send 0/2 33 104 0102030405060708090A0B0C0D", "calm 2", "askback 0/1 16 128 128", "calm 2"]

# books that are safe where a narrower definition would refuse them: two connections opened by the same messages, the
# same sockets twice, a message that was sent and not taken, an end that is open before its partner, a reset that one host has seen
TWICE = ["listen 0/2 35 8", "openrecv 0/1 0/2 16 33", "openrecv 0/1 0/2 18 35", "calm 2"]
GOOD = [
    DIALOGUE,
    [*OPENING[:3], *TWICE],
    [*DIALOGUE, "contact 0/1 0/2", "calm 3", *OPENING[2:], "grant 0/1 16 1 8", "send 0/2 33 8 AA", "calm 2"],
    [*OPENING, "grant 0/1 16 2 16", "calm 2", "send 0/2 33 8 41", "calm 2", "send 0/2 33 8 42", "offer 0/2"],
    ["contact 0/1 0/2", "calm 3", "listen 0/1 16 8", "opensend 0/2 0/1 33 16 8", "offer 0/2", "take 0/1", "offer 0/1"],
    [*OPENING, "grant 0/1 16 1 8", "calm 2", "contact 0/2 0/1"],
    [*OPENING, "grant 0/1 16 2 16", "calm 2", "send 0/2 33 8 41", "offer 0/2", "take 0/1", "send 0/2 33 8 42", "giveup 0/2 0/1 2", "calm 2"],
]


# connections that their senders close: a message comes after the receiver's user has closed; one is the second on its link, and of two at once each has its link
CLOSED = ["grant 0/1 16 2 100", "send 0/2 33 8 41", "calm 2", "close 0/2 33", "calm 3"]
ENDINGS = [
    [*OPENING, "grant 0/1 16 2 100", "calm 2", "close 0/1 16", "send 0/2 33 8 41", "offer 0/2", "take 0/1", "take 0/2", "close 0/2 33", "offer 0/2", "take 0/1"],
    [*OPENING, *CLOSED, *OPENING[2:], *CLOSED],
    [*OPENING[:3], *TWICE, "grant 0/1 18 2 100", "send 0/2 35 8 42", *CLOSED],
]

FIRST, SECOND, THIRD = HostName(0, 1), HostName(0, 2), HostName(0, 3)
W = TypeVar("W", bound=World)
Judged = tuple[list[Crossing], list[Life]]  # a book, as it is judged: its log and its lives


def world_of(lines: Iterable[str], kind: Callable[[Carrier], W]) -> W:
    """The world that a script leads to."""
    world = kind(opened_carrier(Topology("plain", False, [(1, 1), (2, 1)], [])))
    for line in lines:
        world.happen(*read_event(line, raw=False))
    return world


def book_of(lines: Iterable[str]) -> Judged:
    """The log and the lives that a script leads to."""
    world = world_of(lines, World)
    return world.carrier.log, world.book.lives


def dialogue() -> Judged:
    """The book of the dialogue."""
    return book_of(DIALOGUE)


def with_life(place: int, **fields: Any) -> Judged:
    """The book of the dialogue, with some fields of one life changed."""
    log, lives = dialogue()
    for name, value in fields.items():
        setattr(lives[place], name, value)
    return log, lives


def wrong_books() -> Iterator[tuple[str | None, Judged]]:
    """Books that are wrong in one place, with the part of a safe book that they break."""
    log, lives = dialogue()
    sender, receiver = lives
    yield None, ([], [])
    for lines in GOOD:
        yield None, book_of(lines)
    yield "streams", with_life(1, bits=receiver.bits[:-1] + "1" * (receiver.bits[-1] == "0"))
    yield "streams", with_life(0, handed=sender.handed[:8])
    yield "streams", (log, [receiver])
    first_request = next(it for it in log if isinstance(it, Passed) and (it.kind, it.flow) == ("in", Flow(FIRST, SECOND, CONTROL)))
    yield "grants", with_life(1, granted=[2, 99])
    yield "grants", with_life(1, granted=[1, 100])
    yield "grants", with_life(0, messages=2)
    yield "partners", (log, [sender, receiver, copy.copy(receiver)])
    yield "partners", with_life(0, partner=log.index(first_request))
    yield "malformed", with_life(1, own=7)
    yield "malformed", with_life(1, partner=6)
    yield "streams", with_life(1, bits=receiver.bits[8:])
    yield "streams", with_life(1, bits=receiver.bits + "0")
    yield "grants", with_life(1, returned=[2, 4])
    older, newer = book_of(GOOD[2])[1][:2], book_of(GOOD[2])[1][2:]
    yield "partners", (book_of(GOOD[2])[0], [*older, newer[0], replace(newer[1], own=older[1].own)])
    yield "partners", (book_of(GOOD[2])[0], [*older, newer[0], replace(newer[1], partner=older[1].partner)])
    yield "partners", (book_of(GOOD[2])[0], [older[1], replace(newer[1], own=older[1].own)])
    yield "partners", (book_of(GOOD[2])[0], [older[1], replace(newer[1], partner=older[1].partner)])
    yield "grants", with_life(1, messages=3)
    yield "streams", (book_of(GOOD[2])[0], [*older, replace(newer[0], bits=newer[0].bits[1:]), newer[1]])
    for messages in wrong_messages():
        yield "messages", (messages, [])


def wrong_messages() -> Iterator[list[Crossing]]:
    """Logs that break what is promised of messages."""
    flow = Flow(FIRST, SECOND, 5)
    out, taken, rfnm = Passed("out", flow, "1"), Passed("in", flow, "1"), Answered("answer", "rfnm", flow)
    yield [out, taken, out, rfnm]
    yield [out, taken, taken]
    yield [out, Passed("in", flow, "0")]
    yield [taken]
    yield [out, rfnm]


def wrong_partners() -> Iterator[Judged]:
    """Books whose stamps name nothing, or another host's messages, so that they are malformed: they break what is promised of partners too."""
    log, (sender, _) = dialogue()
    yield log, [replace(sender, partner=0)]
    # each took the other's request, but the first says that it is with the second host, and the other end is the third host's
    back, on = Flow(SECOND, FIRST, CONTROL), Flow(FIRST, THIRD, CONTROL)
    crossed: list[Crossing] = [Passed("out", back, "0"), Passed("out", on, "1"), Passed("in", on, "1")]
    yield crossed, [Life(FIRST, 16, SECOND, 33, own=1, partner=1), Life(THIRD, 33, FIRST, 16, own=0, partner=2)]


def unnoticed() -> Iterator[str]:
    """The wrong readings of the safe book that judge each book by hand as it should be judged."""
    books = [*wrong_books()]
    for kind in MISREADINGS:
        reading = kind()
        if all(reading.audit(*book) == wanted for wanted, book in books) and not any(reading.partners_are_kept(*book) for book in wrong_partners()):
            yield str(kind.__doc__)


def unnoticed_endings() -> Iterator[str]:
    """The wrong readings of endings that judge each script by hand as it should be judged."""
    for kind in MISREAD_ENDINGS:
        if not any(world_of(lines, kind).judged() for lines in ENDINGS):
            yield str(kind.__doc__)


def unnoticed_arrived() -> Iterator[str]:
    """The wrong readings of RFNM of data that judge each script by hand as it should be judged."""
    books = [book_of(lines) for lines in ENDINGS]
    for kind in MISREAD_ARRIVED:
        if not any(kind().broken(*book) for book in books):
            yield str(kind.__doc__)


def misjudged() -> Iterator[str]:
    """What is wrong with the judges of a run, by the scripts by hand."""
    if any(world_of(lines, EndingWorld).judged() for lines in ENDINGS) or [*unnoticed_endings()]:
        yield "a script by hand ends wrongly, or none tells these wrong readings of endings:"
        yield from unnoticed_endings()
    if any(arrived.broken(*book_of(lines)) for lines in ENDINGS) or [*unnoticed_arrived()]:
        yield "a script by hand loses data of which RFNM came, or none is unlike these wrong readings:"
        yield from unnoticed_arrived()
    if missed := [*Books(lambda more: world_of([*OPENING, *more], World)).unnoticed()]:
        yield "books by hand don't tell the right reading of what lives are left from these:"
        yield from missed


class Ran(NamedTuple):
    """A random run: what breaks, the script so far, what was reached, and how often clauses on endings were tried."""

    part: str | None
    network: Topology
    lines: list[str]
    reached: Counter[str]
    tried: Counter[str]


def run(seed: int) -> Ran:
    """A random run, of which some are looked at after each event."""
    network, script = some_script(seed, world=EndingWorld)
    tried = script.world.tried if isinstance(script.world, EndingWorld) else Counter[str]()
    ran = Ran(broken(script.world), network, script.lines, reached(script.world.printed), tried)
    if ran.part or seed % CLOSELY:
        return ran
    world = Watched(opened_carrier(network))
    for at, event in enumerate(script.events):
        world.happen(*event)
        if part := broken(world):
            return ran._replace(part=part, lines=script.lines[: at + 1])
    return ran


def main() -> int:
    """The exit status."""
    asked = Words(__doc__).flag("mixed", "with strangers").count("runs", RUNS, "random worlds").asked()
    runs = asked.runs
    if asked.mixed:
        return mixed.check(runs)
    for wanted, book in wrong_books():
        if audit(*book) != wanted:
            print(f"check worlds: a book that breaks {wanted} is found to break {audit(*book)}")
            return 1
    if any(partners_are_kept(*book) for book in wrong_partners()):
        print("check worlds: a book with a life that has no partner's request, or one of another host, keeps what is promised of partners")
        return 1
    if missed := [*unnoticed()]:
        print("check worlds: no book by hand distinguishes these wrong readings of the safe book:", *missed, sep="\n")
        return 1
    if missed := [*misjudged()]:
        print("check worlds:", *missed, sep="\n")
        return 1
    came_to: Counter[str] = Counter()
    tried: Counter[str] = Counter()
    try:
        for ran in runs_that_keep("run", runs, run):
            came_to += ran.reached
            tried += ran.tried
    except Broken as why:
        print(f"check worlds: {why}")
        return 1
    print(f"check worlds: {len([*wrong_books(), *wrong_partners()])} books written by hand, each judged rightly, and by {len(MISREADINGS)} wrong readings of the safe book not all")
    readings = f"{len(MISREAD_ENDINGS)} wrong readings of endings and {len(MISREAD_ARRIVED)} of RFNM"
    print(f"check worlds: books by hand tell {len(MISREAD_LEFT)} wrong readings of the fates that lives are left from the right one")
    print(f"check worlds: {len(ENDINGS)} scripts written by hand, each ends rightly, and by {readings} not all")
    print("check worlds: the runs came to", ", ".join(f"{count} {name}" for name, count in sorted(came_to.items())))
    for kind, count in sorted(tried.items()):
        print(f"check worlds: {kind}: {count} times")
    print(f"check worlds: {runs} runs, and each book keeps the promise")
    return 0

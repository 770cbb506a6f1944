"""Calls on worlds, and replays of an input, answered by the independent models."""

from __future__ import annotations

import copy
import re
from collections.abc import Sequence
from typing import Any

from dorydate.model.audit import Log
from dorydate.model.book import Life
from dorydate.model.boxes import Boxes
from dorydate.model.crossings import spell_crossing
from dorydate.model.inputs import ends
from dorydate.model.log import BadLog, Book, LogReader, lines_of
from dorydate.model.names import HostName, Refused, read_host, spell_host
from dorydate.model.runs import opened_carrier
from dorydate.model.script import OF_PROGRAM, OF_SERVICES, read_event
from dorydate.model.services import Report
from dorydate.model.strangers import MixedWorld
from dorydate.model.topology import Topology
from dorydate.model.verdict import Judge
from dorydate.sentences.events import REFUSALS
from workshop.checks.host_calls import text_of_fault
from workshop.checks.readings import Reading, Unread

JOINT = " ; "
OF_ONE_HOST = {*OF_PROGRAM, *OF_SERVICES, "offer"}  # what a host with a program is asked for
PARTS = ["messages", "partners", "streams", "grants"]
ABOUT_LIVES = PARTS[1:]
FAULTS = {
    "arpasim: bad arguments": "BadOptions",
    "arpasim: input too long": "TooLong",
    "arpasim: bad topology": "BadTopology",
}


# ---- worlds


class WorldRows:
    """A world, in which strangers do nothing by themselves."""

    def __init__(self, world: MixedWorld) -> None:
        self.world = world

    def answers(self, call: str, wanted: list[str]) -> list[str]:
        name, _, rest = call.partition(" ")
        match name:
            case "rests":
                return [str(self.rests(wanted)).lower()]
            case "silent":
                return [str(self.is_silent()).lower()]
            case "strangers":
                named = [spell_host(it) for it in self.world.hosts if it in self.world.strangers]
                return [" ".join(named) or "nobody"]
            case "log":
                return self.log()
            case "audit":
                return [said_of(with_changes(self.log(), rest.split(JOINT) if rest else []))]
        before = self.counted()
        return [self.happened(name, rest, call), *self.news(before)]

    def rests(self, wanted: list[str]) -> bool:
        """Whether more rounds change nothing. A subnet may not know it; where it does, a round has to change nothing."""
        carrier, strangers = self.world.carrier, self.world.strangers
        if isinstance(carrier, Boxes):
            waits_for = {flow.destination for flow, _ in carrier.messages} | {it.flow.source for it in carrier.answers}
            return waits_for <= strangers and self.is_silent()
        if wanted != ["true"]:
            return False
        later = copy.deepcopy(self.world)
        before, crossed = later.carrier.state(), len(later.carrier.log)
        later.calm(1)
        return later.carrier.state() == before and len(later.carrier.log) == crossed

    def is_silent(self) -> bool:
        """Whether no host with a program has anything to say."""
        return all(program is None or program.next_out() is None for program in self.world.hosts.values())

    def log(self) -> list[str]:
        """The lines of the log."""
        lives = self.world.book.lives
        return [*lines_of(Book(self.world.carrier.log, lives, [life.handed for life in lives]))]

    # ---- what happens

    def happened(self, name: str, rest: str, call: str) -> str:
        """What comes of a call by which something may happen."""
        if name == "run":
            for line in rest.split(JOINT):
                self.done(self.world.step, line)
            return "ok"
        return self.done(self.turn, rest) if name == "turn" else self.done(self.world.step, call)

    def done(self, step: Any, line: str) -> str:
        """What comes of an event: why it is refused, or that it is done."""
        try:
            step(*read_event(line, raw=False, strangers=True))
        except Refused as refused:
            return f"refused {text_of(str(refused))}"
        return "ok"

    def turn(self, kind: str, *parts: Any) -> None:
        """Lets an event happen where a stranger is as a host that isn't there."""
        if kind in OF_ONE_HOST | {"take"} and parts[0] in self.world.strangers:
            raise Refused("NoSuch")
        if kind == "out" and parts[0].source in self.world.strangers:
            raise Refused("NoSuch")
        self.world.step(kind, *parts)

    def counted(self) -> tuple[int, ...]:
        """How many crossings, notices, contacts and reports there are."""
        book = self.world.book
        return len(self.world.carrier.log), len(book.notices), len(book.contacts), len(book.reports)

    def news(self, before: tuple[int, ...]) -> list[str]:
        """What there is after this many of each."""
        book, (crossings, notices, contacts, reports) = self.world.book, before
        said = [spell_crossing(it) for it in self.world.carrier.log[crossings:]]
        said += [f"told {spell_host(host)} {place} {notice}" for host, notice, place in book.notices[notices:]]
        called = [(spell_host(host), str(place), spell_host(peer)) for host, peer, place in book.contacts[contacts:]]
        said += [" ".join(["called", *it]) for it in called]
        return said + [spell_report(*it) for it in book.reports[reports:]]


def spell_report(host: HostName, report: Report, notices: int) -> str:
    """The row of a report: a line's text comes after its word, an outcome after who comes to it."""
    kind, *words = report
    if kind != "line":
        outcome, who = kind.split(" ")
        words = [outcome, *(re.sub("^badsocket$", "bad socket", word) for word in words)]
        kind = who
    return " ".join([f"reported {spell_host(host)} {notices} {kind}", *words])


def text_of(refusal: str) -> str:
    """The text of a refusal: that of a carrier is its name."""
    return refusal if REFUSALS[refusal] == "carrier" else text_of_fault(refusal)


def open_world(call: str) -> tuple[Reading, list[str]]:
    """The world of a block's first row, or why there is none."""
    network, _, named = call.removeprefix("world ").partition(" foreign")
    imps, slash, lines = network.partition("/")
    sites = [tuple(map(int, it.split(":"))) for it in imps.split()]
    ends_of = [tuple(map(int, it.split("-"))) for it in lines.split()]
    kind = "subnet" if slash else "plain"
    carrier = opened_carrier(Topology(kind, False, [(imp, hosts) for imp, hosts in sites], ends_of))
    strangers = [read_host(word) for word in named.split()]
    absent = [f"refused NoSuch: {spell_host(it)}" for it in strangers if it not in carrier.hosts()]
    return WorldRows(MixedWorld(carrier, [it for it in strangers if it in carrier.hosts()], takes=False)), absent[:1]


# ---- audits


def with_changes(lines: Sequence[str], changes: Sequence[str]) -> list[str]:
    """The lines of a log after changes: one in the place of another, one before it, or one taken away."""
    now = [*lines]
    for change in changes:
        place, is_text, text = change.partition(" ")
        at = int(place) - 1
        if at < len(now):
            now[at : at + (not place.startswith("+"))] = [text] * bool(is_text)
    return now


class OfSafeBooks(Judge):
    """Says of grants what a safe book has: what lives granted, and nothing of the ALLs that crossed."""

    def is_within(self, log: Log, life: Life) -> bool:
        return True


def said_of(lines: Sequence[str]) -> str:
    """What an audit says of a log, and where it shows."""
    try:
        book = LogReader().read_log("".join(f"{line}\n" for line in lines).encode("latin-1"))
    except BadLog as bad:
        return f"bad line {bad}"
    book, judge = book._replace(strangers=()), OfSafeBooks()
    if said := judge.of_form(book):
        return f"malformed, {places_in(book, said)}"
    found = [judge.of_messages(book), *(judge.of_part(part, book) for part in ABOUT_LIVES)]
    for number, (part, said) in enumerate(zip(PARTS, found), 1):
        if said:
            return f"broken {part}, which is part {number}, {places_in(book, said)}"
    return "kept"


def places_in(book: Book, said: str) -> str:
    """The places of the lines that a judge names, each counted from 0 in its own list."""
    numbers = [int(word) - 1 for word in re.findall(r"[0-9]+", said)]
    starts = {"crossing": 0, "life": len(book.log), "list": len(book.log) + len(book.lives)}
    kind, start = [it for it in starts.items() if it[1] <= numbers[0]][-1]
    places = [str(number - start) for number in numbers]
    return f"{kind} {places[0]}" if len(places) == 1 else f"lives {' and '.join(places)}"


# ---- replays


class ProgramRows:
    """An input."""

    def __init__(self, octets: bytes) -> None:
        self.octets = octets

    def answers(self, call: str, wanted: list[str]) -> list[str]:
        name, *words = call.split(" ")
        if name not in ("run", "failing"):
            raise Unread(f"{name} of replays")
        fails_after = int(words.pop(0)) if name == "failing" else None
        _, printed, said = ends(self.octets, words)
        fault = fault_of(said.strip())
        if fails_after is not None and fails_after < len(printed):
            fault, printed = "CannotWrite", printed[:fails_after]
        return [f"{f'refused {fault}' if fault else 'ok'}, {len(printed)} octets", *printed.splitlines()]


def fault_of(said: str) -> str:
    """The name of the fault whose words a program says; nothing where it says none."""
    line = re.fullmatch("arpasim: bad script line ([0-9]+)", said)
    return f"BadLine({line[1]})" if line else FAULTS[said] if said else ""


def open_program(call: str) -> tuple[Reading, list[str]]:
    """The input of a block's first row."""
    lines = call.removeprefix("program ").split(JOINT)
    return ProgramRows("".join(f"{line}\n" for line in lines).encode("latin-1")), []

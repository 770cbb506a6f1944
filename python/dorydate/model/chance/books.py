"""Random books, to be judged by the audit: those of worlds that the model runs, as they are, changed where nothing is promised
or broken on purpose in one place; and small ones of few hosts and sockets, in which hardly a stamp is right.
"""

from __future__ import annotations

from collections.abc import Callable, Iterable, Sequence
from dataclasses import replace
from random import Random

from dorydate.model.audit import CONTROL, partner_request
from dorydate.model.bits import Bits
from dorydate.model.book import Life
from dorydate.model.chance.breaking import HARMLESS, WAYS, Change, list_too_many, on_control, some_bits
from dorydate.model.chance.worlds import Script, some_script
from dorydate.model.crossings import Answered, Crossing, Passed
from dorydate.model.log import Book, book_of
from dorydate.model.names import Flow, HostName
from dorydate.model.topology import Topology
from dorydate.model.verdict import verdict


def copied(book: Book) -> Book:
    """A copy of a book that may be changed."""
    lives = [replace(life, granted=[*life.granted], returned=[*life.returned]) for life in book.lives]
    return Book([*book.log], lives, [*book.handed], book.strangers)


# ---- books of worlds


def changed(change: Change, chance: Random, book: Book) -> Book | None:
    """A changed copy of a book, None where there is nothing to change."""
    other = copied(book)
    try:
        change(chance, other)
    except (IndexError, ValueError):
        return None
    return other


def broken(chance: Random, book: Book) -> tuple[str, Book]:
    """A book that is broken in one place, and by which way."""
    return first_broken(chance.sample([*WAYS], len(WAYS)), lambda name: changed(WAYS[name], chance, book))


def first_broken(names: Iterable[str], changed_by: Callable[[str], Book | None]) -> tuple[str, Book]:
    """The first of some ways to change a book that breaks it, and the broken book."""
    for name in names:
        other = changed_by(name)
        if other is not None and verdict(other) != "kept":
            return name, other
    raise ValueError("no way breaks this book")


def of_world(seed: int) -> tuple[str, Book, Topology, Script]:
    """A book of a world: what was done to it, the book, and the network and the script of its world."""
    chance = Random(f"book {seed}")
    network, script = some_script(seed)
    book = book_of(network, script.world)
    if seed % 2:
        way, other = broken(chance, book)
        return way, other, network, script
    same = changed(chance.choice(HARMLESS), chance, book) if seed % 4 else None
    return ("as it is", book, network, script) if same is None else ("a change that breaks nothing", same, network, script)


# ---- small books

HOSTS = [HostName(0, 1), HostName(0, 1), HostName(0, 2), HostName(0, 2), HostName(3, 63)]


def some_log(chance: Random) -> list[Crossing]:
    """A log of few flows, as a rule one that keeps what is promised of messages."""
    wrong = chance.choice([0, 0, 0.03])
    log: list[Crossing] = []
    last: dict[Flow, Bits | None] = {}  # of each flow: the text of its last message until that is taken, then None
    answered: set[Flow] = set()
    for _ in range(chance.randint(4, 24)):
        flow = Flow(chance.choice(HOSTS), chance.choice(HOSTS), chance.choice([CONTROL, CONTROL, CONTROL, 5]))
        if chance.random() < wrong:
            strange: list[Crossing] = [Passed("in", flow, "1"), Answered("answer", "rfnm", flow), Passed("out", flow, "0")]
            log.append(chance.choice(strange))
        elif flow not in last or flow in answered or chance.random() < 0.1:
            text = last[flow] = some_bits(chance, 2)
            answered.discard(flow)
            log.append(Passed("out", flow, text))
        elif (text_left := last[flow]) is None:
            answered.add(flow)
            log.append(Answered("answer", chance.choice(["rfnm", "rfnm", "incomplete"]), flow))
        else:
            log.append(Passed("in", flow, text_left))
            last[flow] = None
    return log


def some_life(chance: Random, log: Sequence[Crossing], lives: Sequence[Life]) -> Life:
    """A life whose stamps name messages, as a rule; perhaps one that matches one before it, or that has its own request."""
    kind = chance.choice(["new", "new", "match", "match", "match", "again"]) if lives else "new"
    if kind == "new":
        life = new_life(chance, log)
    else:
        other = chance.choice(lives)
        life = matching(chance, log, other) if kind == "match" else replace(other, partner=taken_on(chance, log, other.peer, other.host))
    life.messages = chance.choice([0, 1, 1, 2])
    life.granted, life.returned = [chance.choice([2, 2, 3, 1]), chance.choice([9, 9, 4, 1])], [chance.choice([0, 0, 1]), chance.choice([0, 0, 2])]
    life.fate = chance.choice(["open", "open", "ended", "ended", "ended", "closed", "reset", "stopped"])
    return life


def new_life(chance: Random, log: Sequence[Crossing]) -> Life:
    """A life with a request that went out."""
    asked = [(at, it.flow) for at, it in enumerate(log) if isinstance(it, Passed) and it.kind == "out" and it.flow.link == CONTROL]
    at, (host, peer, _) = chance.choice(asked)
    socket, foreign = chance.choice([(16, 33), (33, 16), (16, 33), (33, 16), (18, 35), (35, 18)])
    return Life(host, socket, peer, foreign, at, taken_on(chance, log, peer, host), chance.choice(["", "", some_bits(chance, 3)]))


def matching(chance: Random, log: Sequence[Crossing], other: Life) -> Life:
    """A life of the other end, whose bits begin alike."""
    place, socket, foreign = partner_request(log, other)
    life = Life(other.peer, socket, other.host, foreign, place or 0, taken_on(chance, log, other.host, other.peer, other.own))
    life.bits = other.bits[: chance.randint(0, len(other.bits))] if chance.random() < 0.5 else other.bits + chance.choice(["", "1"])
    return life


def taken_on(chance: Random, log: Sequence[Crossing], source: HostName, destination: HostName, after: int = 0) -> int:
    """The place of a message on link 0 that was taken: as a rule the first after a place, if there is one."""
    places = on_control(log, "in", source, destination)
    return chance.choice([at for at in places if at > after][:1] * 4 + places)


def small(seed: int) -> Book:
    """A book of few hosts and sockets. Lives for which the log has no messages are left out."""
    chance = Random(f"small {seed}")
    book = Book(some_log(chance), [], [])
    for _ in range(chance.choice([0, 1, 2, 2, 3, 3, 4, 5])):
        try:
            life = some_life(chance, book.log, book.lives)
        except IndexError:
            continue
        at = chance.randint(0, len(book.lives))
        book.lives.insert(at, life)
        book.handed.insert(at, life.bits + chance.choice(["", "", "1"]) if chance.random() < 0.95 else "0")
    if chance.random() < 0.03:
        list_too_many(chance, book)
    return book

"""Ways to change a book: such that break it in one place, and such that break nothing.

Each changes a copy. Where there is nothing to change, an IndexError or ValueError says so (`chance.choice` of nothing).
"""

from __future__ import annotations

from collections.abc import Callable, Sequence
from dataclasses import replace
from random import Random
from typing import TypeVar

from dorydate.model.audit import CONTROL, match
from dorydate.model.bits import Bits
from dorydate.model.book import Fate, Life
from dorydate.model.commands import ALL, control_message, of_counts
from dorydate.model.crossings import Answer, Answered, Crossing, Passed, Turned
from dorydate.model.fates import LEAVES, RIGHT_FATES, first_strange, over, together
from dorydate.model.firsts import RIGHT
from dorydate.model.log import Book
from dorydate.model.names import Flow, HostName

SOCKETS = 2**32
STAMPS = 2**64
AMOUNTS = 2**128
FATES: list[Fate] = ["open", "closed", "ended", "reset", "stopped"]
STRANGER = HostName(3, 63)

Change = Callable[[Random, Book], None]
T = TypeVar("T")


# ---- what a book is changed in


def moved(book: Book, place: int, by: int) -> None:
    """Moves the stamps of crossings from a place on."""
    for life in book.lives:
        life.own += by * (life.own >= place)
        life.partner += by * (life.partner >= place)


def insert(book: Book, place: int, crossing: Crossing) -> None:
    """Puts a crossing into the log; the stamps of lives continue naming what they named."""
    moved(book, place, 1)
    book.log.insert(place, crossing)


def remove(book: Book, place: int) -> None:
    """Takes a crossing out of the log. A stamp that named it names the next one."""
    del book.log[place]
    moved(book, place + 1, -1)


def exchange(chance: Random, things: list[T]) -> None:
    """Two of these things change places."""
    one, other = chance.sample(range(len(things)), 2)
    things[one], things[other] = things[other], things[one]


def places(book: Book, kind: str) -> list[int]:
    """Where crossings of a kind are."""
    return [place for place, it in enumerate(book.log) if it.kind == kind]


def a_message(chance: Random, book: Book, kind: str) -> tuple[int, Passed]:
    """A message that goes out or comes in, and its place."""
    place = chance.choice(places(book, kind))
    crossing = book.log[place]
    assert isinstance(crossing, Passed)
    return place, crossing


def on_control(log: Sequence[Crossing], kind: str, source: HostName, destination: HostName) -> list[int]:
    """Where messages of a flow on link 0 go out, or come in."""
    flow = Flow(source, destination, CONTROL)
    return [place for place, it in enumerate(log) if isinstance(it, Passed) and (it.kind, it.flow) == (kind, flow)]


def flipped(bits: Bits, place: int) -> Bits:
    """Bits with one of them changed."""
    return bits[:place] + "10"[int(bits[place])] + bits[place + 1 :]


def some_bits(chance: Random, most: int = 12) -> Bits:
    """One bit or some more."""
    return "".join(chance.choices("01", k=chance.randint(1, most)))


# ---- ways to break a book

WAYS: dict[str, Change] = {}


def way(name: str) -> Callable[[Change], Change]:
    """Puts a function among the ways to break a book."""
    return lambda change: WAYS.setdefault(name, change)


def a_life(chance: Random, book: Book, is_meant: Callable[[Life], object] = lambda life: True) -> Life:
    """One of the lives that are meant."""
    return chance.choice([life for life in book.lives if is_meant(life)])


def receives(life: Life) -> bool:
    return life.receives()


def sends(life: Life) -> bool:
    return not life.receives()


@way("a message is taken twice")
def taken_twice(chance: Random, book: Book) -> None:
    place = chance.choice(places(book, "in"))
    insert(book, chance.randint(place + 1, len(book.log)), book.log[place])


@way("a message is taken before it goes out")
def taken_early(chance: Random, book: Book) -> None:
    _, (_, flow, text) = a_message(chance, book, "out")
    first = next(at for at, it in enumerate(book.log) if isinstance(it, Passed) and (it.kind, it.flow) == ("out", flow))
    insert(book, first, Passed("in", flow, text))


@way("another text is taken")
def taken_otherwise(chance: Random, book: Book) -> None:
    place, (_, flow, text) = a_message(chance, book, "in")
    others = [text + "0", text[:-1], flipped(text, chance.randrange(len(text))) if text else "1"]
    book.log[place] = Passed("in", flow, chance.choice(others))


@way("a message is taken on another flow")
def taken_elsewhere(chance: Random, book: Book) -> None:
    place, (_, (source, destination, link), text) = a_message(chance, book, "in")
    others = [
        (destination, source, link),
        (source, destination, link ^ 1),
        (STRANGER, destination, link),
        (source, HostName(2, 62), link),
    ]
    book.log[place] = Passed("in", Flow(*chance.choice(others)), text)


@way("an RFNM comes before the taking")
def answered_early(chance: Random, book: Book) -> None:
    place, message = a_message(chance, book, "out")
    insert(book, place + 1, Answered("answer", "rfnm", message.flow))


@way("an RFNM is about no message")
def answered_nothing(chance: Random, book: Book) -> None:
    insert(
        book,
        chance.randint(0, len(book.log)),
        Answered("answer", "rfnm", Flow(STRANGER, HostName(0, 1), chance.randrange(256))),
    )


@way("an answer that is about no message")
def answered_by_chance(chance: Random, book: Book) -> None:
    flow = Flow(STRANGER, HostName(0, 1), chance.randrange(256))
    kinds: list[Answer] = ["dead", "incomplete", "nottaken"]
    insert(book, chance.randint(0, len(book.log)), Answered("answer", chance.choice(kinds), flow))


@way("a message goes out while the last one of its flow is outstanding")
def out_too_soon(chance: Random, book: Book) -> None:
    place, message = a_message(chance, book, "out")
    insert(book, place + 1, message)


@way("a host that is up comes up")
def up_twice(chance: Random, book: Book) -> None:
    insert(book, chance.randint(0, len(book.log)), Turned("up", STRANGER))


@way("a host goes down, and its program continues")
def down_and_goes_on(chance: Random, book: Book) -> None:
    place, message = a_message(chance, book, chance.choice(["out", "in"]))
    insert(book, place, Turned("down", message.flow.source if message.kind == "out" else message.flow.destination))


@way("Dead or Incomplete becomes an RFNM")
def answered_otherwise(chance: Random, book: Book) -> None:
    others = [(place, it) for place, it in enumerate(book.log) if isinstance(it, Answered) and it.answer != "rfnm"]
    place, answer = chance.choice(others)
    book.log[place] = Answered("answer", "rfnm", answer.flow)


@way("a crossing is missing")
def missing(chance: Random, book: Book) -> None:
    remove(book, chance.randrange(len(book.log)))


@way("two crossings change places")
def swapped(chance: Random, book: Book) -> None:
    exchange(chance, book.log)


@way("an own stamp at another message")
def own_stamp(chance: Random, book: Book) -> None:
    life = a_life(chance, book)
    life.own = chance.randrange(len(book.log))


@way("a partner's stamp at another message")
def partner_stamp(chance: Random, book: Book) -> None:
    life = a_life(chance, book)
    life.partner = chance.randrange(len(book.log))


@way("an own stamp at another message of its flow")
def own_stamp_of_flow(chance: Random, book: Book) -> None:
    life = a_life(chance, book)
    life.own = chance.choice([it for it in on_control(book.log, "out", life.host, life.peer) if it != life.own])


@way("a partner's stamp at another message of its flow")
def partner_stamp_of_flow(chance: Random, book: Book) -> None:
    life = a_life(chance, book)
    life.partner = chance.choice([it for it in on_control(book.log, "in", life.peer, life.host) if it != life.partner])


@way("a stamp past the log's end")
def stamp_past(chance: Random, book: Book) -> None:
    life = a_life(chance, book)
    past = chance.choice([len(book.log), len(book.log) + 1, 2**63, STAMPS - 1])
    life.own, life.partner = chance.choice([(past, life.partner), (life.own, past)])


@way("a stamp before any message of its flow")
def stamp_early(chance: Random, book: Book) -> None:
    life = a_life(chance, book)
    insert(book, 0, Passed("in", Flow(life.peer, life.host, CONTROL), ""))
    life.partner = 0


@way("a list of handed bits is missing")
def list_missing(chance: Random, book: Book) -> None:
    del book.handed[chance.randrange(len(book.handed))]


@way("a list of handed bits too many")
def list_too_many(chance: Random, book: Book) -> None:
    book.handed.insert(chance.randint(0, len(book.handed)), chance.choice(["", some_bits(chance)]))


@way("a life without its list is missing")
def life_missing(chance: Random, book: Book) -> None:
    del book.lives[chance.randrange(len(book.lives))]


@way("a life is there twice, with its list")
def life_twice(chance: Random, book: Book) -> None:
    at, to = chance.randrange(len(book.lives)), chance.randint(0, len(book.lives))
    book.lives.insert(to, replace(book.lives[at], fate=chance.choice(FATES)))
    book.handed.insert(to, book.handed[at])


@way("a receiving life is there twice, at the end")
def receiver_twice(chance: Random, book: Book) -> None:
    at = book.lives.index(a_life(chance, book, receives))
    book.lives.append(replace(book.lives[at]))
    book.handed.append(book.handed[at])


@way("a life has another life's own request")
def own_of_another(chance: Random, book: Book) -> None:
    life, other = chance.sample(book.lives, 2)
    life.own, life.socket, life.foreign = other.own, other.socket, other.foreign
    life.host, life.peer = chance.choice([(life.host, life.peer), (other.host, other.peer)])


@way("a life has another life's partner's request")
def partner_of_another(chance: Random, book: Book) -> None:
    life, other = chance.sample(book.lives, 2)
    life.partner, life.socket, life.foreign = other.partner, other.socket, other.foreign
    life.host, life.peer = chance.choice([(life.host, life.peer), (other.host, other.peer)])


@way("a life has another socket")
def other_socket(chance: Random, book: Book) -> None:
    life = a_life(chance, book)
    socket = chance.choice([life.socket ^ 2, (life.socket + 2) % SOCKETS, life.socket ^ 1])
    foreign = chance.choice([life.foreign ^ 2, (life.foreign + 2) % SOCKETS, life.foreign ^ 1])
    life.socket, life.foreign = chance.choice([(socket, life.foreign), (life.socket, foreign)])


@way("a life has another host or peer")
def other_host(chance: Random, book: Book) -> None:
    life = a_life(chance, book)
    host, imp = life.peer
    others = [
        (life.peer, life.host),
        (HostName(host, imp % 63 + 1), life.peer),
        (life.host, HostName(3 - host, imp)),
        (life.peer, life.peer),
    ]
    life.host, life.peer = chance.choice(others)


@way("the last taken bit is changed")
def last_taken_bit(chance: Random, book: Book) -> None:
    life = a_life(chance, book, lambda it: it.receives() and it.bits)
    life.bits = flipped(life.bits, len(life.bits) - 1)


@way("another carried bit is changed")
def carried_bit(chance: Random, book: Book) -> None:
    life = a_life(chance, book, lambda it: it.bits)
    life.bits = flipped(life.bits, chance.randrange(len(life.bits)))


@way("the first taken bit is missing")
def first_bit_missing(chance: Random, book: Book) -> None:
    life = a_life(chance, book, lambda it: it.bits)
    life.bits = life.bits[1:]


@way("more is taken than was sent")
def taken_more(chance: Random, book: Book) -> None:
    life = a_life(chance, book, receives)
    life.bits += some_bits(chance)


@way("more is sent than was handed over")
def sent_more(chance: Random, book: Book) -> None:
    life = a_life(chance, book, sends)
    life.bits += some_bits(chance)


@way("an ALL grants less than was sent")
def all_less(chance: Random, book: Book) -> None:
    """A message whose ALLs grant nothing goes out and comes in instead of one."""
    found = [
        it
        for it in book.log
        if isinstance(it, Passed)
        and it.flow.link == CONTROL
        and any(command[0] == ALL for command in RIGHT.commands(it.text))
    ]
    old = chance.choice(found)
    commands = [
        of_counts(ALL, command[1], 0, 0) if command[0] == ALL else command for command in RIGHT.commands(old.text)
    ]
    for place, it in enumerate(book.log):
        if isinstance(it, Passed) and (it.flow, it.text) == (old.flow, old.text):
            book.log[place] = Passed(it.kind, it.flow, control_message(commands))


@way("the end of handed bits is missing")
def handed_less(chance: Random, book: Book) -> None:
    at = chance.choice([at for at, life in enumerate(book.lives) if sends(life) and life.bits])
    book.handed[at] = book.handed[at][: chance.randrange(len(book.lives[at].bits))]


@way("handed bits are changed")
def handed_otherwise(chance: Random, book: Book) -> None:
    at = chance.choice([at for at, life in enumerate(book.lives) if sends(life) and book.handed[at]])
    book.handed[at] = flipped(book.handed[at], chance.randrange(len(book.handed[at])))


@way("lists of handed bits change places")
def handed_swapped(chance: Random, book: Book) -> None:
    exchange(chance, book.handed)


@way("the sender's life is missing, with its list")
def sender_missing(chance: Random, book: Book) -> None:
    at = chance.choice([at for at, life in enumerate(book.lives) if sends(life)])
    del book.lives[at], book.handed[at]


@way("granted bits are lowered")
def granted_bits(chance: Random, book: Book) -> None:
    life = a_life(chance, book, lambda it: it.receives() and it.granted[1])
    life.granted[1] = chance.choice([max(len(life.bits) + life.returned[1] - 1, 0), chance.randrange(life.granted[1])])


@way("granted messages are lowered")
def granted_messages(chance: Random, book: Book) -> None:
    life = a_life(chance, book, lambda it: it.receives() and it.granted[0])
    life.granted[0] = chance.choice([max(life.messages + life.returned[0] - 1, 0), chance.randrange(life.granted[0])])


@way("more is returned")
def returned_more(chance: Random, book: Book) -> None:
    life = a_life(chance, book, receives)
    life.returned[chance.randrange(2)] += chance.choice([1, life.granted[1] + 1, 2**64])


@way("nothing is granted")
def granted_nothing(chance: Random, book: Book) -> None:
    a_life(chance, book, lambda it: it.receives() and it.messages).granted = [0, 0]


@way("more messages are counted")
def messages_more(chance: Random, book: Book) -> None:
    a_life(chance, book).messages += chance.choice([1, 2, 65536, 2**64])


@way("only a part of what came in is taken")
def part_taken(chance: Random, book: Book) -> None:
    life = a_life(chance, book, lambda it: it.receives() and it.bits)
    life.bits = life.bits[: chance.randrange(len(life.bits))]


@way("other data cross")
def other_data(chance: Random, book: Book) -> None:
    data = [
        (at, it)
        for at, it in enumerate(book.log)
        if isinstance(it, Passed) and it.flow.link != CONTROL and len(it.text) > 40
    ]
    at, it = chance.choice([(at, it) for at, it in data if it.kind == "out"])
    other = it._replace(text=flipped(it.text, len(it.text) - 1))
    book.log[at] = other
    after = next((place for place, came in data if place > at and came.flow == it.flow), None)
    if after is not None and book.log[after].kind == "in":
        book.log[after] = other._replace(kind="in")


# ---- what an end by CLS loses


def matched(book: Book) -> list[tuple[Life, int]]:
    """The receiving lives, each with the place of a sending one that it matches."""
    return [
        (life, at)
        for life in book.lives
        if life.receives()
        for at, it in enumerate(book.lives)
        if match(book.log, life, it)
    ]


def ended(book: Book) -> list[tuple[Life, int]]:
    """Those that their partners ended."""
    return [(life, at) for life, at in matched(book) if life.fate == "ended"]


def said_to_be_ended(chance: Random, book: Book, *fates: Fate) -> None:
    """Says of a life with one of these fates, which lost something, that its partner ended it."""
    lost = [
        life
        for life, at in matched(book)
        if life.fate in fates and (life.bits != book.lives[at].bits or life.bits != book.handed[at])
    ]
    chance.choice(lost).fate = "ended"


@way("a life that was closed and lost something is said to be ended")
def ended_for_closed(chance: Random, book: Book) -> None:
    said_to_be_ended(chance, book, "closed")


@way("a life that was reset or stopped and lost something is said to be ended")
def ended_for_reset(chance: Random, book: Book) -> None:
    said_to_be_ended(chance, book, "reset", "stopped")


@way("an open life that has not taken all is said to be ended")
def ended_for_open(chance: Random, book: Book) -> None:
    said_to_be_ended(chance, book, "open")


@way("an ended life lacks its last bits")
def ended_with_fewer(chance: Random, book: Book) -> None:
    life, _ = chance.choice([(life, at) for life, at in ended(book) if life.bits])
    life.bits = life.bits[: chance.randrange(len(life.bits))]


@way("an ended life took nothing")
def ended_with_none(chance: Random, book: Book) -> None:
    life, _ = chance.choice([(life, at) for life, at in ended(book) if life.bits])
    life.bits, life.messages = "", 0


@way("an ended life counts another number of messages")
def ended_with_messages(chance: Random, book: Book) -> None:
    life, _ = chance.choice(ended(book))
    life.messages = abs(life.messages + chance.choice([-1, 1]))


@way("more was handed over than an ended life took")
def ended_handed_more(chance: Random, book: Book) -> None:
    _, at = chance.choice(ended(book))
    book.handed[at] += some_bits(chance)


@way("more was sent than an ended life took")
def ended_sent_more(chance: Random, book: Book) -> None:
    life, at = chance.choice(ended(book))
    sender = book.lives[at]
    sender.bits += some_bits(chance)
    book.handed[at] = sender.bits
    life.granted = [AMOUNTS - 1, AMOUNTS - 1]


# ---- contacts


@way("a contact resets one of several lives")
def reset_alone(chance: Random, book: Book) -> None:
    life = a_life(chance, book, lambda it: together(book.log, book.lives, it))
    life.fate = "open" if life.fate == "reset" else "reset"


def is_odd(book: Book, life: Life, fate: Fate) -> bool:
    """Whether a life may have a fate by itself, but not beside the others."""
    other = replace(life, fate=fate)
    return RIGHT_FATES.suits(book.log, other) and is_strange(book, life, fate)


def is_strange(book: Book, life: Life, fate: Fate) -> bool:
    """Whether lives can't be over so where one of them has this fate."""
    return first_strange(book.log, [replace(it, fate=fate) if it is life else it for it in book.lives]) is not None


@way("a contact before a stop or a CLS resets one of several lives")
def reset_before(chance: Random, book: Book) -> None:
    ends = {id(it): over(book.log, it) for it in book.lives}
    may = [it for it in book.lives if (end := ends[id(it)]) is not None and end.by is not None and it.fate != "reset"]
    chance.choice([it for it in may if is_odd(book, it, "reset")]).fate = "reset"


# ---- changes that break nothing: what they change is not promised


def granted_more(chance: Random, book: Book) -> None:
    life = a_life(chance, book)
    life.granted = [chance.choice([it, it + 1, AMOUNTS - 1]) for it in life.granted]


def ended_otherwise(chance: Random, book: Book) -> None:
    life = a_life(chance, book)
    ended_by = over(book.log, life)
    may = LEAVES[ended_by.left()] if ended_by else {*FATES}
    left = [it for it in FATES if it in may and (it != "ended" or sends(life))]
    life.fate = chance.choice([it for it in left if not is_strange(book, life, it)])


def handed_more(chance: Random, book: Book) -> None:
    taken = {at for _, at in ended(book)}
    book.handed[chance.choice([at for at in range(len(book.handed)) if at not in taken])] += some_bits(chance)


def taken_less(chance: Random, book: Book) -> None:
    life = a_life(chance, book, lambda it: it.receives() and it.bits and it.fate != "ended")
    life.bits, life.messages = "", 0


def order_changed(chance: Random, book: Book) -> None:
    both = [*zip(book.lives, book.handed)]
    chance.shuffle(both)
    book.lives[:], book.handed[:] = [life for life, _ in both], [bits for _, bits in both]


def log_goes_on(chance: Random, book: Book) -> None:
    flow = Flow(STRANGER, HostName(0, 1), chance.randrange(256))
    more: list[Crossing] = [Passed("out", flow, some_bits(chance)), Turned("down", STRANGER)]
    insert(book, chance.randint(0, len(book.log)), chance.choice(more))


def receiver_leaves(chance: Random, book: Book) -> None:
    at = book.lives.index(a_life(chance, book, receives))
    del book.lives[at], book.handed[at]


HARMLESS = [granted_more, ended_otherwise, handed_more, taken_less, order_changed, log_goes_on, receiver_leaves]

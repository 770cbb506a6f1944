"""Random books of networks with strangers, to be judged by the audit.

They are those of mixed worlds that the model runs, as they are, changed where nothing is promised or broken on purpose in
one place; small ones some of whose hosts are strangers; and logs in which a line that names a stranger is at another place.
"""

from __future__ import annotations

from collections.abc import Callable, Sequence
from dataclasses import replace
from random import Random

from dorydate.model.audit import partner_request
from dorydate.model.bits import Bits
from dorydate.model.book import Life
from dorydate.model.chance.books import HOSTS, copied, first_broken, small
from dorydate.model.chance.breaking import FATES, HARMLESS, STRANGER, WAYS, Change, on_control, receives, sends, some_bits
from dorydate.model.chance.strangers import MixedScript, mixed_script, naming
from dorydate.model.log import Book, book_of, in_order, spelled_log
from dorydate.model.names import HostName
from dorydate.model.topology import Topology

Changed = Callable[[Random, Book], Book]  # changes a copy, or gives another book
TOWARD: dict[str, Changed] = {}  # ways to break a book in what it says of strangers
UNASKED: list[Changed] = []  # changes of that which break nothing


def way(name: str) -> Callable[[Changed], Changed]:
    """Puts a function among the ways to break a book."""
    return lambda change: TOWARD.setdefault(name, change)


def harmless(change: Changed) -> Changed:
    """Puts a function among the changes that break nothing."""
    UNASKED.append(change)
    return change


def toward(chance: Random, book: Book, is_meant: Callable[[Life], object]) -> int:
    """The place of a life toward a stranger that is meant."""
    return chance.choice([at for at, it in enumerate(book.lives) if it.peer in book.strangers and is_meant(it)])


def has_taken(life: Life) -> bool:
    """Whether a life took a message."""
    return life.receives() and life.messages > 0


def naming_also(book: Book, host: HostName) -> Book:
    """A book that names one stranger more."""
    return book._replace(strangers=tuple(sorted({*book.strangers, host}, key=in_order)))


# ---- ways to break a book


@way("less was granted to a stranger than was taken from it")
def granted_less(chance: Random, book: Book) -> Book:
    life = book.lives[toward(chance, book, has_taken)]
    what, used = chance.choice([(0, life.messages), (1, len(life.bits))])
    life.granted[what] = max(0, used + life.returned[what] - chance.choice([1, 1, 8, 2**64]))
    return book


@way("a stranger returned of what was taken from it")
def returned_less(chance: Random, book: Book) -> Book:
    life = book.lives[toward(chance, book, receives)]
    what, used = chance.choice([(0, life.messages), (1, len(life.bits))])
    life.returned[what] = life.granted[what] - used + chance.choice([1, 1, 2**64])
    return book


@way("more was taken from a stranger than was granted to it")
def taken_more(chance: Random, book: Book) -> Book:
    life = book.lives[toward(chance, book, receives)]
    if chance.random() < 0.5:
        life.messages = life.granted[0] - life.returned[0] + chance.choice([1, 2, 2**64])
    else:
        life.bits += "1" * (min(life.granted[1] - life.returned[1] - len(life.bits), 8000) + 1)
    return book


@way("what was sent to a stranger wasn't handed over")
def sent_otherwise(chance: Random, book: Book) -> Book:
    at = toward(chance, book, lambda it: sends(it) and it.bits)
    bits = book.lives[at].bits
    cut = bits[: chance.randrange(len(bits))]
    book.handed[at] = chance.choice([cut, cut + "10"[int(bits[len(cut)])] + bits[len(cut) + 1 :]])
    return book


@way("more was sent to a stranger than was handed over")
def sent_more(chance: Random, book: Book) -> Book:
    at = toward(chance, book, sends)
    book.lives[at].bits = book.handed[at] + some_bits(chance)
    return book


@way("a stranger has the other end of a life toward it")
def stranger_lives(chance: Random, book: Book) -> Book:
    life = book.lives[toward(chance, book, lambda it: True)]
    place = partner_request(book.log, life)[0] or 0
    taken = chance.choice([at for at in on_control(book.log, "in", life.host, life.peer) if at > life.own])
    at = chance.randint(0, len(book.lives))
    bits = life.bits + chance.choice(["", some_bits(chance)])
    ends, fate = (life.peer, life.foreign, life.host, life.socket), chance.choice(FATES)
    book.lives.insert(at, Life(*ends, place, taken, bits, life.messages, [9, 9999], fate=fate))
    book.handed.insert(at, bits)
    return book


@way("a host with lives is named a stranger")
def host_named(chance: Random, book: Book) -> Book:
    return naming_also(book, chance.choice([it.host for it in book.lives]))


@way("a stranger isn't named")
def stranger_unnamed(chance: Random, book: Book) -> Book:
    lost = chance.choice(book.strangers)
    return book._replace(strangers=tuple(it for it in book.strangers if it != lost))


# ---- changes that break nothing


@harmless
def taken_otherwise(chance: Random, book: Book) -> Book:
    """What was taken from a stranger needn't have crossed."""
    life = book.lives[toward(chance, book, has_taken)]
    life.bits = "".join(chance.choices("01", k=chance.randint(0, len(life.bits))))
    life.messages = chance.randint(0, life.messages)
    return book


@harmless
def sent_unseen(chance: Random, book: Book) -> Book:
    """Nor does what was sent to one, if it was handed over."""
    at = toward(chance, book, sends)
    bits: Bits = some_bits(chance)
    book.lives[at].bits, book.handed[at] = bits[: chance.randint(0, len(bits))], bits
    book.lives[at].messages = chance.choice([0, 1, 2**64])
    return book


@harmless
def over_anyhow(chance: Random, book: Book) -> Book:
    """A life with a stranger is over anyhow."""
    book.lives[toward(chance, book, lambda it: True)].fate = chance.choice(FATES)
    return book


@harmless
def life_twice(chance: Random, book: Book) -> Book:
    """A life with a stranger is there twice."""
    at, to = toward(chance, book, lambda it: True), chance.randint(0, len(book.lives))
    book.lives.insert(to, replace(book.lives[at]))
    book.handed.insert(to, book.handed[at])
    return book


@harmless
def life_leaves(chance: Random, book: Book) -> Book:
    """A life with a stranger is missing."""
    at = toward(chance, book, lambda it: True)
    del book.lives[at], book.handed[at]
    return book


@harmless
def somebody_named(chance: Random, book: Book) -> Book:
    """A host that has no life, and that nobody has one with, is named a stranger."""
    return naming_also(book, STRANGER)


# ---- books of worlds


def in_place(change: Change) -> Changed:
    """A change of a book as one that gives a book."""

    def changes(chance: Random, book: Book) -> Book:
        change(chance, book)
        return book

    return changes


EVERY_WAY: dict[str, Changed] = {**{name: in_place(change) for name, change in WAYS.items()}, **TOWARD}
EVERY_HARMLESS: Sequence[Changed] = [*map(in_place, HARMLESS), *UNASKED, *UNASKED]


def changed(change: Changed, chance: Random, book: Book) -> Book | None:
    """A changed copy of a book, None where there is nothing to change."""
    try:
        return change(chance, copied(book))
    except (IndexError, ValueError):
        return None


def broken(chance: Random, book: Book) -> tuple[str, Book]:
    """A book that is broken in one place, and by which way: as a rule in what it says of strangers."""
    ways = [*chance.sample([*TOWARD], len(TOWARD))] if chance.random() < 0.7 else []
    every = chance.sample([*EVERY_WAY], len(EVERY_WAY))
    return first_broken([*ways, *every], lambda name: changed(EVERY_WAY[name], chance, book))


def of_mixed_world(seed: int) -> tuple[str, Book, Topology, MixedScript]:
    """A book of a mixed world: what was done to it, the book, the network with its strangers, and the script."""
    chance = Random(f"mixed book {seed}")
    network, script, world = mixed_script(f"book {seed}")
    named = naming(network, world.strangers)
    book = book_of(named, world)
    if seed % 2:
        way_taken, other = broken(chance, book)
        return way_taken, other, named, script
    same = changed(chance.choice(EVERY_HARMLESS), chance, book) if seed % 4 else None
    return ("as it is", book, named, script) if same is None else ("a change that breaks nothing", same, named, script)


# ---- small books, and lines at other places


def small_mixed(seed: int) -> Book:
    """A small book of hosts of which some are strangers."""
    chance = Random(f"small mixed {seed}")
    hosts = [*{*HOSTS, HostName(2, 1), HostName(1, 9)}]
    strangers = chance.sample(sorted(hosts, key=in_order), chance.choice([1, 1, 1, 2, 3]))
    return small(seed)._replace(strangers=tuple(sorted(strangers, key=in_order)))


def misnamed(seed: int, book: Book) -> bytes:
    """The log of a book with a line more that names a stranger, anywhere, or with two of its lines exchanged."""
    chance = Random(f"misnamed {seed}")
    lines = spelled_log(book).splitlines(keepends=True)
    count = len(book.strangers)
    if count > 1 and chance.random() < 0.5:
        one, other = chance.sample(range(count), 2)
        lines[one], lines[other] = lines[other], lines[one]
    else:
        name = chance.choice([lines[0], f"foreign {chance.randrange(4)}/{chance.randint(1, 63)}\n".encode()])
        lines.insert(chance.choice([chance.randint(0, count), chance.randint(0, len(lines))]), name)
    return b"".join(lines)

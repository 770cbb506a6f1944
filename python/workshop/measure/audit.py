"""How fast a log is read and judged: ./measure audit [--program FILE] [--octets COUNT] [ROUNDS]

./build has to be run before, or FILE is the program. `--audit` is given logs of a tenth of a number of octets (33 million), and of all:

- a log without lives, as a measure for the reading;
- connections of different hosts and links, one after the other, with a message of data each;
- one connection after the other, always on the same two sockets of the same two hosts, so that all lives of a host are alike;
- connections that are all open before the first of them has a message, so the way from a request to its message is long;
- connections whose requests go out first and are taken at the end, so the way back from a stamp to its message is long;
- connections of two hosts on one link, each of which counts all messages that follow;
- connections that continue while CLS cross of sockets that have no connection, as many as there are connections;
- connections of the same sockets, each of which has a message that is full of ALLs;
- connections of two hosts between whose requests these hosts reset each other, as often as there are connections;
- messages that all go out before the first of them is taken, and are all taken before the first of them is answered, without lives.

The others are broken, the first four of them in one place at the end, so all is looked at: an RFNM comes twice, two lives have one
request, what was taken was not sent, more was taken than was granted, and the same two lives come again and again.

Told are the best processor time of the rounds, from the start of the process to its end, the greatest memory, and the verdict. Growth
compares the times: a hundred times as long is a square. It wants GNU time at /usr/bin/time, and is not part of the gate.
"""

from __future__ import annotations

import argparse
import os
import subprocess
import tempfile
from collections.abc import Callable, Iterator
from functools import partial
from itertools import islice

from dorydate.model.book import Life
from dorydate.model.commands import ALL, CLS, RRP, RST, RTS, STR, alone, control_message, header, of_counts, of_sockets
from dorydate.model.crossings import Answered, Crossing, Passed
from dorydate.model.log import Book, spelled_log
from dorydate.model.names import Flow, HostName
from workshop.parts import proved_program
from workshop.words import Words

OCTETS = 33_000_000
DATA = "01000001" * 2
TEXT = header(8, 2) + DATA
LINKS = range(2, 32)
REQUESTS = 12  # of ten octets each, in a control message of 120
GRANTS = 15  # of eight octets each
Make = Callable[[int], Book]  # a book of this many messages or connections
Ends = tuple[HostName, HostName, int]  # a receiver, its sender and the link


def ends() -> Iterator[Ends]:
    """All pairs of two hosts, with each link that one may receive on."""
    names = [HostName(host, imp) for imp in range(1, 64) for host in range(4)]
    return ((one, other, link) for one in names for other in names if one != other for link in LINKS)


def passed(log: list[Crossing], flow: Flow, text: str) -> tuple[int, int]:
    """Adds a message that goes out, is taken and answered. It gives the places where it went out and came in."""
    log += [Passed("out", flow, text), Passed("in", flow, text), Answered("answer", "rfnm", flow)]
    return len(log) - 3, len(log) - 2


def requests(at: Ends) -> list[tuple[Flow, str]]:
    """The requests of a connection: of its receiver, and of its sender."""
    receiver, sender, link = at
    return [
        (Flow(receiver, sender, 0), control_message([of_sockets(RTS, 2 * link, 2 * link + 1, link)])),
        (Flow(sender, receiver, 0), control_message([of_sockets(STR, 2 * link + 1, 2 * link, 8)])),
    ]


def connected(book: Book, at: Ends, asked: tuple[int, int], answered: tuple[int, int]) -> None:
    """Adds both lives of a connection whose two requests went out and came in at these places."""
    receiver, sender, link = at
    book.lives.append(Life(receiver, 2 * link, sender, 2 * link + 1, asked[0], answered[1], DATA, 1, [1, 16]))
    book.lives.append(Life(sender, 2 * link + 1, receiver, 2 * link, answered[0], asked[1], DATA, 1))
    book.handed.extend(["", DATA])


def opened(book: Book, at: Ends) -> None:
    """Adds the requests of a connection, its lives and its ALL."""
    asked, answered = (passed(book.log, *request) for request in requests(at))
    connected(book, at, asked, answered)
    granted(book, at, 1)


def granted(book: Book, at: Ends, count: int) -> None:
    """Adds this many ALLs of a connection in one message, each for a message of data."""
    receiver, sender, link = at
    passed(book.log, Flow(receiver, sender, 0), control_message([of_counts(ALL, link, 1, 16)] * count))


def data(book: Book, at: Ends) -> None:
    """Adds a message of a connection."""
    receiver, sender, link = at
    passed(book.log, Flow(sender, receiver, link), TEXT)


def without_lives(count: int) -> Book:
    book = Book([], [], [])
    for at in islice(ends(), count):
        data(book, at)
    return book


def one_after_another(alike: bool, count: int) -> Book:
    book = Book([], [], [])
    for at in [next(ends())] * count if alike else islice(ends(), count):
        opened(book, at)
        data(book, at)
    return book


def open_at_once(count: int) -> Book:
    book = Book([], [], [])
    for act in (opened, data):
        for at in islice(ends(), count):
            act(book, at)
    return book


def taken_late(count: int) -> Book:
    """A pair of hosts has one connection here, since the next request would wait for the answer to the first."""
    book, flows = Book([], [], []), [at for at in islice(ends(), count * len(LINKS)) if at[2] == LINKS[0]]
    asked = [[request for request in requests(at)] for at in flows if at[0] < at[1]]
    sent = [passed_out(book.log, request) for two in asked for request in two]
    taken = [passed_in(book.log, request) for two in asked for request in two]
    for place, at in enumerate(at for at in flows if at[0] < at[1]):
        connected(book, at, (sent[2 * place], taken[2 * place]), (sent[2 * place + 1], taken[2 * place + 1]))
        granted(book, at, 1)
        data(book, at)
    return book


def one_link(count: int) -> Book:
    """Connections of two hosts on one link, as many as messages without data that each of them counts."""
    book = Book([], [], [])
    receiver, sender, link = next(ends())
    for first in range(0, count, REQUESTS):
        group = range(first, min(count, first + REQUESTS))
        asked = passed(book.log, Flow(receiver, sender, 0), requests_of(group, link))
        answered = passed(book.log, Flow(sender, receiver, 0), answers_of(group))
        for at in group:
            own, foreign = 2 * at, 2 * at + 1
            book.lives.append(Life(receiver, own, sender, foreign, asked[0], answered[1], "", count, [count, 0]))
        book.handed.extend([""] * len(group))
    for _ in range(count):
        passed(book.log, Flow(sender, receiver, link), header(8, 0))
    return book


def beside_commands(count: int) -> Book:
    """Connections of different hosts, and after them CLS between the same hosts that end none of them."""
    book = Book([], [], [])
    for at in islice(ends(), count):
        opened(book, at)
    for receiver, sender, _ in islice(ends(), count):
        passed(book.log, Flow(receiver, sender, 0), control_message([of_sockets(CLS, 2, 3)]))
    for life in book.lives:
        life.bits, life.messages = "", 0
    return book


def beside_grants(count: int) -> Book:
    """Connections of the same sockets, each with a message that is full of ALLs."""
    book = Book([], [], [])
    for at in [next(ends())] * count:
        opened(book, at)
        granted(book, at, GRANTS)
        data(book, at)
    return book


def beside_resets(count: int) -> Book:
    """Connections of two hosts, of which one side's requests cross before many resets, and the other's after these."""
    book = Book([], [], [])
    receiver, sender, link = next(ends())
    there, back = Flow(receiver, sender, 0), Flow(sender, receiver, 0)
    groups = [range(first, min(count, first + REQUESTS)) for first in range(0, count, REQUESTS)]
    asked = [passed(book.log, there, requests_of(group, link)) for group in groups]
    for _ in range(count):
        passed(book.log, back, control_message([alone(RST)]))
        passed(book.log, there, control_message([alone(RRP)]))
    answered = [passed(book.log, back, answers_of(group)) for group in groups]
    for group, one, other in zip(groups, asked, answered):
        book.lives.extend(Life(receiver, 2 * at, sender, 2 * at + 1, one[0], other[1], "", 0) for at in group)
        book.handed.extend([""] * len(group))
    return book


def requests_of(group: range, link: int) -> str:
    """The receiving ends' requests of several connections in one message."""
    return control_message([of_sockets(RTS, 2 * at, 2 * at + 1, link) for at in group])


def answers_of(group: range) -> str:
    """The sending ends' requests of them."""
    return control_message([of_sockets(STR, 2 * at + 1, 2 * at, 8) for at in group])


def passed_out(log: list[Crossing], request: tuple[Flow, str]) -> int:
    log.append(Passed("out", *request))
    return len(log) - 1


def passed_in(log: list[Crossing], request: tuple[Flow, str]) -> int:
    log.append(Passed("in", *request))
    return len(log) - 1


def all_at_once(count: int) -> Book:
    flows = [Flow(other, one, link) for one, other, link in islice(ends(), count)]
    outs, ins = [Passed("out", flow, TEXT) for flow in flows], [Passed("in", flow, TEXT) for flow in flows]
    return Book([*outs, *ins, *(Answered("answer", "rfnm", flow) for flow in flows)], [], [])


def answered_twice(count: int) -> Book:
    book = all_at_once(count)
    book.log.append(book.log[-1])
    return book


def one_request(count: int) -> Book:
    book = one_after_another(True, count)
    book.lives[-2].own, book.lives[-2].partner = book.lives[-4].own, book.lives[-4].partner
    return book


def again_and_again(count: int) -> Book:
    book = one_after_another(True, 1)
    return Book(book.log, book.lives * count, book.handed * count)


def not_sent(count: int) -> Book:
    book = one_after_another(True, count)
    book.lives[-2].bits = DATA[::-1]
    return book


def past_the_grant(count: int) -> Book:
    book = one_after_another(True, count)
    book.lives[-2].granted = [1, 15]
    return book


MEASURED: list[tuple[str, Make]] = [
    ("no lives", without_lives),
    ("connections of different hosts", partial(one_after_another, False)),
    ("connections of the same sockets", partial(one_after_another, True)),
    ("connections that are open at once", open_at_once),
    ("requests that are taken late", taken_late),
    ("connections on one link that count the same messages", one_link),
    ("connections that continue beside many commands", beside_commands),
    ("connections of the same sockets beside many ALLs", beside_grants),
    ("connections of two hosts with resets between their requests", beside_resets),
    ("messages that all go out before one is taken", all_at_once),
    ("the same, and an RFNM comes twice", answered_twice),
    ("two lives with one request", one_request),
    ("bits that were not sent", not_sent),
    ("more than was granted", past_the_grant),
    ("the same two lives again and again", again_and_again),
]


def of_octets(make: Make, octets: int) -> tuple[Book, bytes]:
    """A log of about this many octets."""
    sample = len(spelled_log(make(1_000)))
    book = make(1_000 * octets // sample)
    return book, spelled_log(book)


def judged(program: str, source: str) -> tuple[float, int, str]:
    """The processor time of an audit, the most memory that it held, and its verdict."""
    with open(source, "rb") as log:
        ran = subprocess.run(["/usr/bin/time", "-f", "%U %S %M", program, "--audit"], stdin=log, capture_output=True, text=True)
    user, system, memory = ran.stderr.splitlines()[-1].split()
    return float(user) + float(system), int(memory), ", ".join(ran.stdout.splitlines())


def measure(program: str, folder: str, words: argparse.Namespace, name: str, make: Make) -> None:
    """Tells a log of a tenth of the octets, and one of all."""
    short = 0.0
    for octets in (words.octets // 10, words.octets):
        book, log = of_octets(make, octets)
        source = os.path.join(folder, "log")
        with open(source, "wb") as file:
            file.write(log)
        runs = [judged(program, source) for _ in range(words.rounds)]
        best, memory, verdict = min(runs)
        growth = f"{best / short:.1f}" if short else ""
        row = [name, f"{len(log):,}", f"{len(book.log):,}", f"{len(book.lives):,}", f"{best:.2f} s", growth, f"{memory:,} KiB", verdict]
        print("|", " | ".join(row), "|", flush=True)
        short = best


def main() -> None:
    words = Words(__doc__)
    words.add_argument("--program", default="")
    words.add_argument("--octets", type=int, default=OCTETS)
    words.add_argument("--only", default="")
    words.add_argument("rounds", nargs="?", type=int, default=1)
    asked = words.asked()
    program = asked.program or proved_program()
    print("| Log | Octets | Crossings | Lives | Time | Times | Most memory | Said |\n|---|---|---|---|---|---|---|---|")
    with tempfile.TemporaryDirectory() as folder:
        for name, make in MEASURED:
            if asked.only in name:
                measure(program, folder, asked, name, make)

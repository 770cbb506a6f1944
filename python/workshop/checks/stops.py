"""A stop at every event of a dialogue, after which it continues to its end and the book is safe (minutes).

The dialogue from a terminal to a server, EXAMPLE, is expanded to single events. After each of them, in a run of its own, each IMP,
each host and each end of the line stops and comes up again, and in one more run all of them in turn. Then the dialogue continues
with a new contact, on the same sockets. `./check stops 10` stops after every tenth event only.

workshop.checks.stopping makes the scripts by the independent model, and the program runs them. It has to print what the model prints,
refusals included. In the book the hosts have stopped that should; after the new contact both services are done and the typed line comes
back; and the audit in Python (python/dorydate/model/audit.py) finds the book safe. What was sent and taken is read off the
printed messages, and what was handed over and how lives ended, which isn't printed there, is the model's. So spelled as a log, this book has to be what the program prints
with `--log`, and its own `--audit` has to say `kept`. Of books that are spoiled in one place both audits have to name the part.

It takes the proved program, or where ./build has not made that the one that was built without proofs, which is slow.
"""

from __future__ import annotations

import functools
import multiprocessing
import os
import subprocess
from collections import Counter
from collections.abc import Iterator, Sequence
from concurrent.futures import ProcessPoolExecutor
from dataclasses import replace
from typing import Any

from dorydate.model.audit import Lives, Log, audit, match
from dorydate.model.log import Book, spelled_log
from dorydate.model.verdict import ends_audit
from dorydate.model.topology import network_of
from dorydate.model.bits import Bits, read_bits
from dorydate.model.crossings import Answered, Crossing, Passed, Turned
from dorydate.model.log import ANSWERS
from dorydate.model.runs import End, with_texts
from dorydate.model.script import read_flow
from dorydate.model.names import read_host
from dorydate.model.book import Fate, Life
from dorydate.model.world import World
from workshop.parts import ROOT, any_program
from workshop.checks.stopping import Dialogue, Stop, Stuck
from workshop.words import Words

EXAMPLE = f"{ROOT}/examples/from-a-terminal-to-a-server"
NAMES = {"imp": "an IMP", "host": "a host", "end": "an end of the line"}
ENDS = "done server 0/2 100 101", "done user 0/1 18 19", "line 0/1 HELLO"
HEADER = 40  # bits of a message of data before its data
CORES = os.cpu_count() or 1
BookOfRun = tuple[list[Crossing], list[Life]]


@functools.cache
def program() -> str:
    """The program of these sources."""
    found = any_program()
    if found is None:
        raise SystemExit("check stops: there is no program of these sources")
    return found


@functools.cache
def dialogue() -> tuple[str, Dialogue]:
    """The topology of the example, and its script as single events. They print what the example prints."""
    with open(EXAMPLE, encoding="utf-8") as file, open(EXAMPLE + ".stdout", encoding="utf-8") as stdout:
        (topology, script), owed = file.read().split("\n%\n"), stdout.read().splitlines()
    found = Dialogue(network_of(topology), [it for it in script.splitlines() if it and not it.startswith("#")])
    if [*found.world.printed, *found.world.end_of_book(), "end"] != owed:
        raise SystemExit("check stops: the single events print other lines than the example")
    return topology, found


# ---- the book of a run, from what was printed


def hosts_and_link(words: Sequence[str]) -> list[str]:
    return [*(number for word in words[:2] for number in word.split("/")), *words[2:]]


def crossing_of(line: str) -> Crossing | None:
    """A crossing by its printed line, None where it is another line."""
    kind, *words = line.split(" ")
    match kind:
        case "out" | "in":
            return Passed(kind, read_flow(hosts_and_link(words[:3])), read_bits(*words[3:]))
        case "answer":
            return Answered(kind, ANSWERS[words[0]], read_flow(hosts_and_link(words[1:])))
        case "down" | "up":
            return Turned(kind, read_host(words[0]))
    return None


def carried(lines: Sequence[str]) -> list[Bits]:
    """The bits of each life: each `sent` and `arrived` is after its message, and is about the last opening of its socket."""
    bits: list[Bits] = []
    last: dict[tuple[str, ...], int] = {}
    text = ""
    for line in lines:
        kind, *words = line.split(" ")
        if isinstance(crossing := crossing_of(line), Passed):
            text = crossing.text
        elif kind == "opened":
            last[tuple(words[:2])] = len(bits)
            bits.append("")
        elif kind in ("sent", "arrived"):
            bits[last[tuple(words[:2])]] += text[HEADER : HEADER + int(words[2])]
    return bits


def life_of(line: str, bits: Bits, fate: Fate, handed: Bits) -> Life:
    """A life by its line, which only says whether it is over, and by how far it is."""
    _, host, socket, peer, foreign, own, partner, _, messages, _, *rest = line.split(" ")
    counts = [*map(int, rest[:4])]
    ends = read_host(host), int(socket), read_host(peer), int(foreign), int(own), int(partner)
    return Life(*ends, bits, int(messages), counts[:2], counts[2:], fate, handed)


def book_of(lines: Sequence[str], model: World) -> BookOfRun:
    """The crossings and the lives that were printed."""
    lives = [it for it in lines if it.startswith("life ")]
    fates, handed = [it.fate for it in model.book.lives], [it.handed for it in model.book.lives]
    return [it for it in map(crossing_of, lines) if it is not None], [life_of(*it) for it in zip(lives, carried(lines), fates, handed)]


# ---- what is wrong with it


def difference(stop: Stop, lines: Sequence[str]) -> str | None:
    """Where the program prints something else than the model, None where it does not."""
    owed = [*with_texts(stop.world.printed, stop.world.carrier.log), *stop.world.end_of_book(), "end"]
    if lines == owed:
        return None
    place = next((at for at, pair in enumerate(zip(lines, owed)) if pair[0] != pair[1]), min(len(lines), len(owed)))
    return f"it prints {lines[place : place + 1]} as line {place + 1}, and the model {owed[place : place + 1]}"


def wrong_with(stop: Stop, lines: Sequence[str], log: Log, lives: Lives) -> str | None:
    """What is wrong with a run that prints what the model prints, None where nothing is."""
    turned = [it for it in log if isinstance(it, Turned)]
    if any([it.host for it in turned if it.kind == kind] != stop.stopped for kind in ("down", "up")):
        return "other hosts stop, or come up, than should"
    if [it.spell() for it in lives] != [it for it in lines if it.startswith("life ")]:
        return "its lives are not made of the printed messages"
    if lines[stop.contacted : stop.served].count("ready 0/1 0/2") != 1 or end_of(stop, lines) != wanted(stop):
        return f"the dialogue does not come to its end: {dict(end_of(stop, lines))} for {dict(wanted(stop))}"
    if part := audit(log, lives):
        return f"its book breaks {part}"
    going = [it for it in lives if not it.has_ended]
    if sum(match(log, it, other) for it in going for other in going) != 2:
        return "other connections are open at its end than two"
    return None


def end_of(stop: Stop, lines: Sequence[str]) -> Counter[str]:
    """What services report after the last user has begun, and what is refused."""
    return Counter(it for it in lines[stop.served :] if it.split(" ")[0] in ("done", "failed", "line", "refused"))


def wanted(stop: Stop) -> Counter[str]:
    """What they have to report: a line from each echo service to each terminal."""
    return Counter(dict(zip(ENDS, (1, 1, stop.echoes * stop.terminals))))


def spoiled(log: Log, lives: Lives) -> Iterator[tuple[str, Log, Lives]]:
    """Books that break a part of a safe book, made of one that is safe."""
    at = next(number for number, it in enumerate(lives) if it.receives() and it.bits)

    def changed(**parts: Any) -> Lives:
        return [*lives[:at], replace(lives[at], **parts), *lives[at + 1 :]]

    yield "messages", [*log, next(it for it in reversed(log) if it[0] == "in")], lives
    yield "partners", log, [*lives, lives[at]]
    yield "streams", log, changed(bits=lives[at].bits[:-1] + "10"[int(lives[at].bits[-1])])
    yield "grants", log, changed(granted=[lives[at].granted[0], len(lives[at].bits) - 1])
    yield "malformed", log, changed(own=lives[at].partner)


# ---- all runs


def tried(count: int) -> tuple[Counter[str], list[str]]:
    """What came of stopping everything after an event: counts, and what is wrong with which run."""
    seen, wrong = Counter[str](), list[str]()
    book: BookOfRun | None = None
    _, events = dialogue()
    for things in events.things():
        found: str | None
        try:
            found, book = judged(Stop(events, count, things), seen)
        except Stuck as why:
            found = str(why)
        if found:
            wrong.append(f"after event {count}, {events.lines[count - 1]}, {things}: {found}")
    for part, log, lives in spoiled(*book) if book and not wrong else ():
        seen["spoiled"] += 1
        octets = log_of(log, lives)
        if audit(log, lives) != part or run(octets, "--audit") != (owed := ends_audit(octets)) or part not in owed[1]:
            wrong.append(f"a book that breaks {part} is found to break {audit(log, lives)}; --audit says {run(octets, '--audit')}")
    return seen, wrong


def judged(stop: Stop, seen: Counter[str]) -> tuple[str | None, BookOfRun | None]:
    """What is wrong with a run, None where nothing is; and its book, if the program printed what the model prints."""
    lines = printed(stop)
    if found := difference(stop, lines):
        return found, None
    book = book_of(lines, stop.world)
    seen.update(counted(stop, lines, *book))
    return wrong_with(stop, lines, *book) or wrong_with_log(stop, log_of(*book)), book


def run(octets: bytes, *options: str) -> End:
    """How the program ends: its status, its output and its words."""
    ran = subprocess.run([program(), *options], input=octets, capture_output=True)
    return ran.returncode, ran.stdout.decode(), ran.stderr.decode()


def input_of(stop: Stop) -> bytes:
    return "\n".join([dialogue()[0], "%", *stop.lines, ""]).encode()


def printed(stop: Stop) -> list[str]:
    """The lines that the program prints for a run, with its book."""
    status, output, _ = run(input_of(stop), "--texts", "--book")
    return [*output.splitlines(), *([f"status {status}"] if status else [])]


def log_of(log: Log, lives: Lives) -> bytes:
    return spelled_log(Book([*log], [*lives], [it.handed for it in lives]))


def wrong_with_log(stop: Stop, octets: bytes) -> str | None:
    """What is wrong with the log of a run, None where nothing is."""
    if run(input_of(stop), "--log") != (0, octets.decode(), ""):
        return "its log is not what it printed"
    if (said := run(octets, "--audit")) != (0, "kept\n", ""):
        return f"--audit says {said}"
    return None


def counted(stop: Stop, lines: Sequence[str], log: Log, lives: Lives) -> Counter[str]:
    """What there was in a run."""
    seen = Counter({"runs": 1, "events": len(stop.lines), "crossings": len(log), "lives": len(lives)})
    seen["stop: " + (NAMES[stop.things[0][0]] if len(stop.things) == 1 else "all in turn")] += 1
    seen.update(it[0] for it in log if it[0] in ("down", "up"))
    seen["pauses"] += stop.pauses
    seen["refusals"] += sum(it.startswith("refused ") for it in lines)
    seen.update({f"tried: {it}": count for it, count in stop.refused.items()})
    seen.update({f"cleared: {it}": count for it, count in stop.cleared.items()})
    seen.update({f"end: {it}": count for it, count in end_of(stop, lines).items()})
    return seen


def listed(seen: Counter[str], start: str) -> str:
    return ", ".join(f"{count} {name.removeprefix(start)}" for name, count in sorted(seen.items()) if name.startswith(start))


def tell(seen: Counter[str], events: int, stops: int) -> None:
    print(f"check stops: the dialogue is {events} single events, and everything stops after {'each' if stops == events else stops} of them")
    print(f"check stops: {seen['runs']} runs of {seen['events']} events; what stops: {listed(seen, 'stop: ')}; {seen['down']} times a host goes down, {seen['up']} times up")
    print(f"check stops: {seen['refusals']} refusals until something was cleared: {listed(seen, 'tried: ')}; cleared by {listed(seen, 'cleared: ')}")
    print(f"check stops: the dialogues come to {listed(seen, 'end: ')}; in {seen['pauses']} of them the contact is done only when a host lets a round pass")
    print(f"check stops: {seen['runs']} books audited, by the program and in Python, with {seen['crossings']} crossings and {seen['lives']} lives, and {seen['spoiled']} that are spoiled")


def main() -> int:
    every = Words(__doc__).count("every", 1, "a stop at each event whose number this divides").asked().every
    program()  # both are there before the processes that make the runs are
    _, events = dialogue()
    counts = range(every, len(events.lines) + 1, every)
    seen, wrong = Counter[str](), list[str]()
    with ProcessPoolExecutor(CORES, multiprocessing.get_context("fork")) as processes:
        for found, faults in processes.map(tried, counts, chunksize=4):
            seen += found
            wrong += faults
    tell(seen, len(events.lines), len(counts))
    print(*wrong[:20], sep="\n", end="\n" if wrong else "")
    print(f"check stops: {len(wrong)} wrong" if wrong else "check stops: each dialogue comes to its end, each book is safe, and each spoiled one breaks its part")
    return 1 if wrong else 0

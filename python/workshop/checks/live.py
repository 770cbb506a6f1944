"""Real hosts at a live network, in weather and among hostile ones (a minute and a half): ./check live [--seeds N]

Compiles examples/host.c with the system's `cc`, and lets it speak to `dorydate live` over UDP and TCP: with the echo
service of a host with a program, with another host in C, twenty of them on the map of August 1972, in the weather of 20
seeds (as many as 45 seconds let begin, which is said), and while the session is killed again and again. A hostile host
sends octets of no frame, leaders of no network and commands of no protocol. Of each session the replay is what was
printed, and the audit says `kept`; the independent model prints the same, event by event. The host in C is right in the
dialogues of `dorydate.conformance` that need no user, and faults that are planted in it are found.
"""

from __future__ import annotations

import os
import random
import shutil
import socket
import struct
import subprocess
import tempfile
import time
from collections.abc import Callable, Iterator, Sequence
from concurrent.futures import ThreadPoolExecutor
from functools import partial
from pathlib import Path

from dorydate.coupling import Mute
from dorydate.export.leaders import leader
from dorydate.live.frames import LAST, READY, Frame
from dorydate.live.heard import had, on_the_wire
from dorydate.live.reverse import network_of as network_of_one
from dorydate.model.runs import log_of, opened, with_texts
from dorydate.model.script import EVERYTHING, read_line
from dorydate.model.topology import network_of
from dorydate.network import Host
from dorydate.program import Program
from dorydate.script import Script
from workshop.checks.live_sessions import HERE, LINES, MINE, SRI, TRIANGLE, Process, Room, Running
from workshop.checks.live_sessions import ended, free_ports, outcome, session, with_strangers
from workshop.parts import ROOT, any_program, read_octets, text_of
from workshop.tools import lacking
from workshop.words import Words

HOST = f"{ROOT}/examples/host.c"
MOST_LINES = 450  # of the host in C
AT_ONCE = 4  # sessions
HOSTILE = 1_500  # datagrams of each kind
KILLS = 4
MODELLED = 3_000  # events of a session that the model prints, too
SEEDS = 20
SECONDS = 45.0  # after which no weather begins any more
MOST_MEMORY = 200_000  # kB of a session
# what is written in place of what in the host in C, the dialogue that finds it, and by which words
RULE = "breaks the rule `{}`".format
PLANTED = [
    ("pair->owes = true;", "pair->owes = false;", "reset", "says nothing, and right is `RRP`"),
    ("used = wrong ? count :", "used = wrong ? 1 :", "no such code", "ERP 1"),
    ("if (any) return false;", "if (pair->busy[0]) return false;", "is reset while its socket is out", RULE("idle")),
    ("(!it->count && !pair->busy[it->link])", "!it->count", "serves", RULE("drained")),
    ("} else if (was == READY && !pair->owes) {", "} else if (was == CLOSED) {", "its socket fails", RULE("failed")),
    ("!end->messages || pair->busy[link]", "pair->busy[link]", "serves without an allocation", RULE("within")),
]
LENGTHS = (1, 10, 10, 9, 8, 4, 8, 2, 2, 2, 2, 12, 1, 1)


def compiled(folder: Path, text: str, name: str = "host") -> str:
    """The host in C, compiled."""
    (folder / f"{name}.c").write_text(text)
    warnings = "-Wall", "-Wextra", "-Werror"
    subprocess.run(["cc", "-std=gnu11", *warnings, "-O2", "-o", folder / name, folder / f"{name}.c"], check=True)
    return str(folder / name)


def talks(running: Running, *hosts: Process) -> Iterator[str]:
    """What is wrong with hosts that talk in a session."""
    for it in hosts:
        status, said = outcome(it)
        if status:
            yield f"{running.folder.name}: a host ends with status {status}: {said}"


def plain_talks(room: Room) -> Iterator[str]:
    """Over UDP and over TCP, with a host with a program and with another in C."""
    with session(room, "talks", TRIANGLE, "--server", f"{HERE}:1") as running:
        ports = running.ports
        yield from talks(running, room.talk(MINE, ports[MINE], HERE))
        yield from talks(running, room.talk(MINE, ports[MINE], HERE, ("OVER TCP",), "-t"))
        with ended(room.echo(SRI, ports[SRI])):
            yield from talks(running, room.talk(MINE, ports[MINE], SRI))
    yield from running.faults()
    yield from modelled(room, running)


def in_weather(room: Room, ends: float, seed: int) -> Iterator[str]:
    """In the weather of a seed, if there is time. A dialogue may come to nothing there."""
    if time.monotonic() > ends:
        return
    with session(room, f"weather-{seed}", TRIANGLE, "--wild", str(seed), "--server", f"{HERE}:1") as running:
        with ended(room.echo(SRI, running.ports[SRI])):
            peer = SRI if seed % 2 else HERE
            status, said = outcome(room.talk(MINE, running.ports[MINE], peer, ("ONE", "TWO"), "-l", "10"))
        (running.folder / "outcome").write_text(f"{status} {said}")
    yield from running.faults()
    if seed < 3:
        yield from modelled(room, running)


def reversed_roles(room: Room) -> Iterator[str]:
    """The proved host program is a host of another session's network, and somebody types there."""
    port = free_ports(1)[0]
    with session(room, "near", TRIANGLE, "--server", f"{HERE}:1") as near:
        words = ["--as", str(MINE), "--imp", f"127.0.0.1:{near.ports[MINE]}", "--terminal", f"{port}={MINE},{HERE}:1"]
        with session(room, "far", network_of_one(MINE), *words, given=False) as far:
            with socket.create_connection(("127.0.0.1", port), timeout=30) as typing, typing.makefile("rw") as terminal:
                for line in LINES:
                    terminal.write(f"{line}\n")
                terminal.flush()
                heard = [terminal.readline().strip() for _ in range(2 + len(LINES))]
            if tuple(heard[2:]) != LINES:
                yield f"far: what came back is {heard}"
        yield from far.faults()
    yield from near.faults()


def killed(room: Room) -> Iterator[str]:
    """The session is killed while a host talks, again and again; the host need not notice."""
    chosen = random.Random(7)
    with session(room, "killed", TRIANGLE, "--server", f"{HERE}:1", "--pace", "10") as running:
        talking = room.talk(MINE, running.ports[MINE], HERE, [f"LINE {it}" for it in range(12)], "-p", "8")
        for _ in range(KILLS):
            time.sleep(chosen.uniform(0.2, 0.8))
            before = read_octets(str(running.folder / "printed"))
            running.kill()
            if not read_octets(str(running.folder / "printed")).startswith(before):
                yield "killed: a line that was printed is not in the replay"
        yield from talks(running, talking)
    yield from running.faults()


def on_the_map(room: Room) -> Iterator[str]:
    """Twenty hosts in C on the map of August 1972: every second one serves, and the other types at it."""
    given = Script.of_octets(read_octets(f"{ROOT}/examples/arpanet-of-august-1972")).network
    chosen = sorted(it.number for it in given.imps)[1:21]
    network = with_strangers(given, chosen)
    with session(room, "map", network) as running:
        hosts = [*running.ports]
        serving = [room.echo(it, running.ports[it]) for it in hosts[::2]]
        with ended(*serving):
            began = time.monotonic()
            talking = [room.talk(it, running.ports[it], other) for it, other in zip(hosts[1::2], hosts[::2])]
            yield from talks(running, *talking)
            (running.folder / "outcome").write_text(f"{time.monotonic() - began:.1f}")
    yield from running.faults()


# ---- a hostile host


def no_frame(chosen: random.Random) -> bytes:
    """Octets of no frame, and frames with a wrong part."""
    kind = chosen.randrange(5)
    if kind == 0:
        return chosen.randbytes(chosen.randrange(1_500))
    magic = b"H317" if kind == 1 else b"H316"
    words = chosen.randbytes(2 * chosen.choice([0, 2, 507, 700]))
    count = chosen.randrange(65_536) if kind == 2 else len(words) // 2
    flags = chosen.randrange(65_536) if kind == 3 else chosen.choice([2, 3])
    return struct.pack(">4sIHH", magic, chosen.randrange(1 << 32), count, flags) + words


def no_leader(chosen: random.Random) -> bytes:
    """A message of any words."""
    return chosen.randbytes(2 * chosen.choice([0, 1, 2, 3, 10, 100, 505, 506]))


def no_protocol(chosen: random.Random) -> bytes:
    """Commands and data in any order, with any fields."""
    octets = b""
    while len(octets) < 100 and chosen.random() < 0.8:
        code = chosen.randrange(16)
        fields = [chosen.choice([0, 1, 2, 3, 16, 102, 255]) if chosen.random() < 0.3 else 0 for _ in range(11)]
        octets += bytes([code, *fields[: LENGTHS[code] - 1]]) if code < len(LENGTHS) else bytes([code])
    size, count = (8, len(octets)) if chosen.random() < 0.9 else (chosen.randrange(256), chosen.randrange(65_536))
    text = bytes([0, size, count >> 8, count & 255, 0]) + octets
    address = Host(0, chosen.choice([1, 1, 2, 3, 9]))
    return leader(0, address, chosen.choice([0, 0, 0, 2, 3, 77])) + text + b"\0" * (len(text) % 2)


def hostile(room: Room) -> Iterator[str]:
    """A host sends what no host should: the session continues, and its book is kept."""
    with session(room, "hostile", TRIANGLE, "--server", f"{HERE}:1") as running:
        chosen, sequence = random.Random(11), 0
        with socket.socket(socket.AF_INET, socket.SOCK_DGRAM) as it:
            it.connect(("127.0.0.1", running.ports[SRI]))
            for make in (no_frame, no_leader, no_protocol):
                for count in range(HOSTILE):
                    octets = make(chosen)
                    frame = octets if make is no_frame else Frame(sequence, LAST | READY, octets).octets()
                    sequence += 1
                    it.send(frame)
                    if count % 20 == 0:
                        time.sleep(0.02)
            yield from talks(running, room.talk(MINE, running.ports[MINE], HERE))
        status = text_of(f"/proc/{running.process.pid}/status")
        memory = next((int(line.split()[1]) for line in status.splitlines() if line.startswith("VmRSS")), 0)
        if memory > MOST_MEMORY:
            yield f"hostile: the session has {memory:,} kB"
    yield from running.faults()


# ---- the independent model, and conformance over the wire


def modelled(room: Room, running: Running) -> Iterator[str]:
    """Whether the independent model prints what the session printed, event by event."""
    network = network_of(running.network.toml().rstrip("\n"))
    place = opened(network)
    for line in running.events()[:MODELLED]:
        event = read_line(line, network.raw, EVERYTHING, strangers=True)
        if event:
            place.happen(*event)
    found = [*with_texts(place.printed, log_of(place))]
    printed = (running.folder / "printed").read_text().splitlines()
    if found != printed[: len(found)]:
        at = next(number for number, (a, b) in enumerate(zip(found, printed)) if a != b)
        yield f"{running.folder.name}: the model prints `{found[at]}` for `{printed[at]}`"


def conformance(room: Room) -> Iterator[str]:
    """The host in C is right in each dialogue that needs no user, and each planted fault is found by its dialogue."""
    simulator = Program(room.program)
    chosen = on_the_wire()
    found = {it.name: had([room.host, "-q", "0/2", "PORT", "echo", "1"], it, simulator=simulator) for it in chosen}
    yield from (f"conformance: {name}: {why}" for name, why in found.items() if why)
    for number, (old, new, name, words) in enumerate(PLANTED):
        text = text_of(HOST)
        if text.count(old) != 1:
            yield f"planted: `{old}` is {text.count(old)} times in examples/host.c"
            continue
        host = compiled(room.folder, text.replace(old, new), f"planted-{number}")
        dialogue = next(it for it in chosen if it.name == name)
        try:
            why = str(had([host, "-q", "0/2", "PORT", "echo", "1"], dialogue, simulator=simulator))
        except Mute as fault:
            why = str(fault)
        if words not in why:
            yield f"planted: {name} says of `{new}`: {why}"


def run(parts: Sequence[Callable[[], Iterator[str]]]) -> list[str]:
    """What is wrong in parts of the check, of which some run at the same time."""
    with ThreadPoolExecutor(AT_ONCE) as pool:
        return [why for found in pool.map(lambda part: [*part()], parts) for why in found]


def main() -> int:
    parser = Words(__doc__)
    parser.add_argument("--seeds", type=int, default=SEEDS)
    seeds = parser.parse_args().seeds
    program = os.environ.get("DORYDATE_PROGRAM") or any_program()
    if program is None:
        print("check live: there is no program of these sources: ./build makes it")
        return 1
    if shutil.which("cc") is None:
        lacking("live", "all of it", "a C compiler")
        return 0
    wrong = [] if text_of(HOST).count("\n") <= MOST_LINES else [f"examples/host.c has more than {MOST_LINES} lines"]
    with tempfile.TemporaryDirectory() as folder:
        room = Room(Path(folder), program, compiled(Path(folder), text_of(HOST)))
        several = on_the_map, conformance, killed, hostile, plain_talks, reversed_roles
        parts = [partial(it, room) for it in several]
        ends = time.monotonic() + SECONDS
        wrong += run([*parts, *(partial(in_weather, room, ends, seed) for seed in range(1, seeds + 1))])
        outcomes = [text_of(str(it)) for it in room.folder.glob("weather-*/outcome")]
        done = sum(it.startswith("0 ") for it in outcomes)
        seconds = text_of(f"{folder}/map/outcome")
        print(f"check live: ten dialogues on 28 IMPs in {seconds} s; in weather {done} of {len(outcomes)}")
        if len(outcomes) < seeds:
            print(f"check live: in {SECONDS:g} seconds {len(outcomes)} of {seeds} seeds had time")
        if 2 * done < len(outcomes):
            wrong.append(f"only {done} dialogues were done in the weather of {len(outcomes)} seeds")
    print(*wrong, sep="\n", end="\n" if wrong else "")
    print(f"check live: {len(wrong)} wrong" if wrong else "check live: each session is its replay; its book is kept")
    return 1 if wrong else 0

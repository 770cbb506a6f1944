"""How soon a live network answers, and what an event costs as its script grows: ./measure live [--write]

Two strangers at the ends of a chain of IMPs speak over UDP, by the program that is kept for these sources: one
message after another, from the frame in to the frame out, and to the RFNM. Then one program answers the lines of such
a session again and again, each before the next is said: how long an answer takes after a thousand lines and after
more, and what the program has used by then. Then it runs over first parts of that script, as each round of a program
without --live does: least processor time of five. Then ten dialogues of hosts in C on the map of August 1972. Times by
the clock are those of this machine with what else it has to do, so its load is said. --write keeps what was measured in
docs/measured/live.md. It wants `cc`, and is not part of the gate.
"""

from __future__ import annotations

import datetime
import itertools
import os
import resource
import shutil
import socket
import statistics
import subprocess
import tempfile
import time
from collections.abc import Iterator
from pathlib import Path

from dorydate.export.leaders import leader
from dorydate.live.engine import LIVE
from dorydate.live.frames import LAST, READY, Frame
from dorydate.network import Host, Imp, Line, Network
from workshop.checks.live import HOST, compiled, on_the_map
from workshop.checks.live_sessions import Room, Running, session
from workshop.parts import ROOT, proved_program, text_of
from workshop.words import Words

PAGE = f"{ROOT}/docs/measured/live.md"
CHAINS = (2, 3, 20, 63)  # IMPs
MESSAGES = 60
LENGTHS = (100, 1_000, 5_000, 20_000)  # lines of a script
ANSWERED = (1_000, 10_000, 100_000, 1_000_000)  # lines that were answered before
TIMED = 1_000  # answers that are timed then
TEXT = bytes(60)
HEAD = """# A live network: figures

`./measure live --write` made this page. Times by the clock are upper bounds, by a machine that had much else to do.
"""


class Stranger:
    """A host over UDP."""

    def __init__(self, port: int) -> None:
        self.socket = socket.socket(socket.AF_INET, socket.SOCK_DGRAM)
        self.socket.connect(("127.0.0.1", port))
        self.socket.settimeout(60)
        self.sequence = 0
        self.say(b"")
        for _ in range(3):
            self.hears()

    def say(self, words: bytes) -> None:
        self.socket.send(Frame(self.sequence, READY | (LAST if words else 0), words).octets())
        self.sequence += 1

    def hears(self) -> bytes:
        return Frame.read(self.socket.recv(4096)).words


def chain(imps: int) -> Network:
    """A chain of IMPs with a stranger at each end."""
    made = tuple(Imp(it, 1, foreign=(0,) if it in (1, imps) else ()) for it in range(1, imps + 1))
    return Network(made, tuple(Line(it, it + 1) for it in range(1, imps)))


def spoken(running: Running, imps: int) -> tuple[list[float], list[float]]:
    """Seconds from each frame in to the frame out, and to its RFNM."""
    one, other = (Stranger(running.ports[Host(0, it)]) for it in (1, imps))
    out, back = [], []
    for _ in range(MESSAGES):
        began = time.perf_counter()
        one.say(leader(0, Host(0, imps), 5) + TEXT)
        other.hears()
        out.append(time.perf_counter() - began)
        one.hears()
        back.append(time.perf_counter() - began)
    return out, back


def ms(seconds: float) -> str:
    return f"{1000 * seconds:.1f}"


def latencies(room: Room) -> Iterator[str]:
    yield "| IMPs | in to out, median (95 %) | to the RFNM, median | lines of script |"
    yield "|---|---|---|---|"
    for imps in CHAINS:
        with session(room, f"chain-{imps}", chain(imps)) as running:
            out, back = spoken(running, imps)
        most = statistics.quantiles(out, n=20)[-1]
        lines = len(running.events())
        median, answered = ms(statistics.median(out)), ms(statistics.median(back))
        yield f"| {imps} | {median} ms ({ms(most)}) | {answered} ms | {lines:,} |"


def processor_time(program: str, octets: bytes) -> float:
    """The processor time of a run, in seconds."""
    before = resource.getrusage(resource.RUSAGE_CHILDREN)
    subprocess.run([program, "--texts"], input=octets, stdout=subprocess.DEVNULL, check=True)
    after = resource.getrusage(resource.RUSAGE_CHILDREN)
    return after.ru_utime - before.ru_utime + after.ru_stime - before.ru_stime


def recorded(room: Room) -> tuple[str, list[str], list[str]]:
    """The topology of three IMPs, the first lines of their session, and others that may come again and again."""
    topology, script = (room.folder / "chain-3" / "script").read_text().split("\n%\n")
    lines = [it for it in script.splitlines() if not it.startswith("#")]
    return topology, lines[:8], [it for it in lines[8:] if not it.startswith("host")]


class Open:
    """A program that stays, and how many lines it has answered."""

    def __init__(self, program: str, topology: str, first: list[str], rest: list[str]) -> None:
        pipe = subprocess.PIPE
        self.process = subprocess.Popen([program, LIVE], stdin=pipe, stdout=pipe, text=True, encoding="latin-1")
        self.lines = itertools.chain(first, itertools.cycle(rest))
        self.answered = 0
        self.say(f"{topology}\n%\n")

    def say(self, text: str) -> None:
        assert self.process.stdin is not None
        self.process.stdin.write(text)
        self.process.stdin.flush()

    def ask(self) -> float:
        """Seconds until the next line is answered."""
        assert self.process.stdout is not None
        line = next(self.lines)
        began = time.perf_counter()
        self.say(f"{line}\n")
        while self.process.stdout.readline() != "\n":
            pass
        self.answered += 1
        return time.perf_counter() - began

    def used(self) -> tuple[float, int]:
        """The seconds of the processor that it has used, and the kB of memory that it has had at most."""
        nanoseconds = int(text_of(f"/proc/{self.process.pid}/schedstat").split()[0])
        status = text_of(f"/proc/{self.process.pid}/status").splitlines()
        return nanoseconds / 1e9, next(int(it.split()[1]) for it in status if it.startswith("VmHWM"))


def answers(room: Room) -> Iterator[str]:
    """What an answer costs of a program that stays, after that many lines."""
    it = Open(room.program, *recorded(room))
    rows: list[tuple[str, ...]] = []
    for length in ANSWERED:
        while it.answered < length:
            it.ask()
        seconds, most = it.used()
        median = statistics.median(it.ask() for _ in range(TIMED))
        rows.append((f"{length:,}", f"{1e6 * median:.0f}", f"{1e6 * seconds / length:.1f}", f"{most:,}"))
    it.process.communicate()
    titles = "Lines answered before", "microseconds to an answer, median", "microseconds of the processor a line", "kB"
    yield from (f"| {' | '.join(row)} |" for row in (titles, ["---"] * len(titles), *rows))


def growth(room: Room) -> Iterator[str]:
    """What a run costs by the length of the script, which is that of three IMPs again and again."""
    topology, first, rest = recorded(room)
    yield f"| Lines of script | {' | '.join(f'{it:,}' for it in LENGTHS)} |"
    yield f"|---|{'---|' * len(LENGTHS)}"
    times = []
    for length in LENGTHS:
        chosen = (first + rest * (length // len(rest) + 1))[:length]
        octets = "\n".join([topology, "%", *chosen, ""]).encode()
        times.append(min(processor_time(room.program, octets) for _ in range(5)))
    yield f"| ms of the processor | {' | '.join(ms(it) for it in times)} |"


def main() -> int:
    parser = Words(__doc__)
    parser.add_argument("--write", action="store_true")
    writes = parser.parse_args().write
    program = os.environ.get("DORYDATE_PROGRAM") or proved_program()
    with tempfile.TemporaryDirectory() as folder:
        room = Room(Path(folder), program, compiled(Path(folder), text_of(HOST)) if shutil.which("cc") else "")
        load, cores = os.getloadavg()[0], len(os.sched_getaffinity(0))
        said = [f"Measured on {datetime.date.today()}, on {cores} cores at a load of {load:.0f}.\n"]
        said.append(f"{MESSAGES} messages of {8 * len(TEXT)} bits, one at a time:\n")
        said += latencies(room)
        said += [f"\nA program that stays (`{LIVE}`), each line answered before the next is said:\n", *answers(room)]
        said += [f"\nA run over so long a script, as is each round of a program without `{LIVE}`:\n", *growth(room)]
        if room.host:
            wrong = [*on_the_map(room)]
            seconds = text_of(f"{folder}/map/outcome")
            on_map = "Twenty hosts in C on the map of August 1972"
            said.append(f"\n{on_map}: ten dialogues in {seconds} s, {len(wrong)} not done.")
    print(*said, sep="\n")
    if writes:
        Path(PAGE).write_text("\n".join([HEAD, *said, ""]), encoding="utf-8")
    return 0

"""The program stops as it should when an allocation, a read or a write fails (two minutes; it needs a C compiler).

Runs inputs over and over: once for each allocation, each read and each write, which fails then, and only that one.

- A run with no failure has to print what the input's file .stdout says, whole reads and writes or short ones.
- A run whose allocation fails has to end with status 3 and a prefix of that output.
- A run whose read fails has to end with status 1 and no output, and to read no more.
- A run whose write fails, or takes no octet, has to end with status 3 and a prefix of that output, and to write no more.
- A read or a write that is interrupted makes no difference.

Of the inputs of FIVE every read and write moves one octet, and so each octet is one at which a read and a write fail; then reads
and writes are whole ones, as big as the program asks for. Of the other short examples reads and writes move 16 octets. Of the
examples in LONG, whose output is longer than what the program gathers before it writes, reads and writes move 500 octets, and
then are whole ones; not each of their allocations fails. Of a network of 126 strangers, of its log, its trace and the
audit of that log each allocation fails, and reads and writes move 500 octets.

So no refused allocation may end with status 0.

Then it runs the program on an input that never ends, and on one of a million octets more than an input may have, of which
it may read one more than these; and with an output that takes nothing.

It takes the proved program, or where ./build has not made that the one that was built without proofs. It wants a C compiler for tools/failing.c, which is loaded before the C
library. Without a compiler it says that nothing was tried, and where the variable CI is set it fails.
"""

from __future__ import annotations

import os
import shutil
import subprocess
import tempfile
from collections import Counter
from concurrent.futures import ThreadPoolExecutor
from dataclasses import dataclass
from itertools import count

from dorydate.model.log import ends_log
from dorydate.model.runs import End, expected
from dorydate.model.topology import spelled_input
from dorydate.model.trace_world import ends_world
from dorydate.model.verdict import ends_audit
from dorydate.program import MOST_OCTETS
from workshop.checks.limits import ODD
from workshop.parts import ROOT, any_program
from workshop.tools import lacking, left_out

STOPPED = (3, b"arpasim: stopped\n")
CANNOT_READ = (1, b"arpasim: cannot read\n")
# the first message; the routes of three IMPs; resets that cross, and one that fails; the dialogue from terminal to server; bits
# sent within the allocation and asked back; a log that is judged, and a connection whose log is printed
FIVE = (
    "first-message", "three-imps-in-a-row", "resets-that-cross", "a-reset-that-fails-and-one-that-works",
    "from-a-terminal-to-a-server", "sent-within-the-allocation-and-asked-back", "two-octets", "a-connection",
)  # fmt: skip
LONG = ("a-stream-over-a-line-that-loses-frames",)
LONGEST = 1000  # octets of a short example
STRANGERS = "among-126-strangers"
HAILED = ["out 1/1 0/1 0 48 00080001000C", "calm 1", "take 1/1", "take 1/1"]
CORES = os.cpu_count() or 1
Ended = tuple[tuple[int, bytes], bytes]  # the status and the words of a run, and its output


@dataclass(frozen=True)
class Way:
    """What fails, and how reads and writes are made."""

    kind: str
    at_most: int = 0
    how: str | None = None

    @property
    def variables(self) -> dict[str, str]:
        """What tools/failing.c is asked for."""
        return {**({"AT_MOST": str(self.at_most)} if self.at_most else {}), **({self.how: "1"} if self.how else {})}

    @property
    def name(self) -> str:
        size = {0: "whole", 1: "of one octet"}.get(self.at_most, f"of {self.at_most} octets")
        return self.kind if self.kind == "allocations" else f"{self.kind} {size}{f', {self.how.lower()}' if self.how else ''}"

    def variable(self) -> str:
        return {"allocations": "FAIL_ALLOCATION", "reads": "FAIL_READ", "writes": "FAIL_WRITE"}[self.kind]


def streams(at_most: int) -> list[Way]:
    """The ways in which reads and writes of at most this many octets fail."""
    return [
        Way("reads", at_most), Way("reads", at_most, "INTERRUPTED"),
        Way("writes", at_most), Way("writes", at_most, "NOTHING"), Way("writes", at_most, "INTERRUPTED"),
    ]  # fmt: skip


def ways_of(name: str) -> list[Way]:
    """What fails in turn of an example."""
    if name in FIVE:
        return [Way("allocations"), *streams(1), *streams(0)]
    if name.startswith(STRANGERS):
        return [Way("allocations"), *streams(500)]
    return [*streams(500), *streams(0)] if name in LONG else [Way("allocations"), *streams(16)]


def of_strangers() -> dict[str, tuple[bytes, End]]:
    """A network of 126 strangers, of whom one says RST, and its log, by their options, each with how the model ends."""
    octets, log = spelled_input(ODD, HAILED), ends_log(ODD, HAILED)
    audited = log[1].encode()
    return {
        "": (octets, expected([], ODD, [*HAILED, ""])),
        "--log": (octets, log),
        "--trace": (octets, ends_world(ODD, HAILED)),
        "--audit": (audited, ends_audit(audited)),
    }


def write_strangers(room: str) -> list[str]:
    """Writes these inputs, each with its options and how it has to end beside it, and gives their files."""
    paths = []
    for option, (octets, (status, printed, said)) in of_strangers().items():
        paths.append(path := f"{room}/{STRANGERS}{option}")
        beside = {"args": option, "status": str(status), "stdout": printed, "stderr": said}
        files = {path: octets, **{f"{path}.{ending}": text.encode() for ending, text in beside.items()}}
        for name, content in files.items():
            with open(name, "wb") as file:
                file.write(content)
    return paths


class Trial:
    """The program on one example."""

    def __init__(self, program: str, before: str, room: str, path: str) -> None:
        self.program, self.before, self.room, self.name = program, before, room, os.path.basename(path)
        self.path = path
        self.words = self.beside(".args").decode().split()
        self.wrong: list[str] = []
        self.whole = (int(self.beside(".status") or 0), self.beside(".stderr")), self.beside(".stdout")
        if self.run({}) != self.whole:
            self.wrong.append("without a failure it ends otherwise than it should")

    def beside(self, ending: str) -> bytes:
        """What is in a file beside the input, if it is there."""
        if not os.path.isfile(self.path + ending):
            return b""
        with open(self.path + ending, "rb") as file:
            return file.read()

    def run(self, variables: dict[str, str]) -> Ended:
        """How a run ends: its status and words, and its output."""
        with open(self.path, "rb") as octets:
            ran = subprocess.run([self.program, *self.words], stdin=octets, capture_output=True, env=variables, timeout=120)
        return (ran.returncode, ran.stderr), ran.stdout

    def fail(self, way: Way, number: int) -> bool:
        """Whether there is a call of that number, and what is wrong with how it fails."""
        told = f"{self.room}/{self.name}-{way.variable()}-{number}"
        variables = {"LD_PRELOAD": self.before, "TOLD": told, way.variable(): str(number), **way.variables}
        ended, output = self.run(variables)
        if not os.path.exists(told):
            if (ended, output) != self.whole:
                self.wrong.append(f"{way.name}: nothing failed, and it ended otherwise: {ended}")
            return False
        with open(told, encoding="utf-8") as lines:
            _, *later = lines.read().splitlines()
        os.remove(told)
        if not self.is_right(way, ended, output, later):
            self.wrong.append(f"{way.name}, {number}: {ended}, read or written again: {len(later)}, output: {output!r}")
        return True

    def is_right(self, way: Way, ended: tuple[int, bytes], output: bytes, later: list[str]) -> bool:
        """Whether a run may end so."""
        if way.how == "INTERRUPTED":
            return (ended, output) == self.whole
        if way.kind != "allocations" and later:
            return False
        if way.kind == "reads":
            return ended == CANNOT_READ and output == b""
        return ended == STOPPED and self.whole[1].startswith(output)

    def all_of(self, way: Way, threads: ThreadPoolExecutor) -> int:
        """Has each call of a kind fail, and counts them."""
        for start in count(1, 4 * CORES):
            found = list(threads.map(lambda number: self.fail(way, number), range(start, start + 4 * CORES)))
            if not all(found):
                return start - 1 + found.index(False)
        raise AssertionError("numbers have no end")


def check_streams(program: str) -> int:
    """How many things are wrong with what the program does with endless input and full output."""
    wanted = (1, b"", b"arpasim: input too long\n")
    with open("/dev/zero", "rb") as zeros, tempfile.TemporaryFile() as long, open("/dev/full", "wb") as full:
        endless = subprocess.run([program], stdin=zeros, capture_output=True, timeout=60)
        long.truncate(MOST_OCTETS + 1_000_000)
        limited = subprocess.run([program], stdin=long, capture_output=True, timeout=60)
        was_read = os.lseek(long.fileno(), 0, os.SEEK_CUR)
        with open(f"{ROOT}/examples/first-message", "rb") as octets:
            lost = subprocess.run([program], stdin=octets, stdout=full, stderr=subprocess.PIPE, timeout=60)
    found = [(it.returncode, it.stdout, it.stderr) == wanted for it in (endless, limited)]
    found += [was_read == MOST_OCTETS + 1, (lost.returncode, lost.stderr) == STOPPED]
    print(f"endless input, long input, {was_read} octets of it read, full output: {'all well' if all(found) else found}")
    return found.count(False)


def main() -> int:
    program = any_program()
    if program is None:
        print("check failures: there is no program of these sources")
        return 1
    if program.startswith(f"{ROOT}/released/") or program.endswith(".mjs"):
        why = "no call of the released program can be made to fail, since it loads no library (./build makes one that does)"
        left_out("failures", "all of it", why)
        return 1 if os.environ.get("CI") else 0
    compiler = shutil.which("cc") or shutil.which("clang")
    if not compiler:
        lacking("failures", "all of it", "a C compiler")
        return 1 if os.environ.get("CI") else 0
    wrong, total = 0, Counter[str]()
    paths = [f"{ROOT}/{folder}/{name}" for folder in ("examples", "logs") for name in sorted(os.listdir(f"{ROOT}/{folder}")) if "." not in name]
    paths = [it for it in paths if os.path.basename(it) in FIVE + LONG or os.path.getsize(it) <= LONGEST]
    with tempfile.TemporaryDirectory() as room, ThreadPoolExecutor(CORES) as threads:
        before = f"{room}/failing.so"
        subprocess.run([compiler, "-O1", "-shared", "-fPIC", "-o", before, f"{ROOT}/tools/failing.c", "-ldl"], check=True)
        paths += write_strangers(room)
        for path in paths:
            trial = Trial(program, before, room, path)
            failed = [(trial.all_of(way, threads), way) for way in ways_of(trial.name)]
            for number, way in failed:
                total[way.kind] += number
            print(f"{trial.name}: failed in turn {'; '.join(f'{number} {way.name}' for number, way in failed)}")
            print(*sorted(trial.wrong), sep="\n", end="\n" if trial.wrong else "")
            wrong += len(trial.wrong)
    print(f"check failures: {len(paths)} inputs; failed in turn {', '.join(f'{number} {kind}' for kind, number in total.items())}")
    wrong += check_streams(program)
    return 1 if wrong else 0

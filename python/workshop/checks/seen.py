"""What a long calm has printed is seen while it lasts, and calms that rest end at once (a second).

Two echo services send one octet to and fro for as long as a calm lasts. From its 65th round on the program has to have
written all lines after each round, of a trace too, so that an interrupt loses none of them. Where an IMP has no place
for one message more, it goes again in rounds that change nothing, and what was printed before them has to be written, too. A
calm in a network that rests has to end at once, however many rounds it is given, also where a host has more to say than its
IMP has room for, and while something waits for a stranger; and so its trace and its log.

./check seen [PROGRAM]: without one it takes the proved program, or the one that was built without proofs.
"""

from __future__ import annotations

import json
import os
import select
import socket
import subprocess
import tempfile
from itertools import accumulate, product

from dorydate.model.topology import Topology, spelled_input
from workshop.checks.limits import JOINED, PAIR
from workshop.limited import NotEnded, run_within
from workshop.parts import any_program
from workshop.words import Words

MOST = 4_294_967_295
UNSEEN = 64  # rounds of a calm, before each further one is written at once
WITHIN = 2  # seconds of the processor, for a calm that rests
WAITS = 60.0  # seconds by the clock at most, on a busy machine, until what was printed is seen
CHAIN = Topology("subnet", False, [(imp, 4) for imp in range(1, 14)], [(imp, imp + 1) for imp in range(1, 13)])
CONTACTS = [f"contact 0/1 {host}/{imp}" for imp in range(2, 14) for host in range(4)]
SILENT = Topology("subnet", True, [(1, 1), (2, 1)], [(1, 2)])
MAILED = Topology("plain", False, [(1, 2)], [], [(1, [1])])
PASSED = Topology("subnet", False, [(1, 1), (2, 2)], [(1, 2)], [(2, [1])])
# 63 IMPs in a row, with a stranger at the last
ROW = Topology(
    "subnet", False, [(imp, 1) for imp in range(1, 64)], [(imp, imp + 1) for imp in range(1, 63)], [(63, [0])]
)
# 16 messages can wait for a stranger, so that the last of these goes again and again
TALKING = Topology("subnet", False, [(1, 1), (2, 1)], [(1, 2)], [(1, [0]), (2, [0])])
LASTING = spelled_input(TALKING, ["calm 3", *(f"out 0/2 0/1 {link} 0 -" for link in range(17)), f"calm {MOST}"])
# what comes before a calm that rests though something was refused or lost, or waits for a stranger, and its network
RESTING = {
    "offers that are refused": (CHAIN, ["calm 20", "enddown 2 0", *CONTACTS]),
    "frames that are lost": (SILENT, ["calm 3", "enddown 2 0", "out 0/1 0/2 9 8 41"]),
    "a message in a stranger's box": (MAILED, ["contact 0/1 1/1"]),
    "a message at a stranger's IMP": (PASSED, ["calm 3", "contact 0/1 1/2", "contact 0/1 0/2"]),
    "a message at the last of 63 IMPs": (ROW, ["calm 70", "contact 0/1 0/63"]),
}
WAYS = [(), ("--trace",), ("--log",)]


def dialogue(rounds: int) -> bytes:
    """The input of a dialogue that lasts for this many rounds."""
    return spelled_input(PAIR, [*JOINED, "send 0/1 101 8 5A", f"calm {rounds}"])


def printed(program: str, octets: bytes, *options: str) -> bytes:
    """What the program prints to its end."""
    return subprocess.run([program, *options], input=octets, stdout=subprocess.PIPE, check=True).stdout


def writes_of(program: str, octets: bytes, *options: str) -> list[bytes]:
    """What the program writes, a list of octets for each write."""
    ours, theirs = socket.socketpair(socket.AF_UNIX, socket.SOCK_SEQPACKET)
    with tempfile.TemporaryFile() as source, ours:
        source.write(octets)
        source.seek(0)
        with subprocess.Popen([program, *options], stdin=source, stdout=theirs.fileno()):
            theirs.close()
            return [*iter(lambda: ours.recv(1 << 20), b"")]


def faults_of_dialogue(program: str) -> list[str]:
    """What is wrong with a dialogue: each round after the first UNSEEN has to be written at once."""
    writes = writes_of(program, dialogue(UNSEEN + 100))
    before = printed(program, dialogue(UNSEEN)).removesuffix(b"end\n")
    wrong = []
    if b"".join(writes) != printed(program, dialogue(UNSEEN + 100)):
        wrong.append("the writes are not the output")
    if not b"".join(writes[:-101]).startswith(before[: len(before) // 2]) or len(writes) < 100:
        wrong.append(f"100 rounds of a long calm were written in {len(writes)} writes")
    if any(not it.endswith(b"\n") for it in writes):
        wrong.append("a write ends within a line")
    return wrong


def faults_of_trace(program: str) -> list[str]:
    """What is wrong with the trace of a dialogue: after each round past the first UNSEEN all its lines have to be written."""
    octets = dialogue(UNSEEN + 100)
    writes, whole = writes_of(program, octets, "--trace"), printed(program, octets, "--trace")
    written = {*accumulate(map(len, writes))}
    ends: dict[int, int] = {}
    at = 0
    for line in whole.splitlines(keepends=True):
        at += len(line)
        ends[json.loads(line).get("round", 0)] = at
    late = [end for number, end in ends.items() if number > UNSEEN]
    wrong = []
    if b"".join(writes) != whole:
        wrong.append("the writes are not the trace")
    if len(late) != 100 or not written.issuperset(late):
        wrong.append(
            f"of {len(late)} late rounds of a trace {len(written.intersection(late))} were written when they had passed"
        )
    return wrong


def written_by(descriptor: int) -> bytes:
    """What is written there, till nothing more comes."""
    octets, seconds = b"", WAITS
    while select.select([descriptor], [], [], seconds)[0] and (more := os.read(descriptor, 1 << 16)):
        octets, seconds = octets + more, 1.0
    return octets


def faults_of_waiting(program: str, *options: str) -> list[str]:
    """What is wrong with a calm that lasts though nothing changes: what comes before it has to be written."""
    with tempfile.TemporaryFile() as source:
        source.write(LASTING)
        source.seek(0)
        with subprocess.Popen([program, *options], stdin=source, stdout=subprocess.PIPE) as process:
            assert process.stdout
            first = written_by(process.stdout.fileno())
            ended = process.poll() is not None
            process.kill()
    good = first.endswith(b"\n") and not ended
    words = " ".join(("nothing is written before a calm that lasts though nothing changes", *options))
    return [] if good else [words]


def faults_of_resting(program: str) -> list[str]:
    """Which calms take as long as they have rounds, or print something else than short ones."""
    wrong = []
    for (name, (network, lines)), options in product(RESTING.items(), WAYS):
        named = " ".join((name, *options))
        short = printed(program, spelled_input(network, [*lines, "calm 1000"]), *options)
        try:
            ran = run_within([program, *options], spelled_input(network, [*lines, f"calm {MOST}"]), WITHIN)
        except NotEnded as why:
            wrong.append(f"{named}: {why}")
            continue
        if (ran.returncode, ran.stdout) != (0, short):
            wrong.append(f"{named}: {len(ran.stdout)} octets, and a short calm prints {len(short)}")
    return wrong


def main() -> int:
    words = Words(__doc__).one("program", None, "the program; else that of the present sources")
    program = words.asked().program or any_program()
    if program is None:
        print("check seen: there is no program of these sources")
        return 1
    wrong = faults_of_dialogue(program) + faults_of_trace(program) + faults_of_resting(program)
    wrong += faults_of_waiting(program) + faults_of_waiting(program, "--trace")
    for it in wrong:
        print(f"check seen: {it}")
    calms = f"a dialogue without end, its trace, a calm that changes nothing, and {len(RESTING)} that rest"
    print(f"check seen: {calms}: {len(wrong)} faults")
    return 1 if wrong else 0

"""How fast host programs run over both carriers: ./measure worlds [--program FILE] [--beside FILE] [--only WORDS] [ROUNDS]

./build has to be run before, or FILE is the program. With --beside, the program of an earlier state is run in turn with it, so
that a busy machine slows both; both have to print the same. With --only, the kinds whose names have these words are measured.
Two hosts talk over plain mailboxes, and over a chain of four IMPs:

- a stream: messages of 8,000 bits, each let go by a grant of its own. 1,000,000 bits are 125 messages. In a script eight bits
  take two digits, and a measured input has at most 1,048,576 octets, so ten times as many don't fit: beside 1,000,000 bits, 400,000
  are compared with 4,000,000;
- 40 connections at once, 20 each way, since one host has 30 links to receive on from another: on each goes a message of 80
  bits after its grant, again and again;
- connections that open and close, one after the other;
- the same beside a connection that stays open from before the first of them to the end;
- lines that are typed at a terminal, each of which comes back from the other host's echo service before the next one;
- initial connections, one after the other, each closed before the next one;
- lines that are typed in bulk: no calm passes between them;
- ECOs, one after the other, each of which is answered before the next one;
- contacts, one after the other: each has both hosts go through a reset again;
- restarts: a host is stopped and comes up, one contacts it, and a connection opens.

Over plain mailboxes only:

- ECOs that all wait to go out before the first of them does;
- sockets that listen, and servers that wait, with nobody to ask them;
- connections that are all open at once at one host of 64, at most 30 with each other host, and then close;
- connections that are open at once over pairs of 64 hosts, ten with each, and initial connections over such pairs, all at once;
- bits that are handed over to be sent and wait, since nobody grants anything, and bits for sockets that have no connection;
- connections that one host asks another for, all at once, before a request goes out;
- quiet rounds of 64 hosts that have nothing to say.

Each is run at one size and at ten times that size. For each the median and the best processor time of the rounds are printed,
from the start of the process to its end, and the greatest memory; growth compares the best. At most twelve times as long
is wanted for ten times the work. With --beside the best of both programs are printed, and the greatest memory of both. What a run prints is counted: every message has to arrive, and every connection to open and
to end. It wants GNU time at /usr/bin/time, and is not part of the gate.
"""

from __future__ import annotations

import argparse
import random
import statistics
import sys
import tempfile
from collections.abc import Callable, Sequence

from dorydate.model.topology import Topology, spelled_input
from workshop.measure import best_of_all, most_memory, processor_time, words_with, written
from workshop.parts import proved_program

CHANCE = random.Random(1822)
CONNECTIONS = 40
Script = tuple[list[str], dict[str, int]]  # its lines, and how many lines of some kinds it has to print
Make = Callable[[str, int, int], Script]
Carrier = tuple[str, str, int]


def head(carrier: str, hosts: Sequence[int], lines: Sequence[tuple[int, int]] = ()) -> str:
    """A topology with this many hosts at each of its IMPs, and these lines, up to its script."""
    return spelled_input(Topology(carrier, False, [*enumerate(hosts, 1)], [*lines]), []).decode()


# For each carrier: its topology, its second host, and the rounds of a calm in which one message or one request passes.
CARRIERS: dict[str, Carrier] = {
    "plain mailboxes": (head("plain", [1, 1]), "0/2", 1),
    "a chain of 4 IMPs": (head("subnet", [1, 0, 0, 1], [(imp, imp + 1) for imp in range(1, 4)]), "0/4", 4),
    "plain mailboxes of 64 hosts": (head("plain", [4] * 16), "0/2", 1),
    "a ring of 16 IMPs with 4 hosts": (
        head("subnet", [4] * 16, [(imp, imp % 16 + 1) for imp in range(1, 17)]),
        "0/2",
        9,
    ),
}
BETWEEN_TWO = ["plain mailboxes", "a chain of 4 IMPs"]
OF_64 = ["plain mailboxes of 64 hosts", "a ring of 16 IMPs with 4 hosts"]


def octets(bits: int) -> str:
    """This many random bits, spelled as a script spells them."""
    return f"{bits} {CHANCE.randbytes(bits // 8).hex().upper()}"


def ready(other: str, rounds: int) -> list[str]:
    """The IMPs know their routes, and both hosts are through a reset."""
    return [f"calm {4 * rounds}", f"contact 0/1 {other}", f"calm {4 * rounds}"]


def opened(sender: str, receiver: str, rounds: int, at: int = 0) -> list[str]:
    """A connection opens from the sender's socket to the receiver's."""
    return [f"listen {sender} {133 + 2 * at} 8", f"openrecv {receiver} {sender} {132 + 2 * at} {133 + 2 * at}", f"calm {2 * rounds}"]


def stream(other: str, rounds: int, bits: int) -> Script:
    lines = ready(other, rounds) + opened(other, "0/1", rounds)
    for _ in range(bits // 8_000):
        lines += ["grant 0/1 132 1 8000", f"send {other} 133 {octets(8_000)}", f"calm {2 * rounds}"]
    return lines, {"arrived": bits // 8_000, "opened": 2, "ended": 0}


def at_once(other: str, rounds: int, messages: int) -> Script:
    lines = ready(other, rounds)
    ends = [((other, "0/1") if at % 2 else ("0/1", other)) for at in range(CONNECTIONS)]
    for at, (sender, receiver) in enumerate(ends):
        lines += opened(sender, receiver, rounds, at)
    for _ in range(messages // CONNECTIONS):
        for at, (sender, receiver) in enumerate(ends):
            lines += [f"grant {receiver} {132 + 2 * at} 1 80", f"send {sender} {133 + 2 * at} {octets(80)}"]
        lines += [f"calm {4 * rounds}"]
    return lines, {"arrived": messages, "opened": 2 * CONNECTIONS, "ended": 0}


def closings(other: str, rounds: int, count: int) -> Script:
    lines = ready(other, rounds)
    for _ in range(count):
        lines += opened(other, "0/1", rounds) + ["close 0/1 132", f"calm {2 * rounds}"]
    return lines, {"opened": 2 * count, "ended": 2 * count}


def beside_one(other: str, rounds: int, count: int) -> Script:
    lines, printed = closings(other, rounds, count)
    first = len(ready(other, rounds))
    return lines[:first] + opened(other, "0/1", rounds, 1) + lines[first:], {**printed, "opened": 2 * count + 2}


def asked(other: str, rounds: int, at: int = 0) -> list[str]:
    """An initial connection: the other host serves, and a user of 0/1 asks it. Each has sockets of its own."""
    return [f"server {other} {10 * at + 7} {10 * at + 100}", f"user 0/1 {other} {10 * at + 7} {10 * at + 16}", f"calm {10 * rounds}"]


def typed(other: str, rounds: int, count: int) -> Script:
    lines = ready(other, rounds) + asked(other, rounds)
    for _ in range(count):
        lines += ["type 0/1 A", f"calm {6 * rounds}"]
    return lines, {"line": count, "done": 2}


def initial(other: str, rounds: int, count: int) -> Script:
    lines = ready(other, rounds)
    for at in range(count):
        lines += asked(other, rounds, at) + [f"close 0/1 {10 * at + 18}", f"calm {6 * rounds}"]
    return lines, {"done": 2 * count, "opened": 6 * count, "ended": 6 * count}


def in_bulk(other: str, rounds: int, count: int) -> Script:
    lines = ready(other, rounds) + asked(other, rounds) + ["type 0/1 A"] * count
    return [*lines, f"calm {6 * rounds + count}"], {"line": count, "done": 2}


def echoes(other: str, rounds: int, count: int) -> Script:
    return ready(other, rounds) + [f"echo 0/1 {other} 7", f"calm {2 * rounds}"] * count, {"echoed": count}


def contacts(other: str, rounds: int, count: int) -> Script:
    return ready(other, rounds) + [f"contact 0/1 {other}", f"calm {4 * rounds}"] * count, {"ready": count + 2}


def restarts(other: str, rounds: int, count: int) -> Script:
    lines = ready(other, rounds)
    for _ in range(count):
        lines += [f"hostdown {other}", f"hostup {other}", f"contact 0/1 {other}", f"calm {4 * rounds}"]
        lines += opened(other, "0/1", rounds)
    return lines, {"opened": 2 * count}


def queued(other: str, rounds: int, count: int) -> Script:
    lines = ready(other, rounds) + [f"echo 0/1 {other} 7"] * count
    return [*lines, f"calm {count}"], {"echoed": count}


def listening(_: str, __: int, count: int) -> Script:
    return [f"listen 0/1 {100_000 + at} 8" for at in range(count)], {"opened": 0}


def waiting(_: str, __: int, count: int) -> Script:
    return [f"server 0/1 {2 * at + 1} {200_000 + 2 * at}" for at in range(count)], {"done": 0, "failed": 0}


def at_one_host(_: str, __: int, count: int) -> Script:
    others = [f"{host}/{imp}" for imp in range(1, 17) for host in range(4)][1 : 1 + -(-count // 30)]
    passing = f"calm {20 + count // 30}"
    lines = [f"contact 0/1 {other}" for other in others] + [passing]
    sockets = range(100, 100 + 2 * count, 2)
    for at, socket in enumerate(sockets):
        other = others[at // 30]
        lines += [f"listen {other} {socket + 1} 8", f"openrecv 0/1 {other} {socket} {socket + 1}"]
    lines += [passing, *(f"close 0/1 {socket}" for socket in sockets), passing]
    return lines, {"opened": 2 * count, "ended": 2 * count}


def pairs_of(count: int) -> list[tuple[str, str]]:
    """This many pairs of the 64 hosts, as far apart as they go: each host has to do with a few others."""
    hosts = [f"{host}/{imp}" for imp in range(1, 17) for host in range(4)]
    return [(hosts[at % 64], hosts[(at + 1 + at // 64) % 64]) for at in range(count)]


def over_pairs(_: str, rounds: int, count: int) -> Script:
    pairs = pairs_of(-(-count // 10))
    lines = [f"calm {4 * rounds}", *(f"contact {one} {other}" for one, other in pairs), f"calm {6 * rounds}"]
    for at in range(count):
        one, other = pairs[at // 10]
        lines += [f"listen {other} {2 * at + 101} 8", f"openrecv {one} {other} {2 * at + 100} {2 * at + 101}"]
    lines += [f"calm {30 * rounds}"]
    for at in range(count):
        lines += [f"close {pairs[at // 10][0]} {2 * at + 100}"]
    lines += [f"calm {30 * rounds}"]
    return lines, {"opened": 2 * count, "ended": 2 * count}


def initial_over_pairs(_: str, rounds: int, count: int) -> Script:
    pairs = pairs_of(min(count, 200))
    lines = [f"calm {4 * rounds}", *(f"contact {one} {other}" for one, other in pairs), f"calm {6 * rounds}"]
    for at in range(count):
        one, other = pairs[at % len(pairs)]
        lines += [f"server {other} {10 * at + 7} {10 * at + 100}", f"user {one} {other} {10 * at + 7} {10 * at + 16}"]
    lines += [f"calm {60 * rounds}"]
    return lines, {"done": 2 * count}


def waiting_bits(other: str, rounds: int, count: int) -> Script:
    lines = ready(other, rounds) + opened("0/1", other, rounds)
    return [*lines, *(["send 0/1 133 8 2A"] * count), f"calm {rounds}"], {"opened": 2, "sent": 0}


def to_nobody(_: str, __: int, count: int) -> Script:
    return ["send 0/1 133 8 2A"] * count, {"refused": count}


def unanswered(other: str, rounds: int, count: int) -> Script:
    opens = [f"opensend 0/1 {other} {100_001 + 2 * at} 200000 8" for at in range(count)]
    return ready(other, rounds) + opens, {"opened": 0}


def refused(other: str, rounds: int, count: int) -> Script:
    asked, _ = unanswered(other, rounds, count)
    return [*asked, f"calm {rounds * count}"], {"opened": 0, "ended": count}


def quiet(_: str, __: int, count: int) -> Script:
    return [f"calm {count}"], {"opened": 0}


# What is measured, over which carriers, and at which sizes.
MEASURED: list[tuple[str, Make, list[str], list[tuple[int, ...]]]] = [
    ("a stream of this many bits", stream, BETWEEN_TWO, [(1_000_000,), (400_000, 4_000_000)]),
    ("messages on 40 connections", at_once, BETWEEN_TWO, [(1_200, 12_000)]),
    ("openings and closings", closings, BETWEEN_TWO, [(1_000, 10_000)]),
    ("the same beside an open connection", beside_one, BETWEEN_TWO, [(1_000, 10_000)]),
    ("lines typed", typed, BETWEEN_TWO, [(2_000, 20_000)]),
    ("initial connections", initial, BETWEEN_TWO, [(100, 1_000)]),
    ("lines typed in bulk", in_bulk, BETWEEN_TWO, [(400, 4_000)]),
    ("ECOs one after the other", echoes, BETWEEN_TWO, [(2_000, 20_000)]),
    ("contacts one after the other", contacts, BETWEEN_TWO, [(2_000, 20_000)]),
    ("restarts", restarts, BETWEEN_TWO, [(600, 6_000)]),
    ("ECOs that wait", queued, BETWEEN_TWO[:1], [(6_000, 60_000)]),
    ("sockets that listen", listening, BETWEEN_TWO[:1], [(3_000, 30_000)]),
    ("servers that wait", waiting, BETWEEN_TWO[:1], [(3_000, 30_000)]),
    ("bits that wait to be sent", waiting_bits, BETWEEN_TWO[:1], [(2_400, 24_000)]),
    ("bits for sockets without a connection", to_nobody, BETWEEN_TWO[:1], [(2_400, 24_000)]),
    ("connections that are asked for", unanswered, BETWEEN_TWO[:1], [(2_400, 24_000)]),
    ("connections that are refused", refused, BETWEEN_TWO[:1], [(2_400, 24_000)]),
    ("connections open at one host", at_one_host, ["plain mailboxes of 64 hosts"], [(180, 1_800)]),
    ("connections open over pairs of hosts", over_pairs, OF_64, [(200, 2_000)]),
    ("initial connections over pairs of hosts", initial_over_pairs, OF_64, [(60, 600)]),
    ("quiet rounds", quiet, OF_64, [(400, 4_000)]),
]


def memory_of(program: str, source: str, wanted: dict[str, int]) -> tuple[int, bytes]:
    """The most memory that a run held, in KiB, and what it printed, which has to have this many lines of each of these kinds."""
    memory, output = most_memory(program, source)
    kinds = [line.partition(b" ")[0].decode() for line in output.splitlines()]
    wanted = {"refused": 0, "error": 0, **wanted}
    found = {kind: kinds.count(kind) for kind in wanted}
    if found != wanted:
        sys.exit(f"measure worlds: {source}: printed were {found}, not {wanted}")
    return memory, output


def alone(program: str, source: str, rounds: int, wanted: dict[str, int]) -> tuple[str, float]:
    """What is printed of one program, and its best time in seconds."""
    memory, _ = memory_of(program, source, wanted)
    runs = [processor_time([program], source) for _ in range(rounds)]
    return f"{1000 * statistics.median(runs):.1f} ms | {1000 * min(runs):.1f} ms | {memory:,} KiB", min(runs)


def beside(programs: Sequence[str], source: str, rounds: int, wanted: dict[str, int]) -> tuple[str, float]:
    """What is printed of an earlier program and of the later one, and the best time of the later one in seconds."""
    (former, lines), (latter, others) = [memory_of(program, source, wanted) for program in programs]
    if lines != others:
        sys.exit(f"measure worlds: {source}: the two programs print something else")
    before, after = best_of_all(programs, source, rounds)
    return f"{1000 * before:.1f} ms | {1000 * after:.1f} ms | {before / after:.2f} | {former:,} KiB | {latter:,} KiB", after


def measure(words: argparse.Namespace, folder: str, name: str, make: Make, carrier: str, sizes: Sequence[int]) -> None:
    """Tells one size and ten times that size."""
    short = 0.0
    for size in sizes:
        head, sender, passing = CARRIERS[carrier]
        lines, printed = make(sender, passing, size)
        source = written(folder, f"{make.__name__}-{sender[2]}-{size}", head + "\n".join(lines) + "\n")
        if words.beside:
            told, best = beside([words.beside, words.program], source, words.rounds, printed)
        else:
            told, best = alone(words.program, source, words.rounds, printed)
        growth = f"{best / short:.1f} times" if short else "-"
        print(f"| {name} | {carrier} | {size:,} | {told} | {growth} |", flush=True)
        short = best


def words_of() -> argparse.Namespace:
    words = words_with(__doc__, "program", "beside", "only")
    return words.count("rounds", 11, "how often each is run").asked()


def main() -> None:
    words = words_of()
    words.program = words.program or proved_program()
    with tempfile.TemporaryDirectory() as folder:
        if words.beside:
            print("| Measured | Carrier | Count | Before | After | Times | Memory before | after | Ten times the count |\n|---|---|---|---|---|---|---|---|---|")
        else:
            print("| Measured | Carrier | Count | Median | Best | Most memory | Ten times the count |\n|---|---|---|---|---|---|---|")
        for name, make, carriers, pairs in MEASURED:
            for carrier in carriers if words.only in name else []:
                for sizes in pairs:
                    measure(words, folder, name, make, carrier, sizes)

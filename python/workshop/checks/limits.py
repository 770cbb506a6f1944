"""Inputs past every limit that a library might have, against the independent models: ./check limits [--models | --write | --planted] [NAME..]

Whatever grows can be refused for want of memory, and no contract can say whether memory really ran out. So a limit that
somebody put into the code and reported as running out of memory would pass each proof. Here is one input for each thing
that grows, as large as an input can ask for or past every limit that one might think of. How the program ends on it has
to be what an independent model in Python says of it: of a script
python/dorydate/model/script.py, of a log python/dorydate/model/log.py, of a trace python/dorydate/model/trace.py.

The models take twenty minutes, so what they say is kept in limits.json: the status, what standard error has, and the number and the digest of
the octets of the output. With `--models` they are asked anew, and have to say what is kept; `--write` keeps it.

With `--planted` the limits of planted_limits.py are planted, one at a time, in a program without proofs that is built
with all of them, in some ten minutes; each has to be noticed by the input that it names. No input is past a number that
only 2^32 rounds lead to, as 2^32 crossings.
"""

import hashlib
import json
import os
import subprocess
from collections.abc import Callable, Iterable, Iterator, Mapping
from concurrent.futures import ProcessPoolExecutor, ThreadPoolExecutor
from functools import partial
from typing import NamedTuple

from dorydate.model.log import ends_log
from dorydate.model.runs import expected
from dorydate.model.topology import Topology, spelled_input
from dorydate.model.trace import ends_trace
from dorydate.model.trace_world import ends_world
from dorydate.model.verdict import ends_audit
from workshop.checks.planted_limits import LIMITS as PLANTED
from workshop.checks.planted_limits import missed
from workshop.parts import any_program
from workshop.words import Words

KEPT = os.path.join(os.path.dirname(__file__), "limits.json")


class End(NamedTuple):
    """How a program ends: its status, how many octets it prints, their digest, and what it says on standard error."""

    status: int
    octets: int
    digest: str
    said: str


def end_of(status: int, printed: str, said: str) -> End:
    """This end, of a program that printed this, an octet for each character."""
    octets = printed.encode("latin-1")
    return End(status, len(octets), hashlib.sha256(octets).hexdigest(), said)


PAIR = Topology("plain", False, [(1, 1), (2, 1)], [])
MANY = Topology("plain", False, [(imp, 4) for imp in range(1, 64)], [])
HOSTS = [f"{host}/{imp}" for imp in range(1, 64) for host in range(4)]
# half of all hosts are strangers, and one of two
ODD = MANY._replace(foreign=[(imp, [1, 3]) for imp in range(1, 64)])
STRANGE = Topology("plain", False, [(1, 2), (2, 2)], [], [(1, [1]), (2, [1])])
# a host with a program, 0/2, beside another one and a stranger
AMONG = Topology("plain", False, [(1, 1), (2, 1), (3, 1)], [], [(3, [0])])
CONNECTED = ["contact 0/1 0/2", "calm 3", "openrecv 0/1 0/2 16 33", "opensend 0/2 0/1 33 16 8", "calm 3"]
SHORT = ["contact 0/1 0/2", "calm 3", "server 0/1 7 100", "openrecv 0/1 0/2 2 1", "opensend 0/2 0/1 1 2 8", "calm 3"]
SHORT += ["grant 0/1 2 65000 1000000"]
SERVED = ["contact 0/1 0/2", "calm 3", "server 0/1 7 100", "user 0/2 0/1 7 16", "calm 40"]
# two echo services, each connected with the other: both servers have met a user, of which the other has the sockets
JOINED = ["contact 0/1 0/2", "calm 3", "server 0/1 7 100", "server 0/2 9 200", "openrecv 0/2 0/1 198 7"]
JOINED += ["openrecv 0/1 0/2 98 9", "calm 3", "grant 0/2 198 1 32", "grant 0/1 98 1 32", "calm 9"]
JOINED += ["close 0/2 200", "close 0/2 201", "openrecv 0/2 0/1 200 101", "opensend 0/2 0/1 201 100 8", "calm 5"]
# what a stranger says: a reset, and what is no command
RST, NO_COMMAND = "out 0/3 0/2 0 48 00080001000C", "out 0/3 0/2 0 48 0008000100FF"
# a reset and a connection of 0/1 and 0/2, event by event, over which 16 bits go
GREETED = ["contact 0/1 0/2", *(ANSWERED := ["offer 0/1", "take 0/2", "offer 0/2", "take 0/1", "take 0/1", "take 0/2"])]
BESIDE = [*GREETED, "listen 0/2 33 8", "openrecv 0/1 0/2 16 33", *ANSWERED, "grant 0/1 16 1 16", *ANSWERED[:2]]
BESIDE += ["send 0/2 33 16 4142", *ANSWERED[2:]]
# IMPs in a row. Message 0 goes from 0/1 to 0/3 and is answered, and then IMP 2 is cut off from 0/3
ROW = Topology("subnet", True, [(imp, 1) for imp in (1, 2, 3)], [(1, 2), (2, 3)])
FAR, NEAR = "out 0/1 0/3 5 0 -", "out 0/1 0/2 5 0 -"
CUT_OFF = ["calm 2", FAR, "calm 1", "take 0/3", "calm 4", "take 0/1", "enddown 1 0", "enddown 2 0", "endup 1 0"]
CUT_OFF += ["endup 2 0", "route 2", "deliver 0 - 0", "drop 0 - 0", "enddown 2 1"]
# the next one, which IMP 2 drops since no route leads on, and which its source gives up
DROPPED = [FAR, "deliver 0 + 0", "drop 0 + 0", "deliver 0 - 0", "drop 0 - 0", "giveup 0/1 0/3 5", "take 0/1"]
# two IMPs. Message 0 is answered and its frame stays on the line; beside it the next one goes, is taken and answered
LINE = Topology("subnet", True, [(1, 1), (2, 1)], [(1, 2)])
BACK, LEAVES = ["deliver 0 - 0", "drop 0 - 0"] * 2, ["take 0/1", "deliver 0 + 1", "drop 0 + 1"]
STAYS = ["calm 2", NEAR, "deliver 0 + 0", "take 0/2", *BACK, *LEAVES]
COMES = ["deliver 0 + 1", "drop 0 + 1", "take 0/2", *BACK]


FLOWS = [f"out 0/1 {host}/{imp} {link} 0 -" for link in range(41) for imp in range(2, 64) for host in range(4)]


class Limit(NamedTuple):
    """An input past a limit: the options, the network and the lines of its script."""

    options: list[str]
    network: Topology
    lines: list[str]


def ring(count: int) -> list[tuple[int, int]]:
    """As many lines as this many IMPs can have: each is joined to the two before it and the two after it."""
    return [(at + 1, (at + step) % count + 1) for step in (1, 2) for at in range(count)]


LIMITS: dict[str, Limit] = {
    "messages of a life": Limit(
        ["--book"], PAIR, [*CONNECTED, "grant 0/1 16 1200 9600", *["send 0/2 33 8 5A", "calm 2"] * 1100]
    ),
    "bits of a life": Limit(
        ["--book"], PAIR, [*CONNECTED, "grant 0/1 16 200 2000000", f"send 0/2 33 1048584 {'5A' * 131073}", "calm 300"]
    ),
    "bits that wait": Limit(["--book"], PAIR, [*CONNECTED, f"send 0/2 33 2000000 {'5A' * 250000}", "calm 4"]),
    "crossings, notices and changes of lives": Limit([], PAIR, [*SHORT, *["send 0/2 1 8 5A", "calm 1"] * 34_000]),
    # in each round one life takes, another sends, and both are granted as much again: a million changes
    "notices that services hear, and changes of lives": Limit([], PAIR, [*JOINED, "send 0/1 101 8 5A", "calm 260000"]),
    # an event for each seven octets of an input, which has more octets than one of 20 bits can count
    "events of a script": Limit([], PAIR, ["calm 0"] * 600_000),
    "peers": Limit([], MANY, [*[f"contact 0/1 {host}/{imp}" for imp in range(2, 64) for host in range(4)], "calm 6"]),
    "requests in a row": Limit(
        [], MANY, [*[f"contact {host}/{imp} 0/1" for imp in range(2, 64) for host in range(4)], "calm 12"]
    ),
    "ends": Limit(
        ["--book"],
        PAIR,
        [
            *["contact 0/1 0/2", "calm 3"],
            *[f"openrecv 0/1 0/2 {2 * at} {2 * at + 1}" for at in range(1, 250)],
            "calm 20",
            *[f"opensend 0/1 0/2 {2 * at + 1} {2 * at} 8" for at in range(1, 5000)],
            "calm 1000",
        ],
    ),
    "listeners": Limit(
        [],
        PAIR,
        [
            *["contact 0/1 0/2", "calm 3"],
            *[f"listen 0/2 {at} 8" for at in range(1, 3000)],
            *["openrecv 0/1 0/2 16 2999", "calm 4"],
        ],
    ),
    "commands that wait": Limit([], PAIR, ["contact 0/1 0/2", "calm 3", *["echo 0/1 0/2 65"] * 5000, "calm 400"]),
    "a typed line": Limit([], PAIR, [*SERVED, f"type 0/2 {'A' * 20_000}", "calm 200"]),
    "servers": Limit(
        [],
        PAIR,
        [
            *["contact 0/1 0/2", "calm 3"],
            *[f"server 0/1 {2 * at + 1} {10_000 + 2 * at}" for at in range(600)],
            *["user 0/2 0/1 1199 16", "calm 40"],
        ],
    ),
    "strangers": Limit(
        ["--book", "--texts"],
        ODD,
        [
            *(f"out {host}/{imp} {host - 1}/{imp} 0 48 00080001000C" for imp in range(1, 64) for host in (1, 3)),
            "calm 3",
        ],
    ),
    "events among strangers": Limit([], STRANGE, ["calm 0"] * 600_000),
    "events of a log among strangers": Limit(["--log"], ODD, ["calm 0"] * 110_000),
    "events of a log": Limit(["--log"], PAIR, ["calm 0"] * 110_000),
    "events of a raw log": Limit(["--log"], PAIR._replace(raw=True), ["take 0/1"] * 110_000),
    "nobody but strangers": Limit(
        ["--book"],
        STRANGE._replace(foreign=[(1, [0, 1]), (2, [0, 1])]),
        ["out 0/1 1/2 5 8 41", "take 1/2", "take 0/1", "calm 3"],
    ),
    "messages of a stranger": Limit(
        ["--book"], AMONG, [RST, "take 0/2", "take 0/3", *[NO_COMMAND, "take 0/2", "take 0/3"] * 70_000, *BESIDE]
    ),
    "answers to a stranger": Limit(
        [],
        AMONG,
        [
            *[RST, "calm 1", "take 0/3", "take 0/3"],
            *[NO_COMMAND, "calm 1", "take 0/3", "take 0/3"] * 7_000,
            *["contact 0/1 0/2", "calm 4294967295"],
        ],
    ),
    # after 65,535 more the number of message 0 comes again, which the IMP of 0/3 keeps until it forgets it
    "numbers of a flow": Limit([], ROW, [*CUT_OFF, *DROPPED * 65_535, FAR, "forget 3 1", FAR]),
    # number 32,767 goes beside the frame of message 0, and number 32,768 only once that frame is gone
    "half of the numbers of a flow": Limit(
        [],
        LINE,
        [
            *[*STAYS, *[NEAR, *COMES, *LEAVES] * 32_766],
            *[NEAR, NEAR, *COMES, NEAR, *LEAVES, NEAR, "drop 0 + 0", NEAR, NEAR],
        ],
    ),
    "flows of an IMP": Limit([], MANY._replace(carrier="subnet", raw=True), FLOWS),
    "flows of mailboxes": Limit([], MANY._replace(raw=True), FLOWS),
    "lines of a subnet": Limit(
        [],
        Topology("subnet", True, [(imp, 1) for imp in range(1, 64)], [*ring(63)]),
        ["calm 40", *[f"out 0/1 0/{imp} 5 8 41" for imp in range(2, 64)], "calm 60"],
    ),
}


FULL = f"8063 {'5A' * 1007}5A"  # the longest text of a message
TRACES: dict[str, Limit] = {
    "events of a trace": Limit(["--trace"], Topology("plain", True, [(1, 2), (2, 1)], []), ["take 0/1"] * 110_000),
    "the text of a part": Limit(
        ["--trace"],
        Topology("plain", True, [(1, 1), (2, 1)], []),
        [f"out 0/1 0/2 {link} {FULL}" for link in range(100)],
    ),
    # after its first round, which changes nothing, a calm has no more lines
    # each flow of an IMP is in the text of its part, so that ten times as many would print a hundred times as much
    "flows of an IMP that is traced": Limit(
        ["--trace"],
        MANY._replace(carrier="subnet", raw=True),
        [f"out 0/1 {host}/{imp} {link} 0 -" for link in range(5) for imp in range(2, 64) for host in range(4)],
    ),
    "rounds of a trace": Limit(["--trace"], Topology("subnet", True, [(1, 0)], []), ["calm 4294967295", "route 1"]),
    "strangers of a trace": Limit(["--trace"], ODD, ["calm 1"]),
    "events of a trace among strangers": Limit(["--trace"], STRANGE, ["calm 0"] * 60_000),
    "octets of the input of a trace": Limit(["--trace"], PAIR, ["calm 0"] * 200_000),
    "events of a trace of hosts": Limit(["--trace"], PAIR, ["take 0/1"] * 110_000),
    "rounds of a trace of hosts": Limit(["--trace"], PAIR, [*JOINED, "send 0/1 101 8 5A", "calm 4000"]),
}
COMMENTS = b"# nothing\n" * 50_000  # before a topology


def opened(count: int) -> Iterator[str]:
    """The crossings of this many connections between two hosts, one after another: both requests, and then both CLS."""
    for at in range(count):
        own, foreign = f"{16 + 2 * at:08X}", f"{33 + 2 * at:08X}"
        requests = f"120 0008000A0001{own}{foreign}02", f"120 0008000A0002{foreign}{own}08"
        for one, other in (requests, (f"112 000800090003{own}{foreign}", f"112 000800090003{foreign}{own}")):
            yield from (f"out 0/1 0/2 0 {one}", f"in 0/1 0/2 0 {one}", f"out 0/2 0/1 0 {other}")
            yield from ("answer rfnm 0/1 0/2 0", f"in 0/2 0/1 0 {other}", "answer rfnm 0/2 0/1 0")


def lives_of(count: int) -> Iterator[str]:
    """The lives of these connections, in the order in which they were opened, after the contact."""
    for at in range(count):
        own, foreign, begins = 16 + 2 * at, 33 + 2 * at, 6 + 12 * at
        yield f"life 0/2 {foreign} 0/1 {own} {begins + 2} {begins + 1} send 0 0 0 0 0 0 ended -"
        yield f"life 0/1 {own} 0/2 {foreign} {begins} {begins + 4} receive 0 0 0 0 0 0 closed -"


CONTACT = [
    *("out 0/1 0/2 0 48 00080001000C", "in 0/1 0/2 0 48 00080001000C", "out 0/2 0/1 0 48 00080001000D"),
    *("answer rfnm 0/1 0/2 0", "in 0/2 0/1 0 48 00080001000D", "answer rfnm 0/2 0/1 0"),
]
CONNECTIONS = 5_100
# a message that is carried, and answered
CARRIED = [f"out 0/1 0/2 5 {FULL}", f"in 0/1 0/2 5 {FULL}", "answer rfnm 0/1 0/2 5"]


def in_lines(lines: Iterable[str]) -> bytes:
    """The octets of lines."""
    return "".join(f"{line}\n" for line in lines).encode()


LOGS: dict[str, Callable[[], bytes]] = {
    "crossings of a log": lambda: b"down 0/1\nup 0/1\n" * 530_000 + b"end\n",
    # the first crossing is of no run, so that messages are looked at one by one
    "crossings of a log that strays": lambda: b"up 0/1\n" + b"down 0/1\nup 0/1\n" * 50_000 + b"end\n",
    "strangers of a log": lambda: in_lines([*(f"foreign {it}" for it in HOSTS), "end"]),
    "flows of a log": lambda: in_lines(
        [*(f"out {one} {other} {link} 0 -" for one in HOSTS[:2] for other in HOSTS for link in range(256)), "end"]
    ),
    "octets of a log": lambda: in_lines([*CARRIED * 17_500, "end"]),
    # beside a stranger, to which none of them is
    "lives of a log": lambda: in_lines(
        [
            *["foreign 0/3", *CONTACT, *opened(CONNECTIONS), *lives_of(CONNECTIONS)],
            *[*["handed 0 -"] * (2 * CONNECTIONS), "end"],
        ]
    ),
}
# comments before a topology, which the models leave out
COMMENTED: dict[str, Limit] = {
    "octets of a topology": Limit([], PAIR, ["contact 0/1 0/2", "calm 3"]),
    "octets of a topology with strangers": Limit(["--check"], STRANGE, ["calm 3"]),
}
NAMES = [*LIMITS, *TRACES, *LOGS, *COMMENTED]


def given(name: str) -> tuple[list[str], bytes]:
    """The options and the input of a limit."""
    if name in LOGS:
        return ["--audit"], LOGS[name]()
    limit = (LIMITS | TRACES | COMMENTED)[name]
    return limit.options, (COMMENTS if name in COMMENTED else b"") + spelled_input(limit.network, limit.lines)


def by_program(program: str, name: str, variables: Mapping[str, str] | None = None) -> End:
    """How the program ends on a limit, with these variables."""
    options, octets = given(name)
    env = {**os.environ, **(variables or {})}
    ran = subprocess.run([program, *options], input=octets, capture_output=True, check=False, env=env)
    return end_of(ran.returncode, ran.stdout.decode("latin-1"), ran.stderr.decode("latin-1"))


def by_model(name: str) -> End:
    """How it ends by the models, for which comments before a topology are nothing."""
    if name in LOGS:
        return end_of(*ends_audit(LOGS[name]()))
    if name in TRACES:
        return end_of(*ends_traced(TRACES[name]))
    limit = (LIMITS | COMMENTED)[name]
    if limit.options == ["--log"]:
        return end_of(*ends_log(limit.network, limit.lines))
    return end_of(*expected(limit.options, limit.network, [*limit.lines, ""]))


def ends_traced(limit: Limit) -> tuple[int, str, str]:
    """How the trace of a limit ends by the model of its kind of network."""
    return (ends_trace if limit.network.raw else ends_world)(limit.network, limit.lines)


def kept() -> dict[str, End]:
    """What the models said of each limit."""
    with open(KEPT, encoding="utf-8") as file:
        found: dict[str, tuple[int, int, str, str]] = json.load(file)
    return {name: End(*end) for name, end in found.items()}


def by_models(names: list[str]) -> dict[str, End]:
    """What they say of these now."""
    with ProcessPoolExecutor(os.cpu_count() or 1) as processes:
        return dict(zip(names, processes.map(by_model, names)))


def write(names: list[str]) -> int:
    """Keeps what the models say."""
    known = kept() if os.path.isfile(KEPT) else {}
    known |= by_models(names)
    with open(KEPT, "w", encoding="utf-8") as file:
        file.write(
            "{\n"
            + ",\n".join(f"  {json.dumps(name)}: {json.dumps(known[name])}" for name in NAMES if name in known)
            + "\n}\n"
        )
    print(f"check limits: {len(names)} ends are kept")
    return 0


def differing(who: str, found: dict[str, End], wanted: dict[str, End]) -> list[str]:
    """What is wrong with ends, in lines."""
    unlike = [name for name in found if found[name] != wanted.get(name)]
    return [f"{name}: {who} has {found[name]}; kept is {wanted.get(name)}" for name in unlike]


def main() -> int:
    """Tries all, or those that are named."""
    words = Words(__doc__).names("name", f"a limit; all, if none is named: {', '.join(NAMES)}")
    words.flag("models", "ask the models anew").flag("write", "keep what the models say")
    asked = words.flag("planted", "plant limits, and name those that no input notices").asked()
    names = asked.name or NAMES
    if unknown := [it for it in names if it not in NAMES]:
        print(f"check limits: there is no limit called {unknown[0]}; there are {', '.join(NAMES)}")
        return 1
    if asked.write:
        return write(names)
    if asked.planted:
        ends = kept()
        return missed(
            "limits", PLANTED, names, lambda program, name, env: by_program(program, name, env) != ends[name]
        )
    program = any_program()
    if program is None:
        print("check limits: there is no program of these sources")
        return 1
    wanted = kept()
    good = [name for name in names if name in wanted and wanted[name].status in (0, 4)]
    wrong = [f"{name}: kept is no good end" for name in names if name not in good]
    with ThreadPoolExecutor(os.cpu_count() or 1) as threads:
        wrong += differing("the program", dict(zip(names, threads.map(partial(by_program, program), names))), wanted)
    if asked.models:
        wrong += differing("a model", by_models(names), wanted)
    for line in wrong:
        print(f"check limits: {line}")
    print(f"check limits: {len(names)} inputs past a limit, and {len(wrong)} of them end otherwise than the models say")
    return 1 if wrong else 0

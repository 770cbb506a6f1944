"""./explain ties each event to what it printed, and names the cause of each refusal (a minute).

Checks what ./explain says.

- The lines that it ties to each event are those that the independent model of the rules in dorydate.model prints for it, on
  random inputs. So are, in plain networks, the messages of which it says that they still wait.
- Of a refused event of an example it says the cause that is written here by hand.
- Of a refused script line or topology it names a cause exactly if that model refuses it, and for inputs written
  here by hand it names the cause that is meant.
- In networks with host programs it names a cause for each bad line, and has a sentence for each line that is printed there.
- In subnets the independent model, from which the sentences about the inside are, prints what the program prints, event by
  event; where it knows that an answer was NotTaken, for which `incomplete` is printed too, that is said and drawn; each event that prints nothing has a sentence. What it says of lines written here by hand is what is written beside
  them. Where it names the next event that clears what is in the way of a refused one, these events, one after the other, do.
- Of a life or a message of a book it says what each clause of the promise says.
- Of a bad line of a log it says the cause and the form, of a broken book which lines disagree and where, and of a network at rest what waits.
- Closed and full streams are reported in a line, and status 1.
- What messages say is what is written here by hand, octets and words.
- Without a kept program it says the same.
- The tour's table and the charts in docs/ are what it says and draws, and the tour's changes to the examples do what it
  says.

It takes the proved program, or where ./build has not made that the one that was built without proofs.
"""

from __future__ import annotations

import os
import random
import re
import subprocess
from collections import Counter

from dorydate.model.chance.inputs import changed, some_network, some_script
from dorydate.explain.command import diagnose
from dorydate.explain.faults import wrong_with_line
from dorydate.given import Input, is_event
from dorydate.explain.past import Past
from dorydate.explain.runs import Happened, kept_program, replay
from dorydate.explain.telling import past_of
from dorydate.explain.topologies import wrong_with_topology
from dorydate.model.boxes import Boxes
from dorydate.model.chance.worlds import some_script as some_script_of_world
from dorydate.model.names import spell_flow
from dorydate.model.runs import network_is_good, opened
from dorydate.model.script import BadLine, Event, read_line
from dorydate.model.topology import Topology, spelled
from dorydate.program import MOST_OCTETS, Program
from dorydate.sentences import IN_A_HOST, IN_A_SUBNET, crossing
from workshop.checks.explain_faults import BAD_LINES, BAD_LINES_OF_WORLDS, BAD_LOG_ENDS, BAD_LOG_LINES, BAD_TOPOLOGIES, BROKEN_BESIDE, BROKEN_LOGS, GOOD, TOO_LONG, BrokenLog
from workshop.checks.explain_given import Wrong, example, same, told
from workshop.checks.explain_inside import check_full_store, check_inside, check_stalls, check_thrown_away
from workshop.checks.explain_pages import check_pages
from workshop.checks.explain_rows import REFUSALS
from workshop.parts import ROOT, read_octets


# files, the words after --book, the status, and what is said among others
BOOKS: list[tuple[str, list[str], int, list[str]]] = [
    ("logs/two-octets", [], 0, ["line 13: socket 16 of 0/1", "line 10: 56 bits from 0/2 to 0/1 on link 5"]),
    ("logs/two-octets", ["10"], 0, ["promise.arrived.answered.arrived: It is message 1 of the life of line 13"]),
    ("logs/two-octets", ["12"], 1, ["line 12 of the log is no life and no message"]),
    ("logs/two-octets", ["x"], 2, ["LINE is a number, and x is none"]),
    ("logs/beside-a-stranger", [], 0, ["line 29: socket 16 of 0/1", "line 17: 48 bits from 0/3 to 0/1 on link 6"]),
    ("logs/beside-a-stranger", ["29"], 0, ["Its own request went out in line 8", "the own request of the life of line 31"]),
    (
        "logs/beside-a-stranger",
        ["30"],
        0,
        [
            "It is with 0/3, a stranger",
            "toward.asked.partner: Its partner's request came in in line 3",
            "toward.taken: 1 message and 8 bits",
        ],
    ),
    (
        "logs/beside-a-stranger",
        ["32"],
        0,
        ["toward.handed: The 8 bits that it sent are a prefix of the 16 bits that were handed over in it."],
    ),
    ("logs/beside-a-stranger", ["18"], 0, ["promise.safe.messages.once: It was taken once, in line 18"]),
    ("logs/beside-a-stranger", ["1"], 1, ["line 1 of the log is no life and no message"]),
    ("examples/a-connection-and-its-book", ["25"], 0, ["Its own request went out in line 9", "It is ended: it began in line"]),
]


def events_by_chance(seed: int) -> tuple[Topology, list[str], list[Event]] | None:
    """A random network with the lines and the events of a script; None where some line or the network is bad."""
    chance = random.Random(seed)
    network = some_network(chance)
    lines = [it for it in some_script(chance, network) if " 8064 " not in it][:60]
    try:
        asked = [read_line(it) for it in lines]
    except BadLine:
        return None
    return (network, lines, [it for it in asked if it]) if network_is_good(network) else None


def check_ties(program: Program, seeds: int) -> None:
    """What each event prints, and what still waits after it, against the independent model."""
    count = 0
    for seed in range(seeds):
        if (made := events_by_chance(seed)) is None:
            continue
        network, lines, asked = made
        given = Input("\n".join([spelled(network), "%", *lines]).encode("latin-1"))
        found = replay(given, program)
        same((found.status, found.said), (0, ""), f"input {seed}")
        model, past = opened(network), past_of(given)
        for event, happened in zip(asked, found.events):
            model.printed.clear()
            model.happen(*event)
            same(happened.printed, model.printed, f"input {seed}, line {happened.number}: {happened.words}")
            see(past, happened)
            count += 1
            if isinstance(model, Boxes):
                waiting = {flow for flow, sent in past.sent.items() if sent.waits}
                same(waiting, {tuple(spell_flow(flow).split(" ")) for flow, _ in model.messages}, f"input {seed}: what waits after line {happened.number}")
    print(f"check explain: {count} events, each tied to what it printed")


def see(past: Past, event: Happened) -> None:
    """Has the past take note of an event and of each line that it printed."""
    for output in event.printed:
        past.see(event.number, event.words, output)
    if not event.printed:
        past.see(event.number, event.words, None)


def check_refusals(program: Program) -> None:
    """Of each refused event of the examples the cause that is meant is named."""
    meant, found = {(name, number): words for name, number, words in REFUSALS}, 0
    for name in sorted({name for name, _, _ in REFUSALS}):
        lines = told(example(name), program)
        for at, line in enumerate(lines):
            if "prints: refused" in line:
                number = int(lines[at - 1].split(" ")[0])
                same(meant.get((name, number), "a cause written by hand") in lines[at + 1], True, f"{name}, line {number}: {lines[at + 1]}")
                found += 1
    same(found, len(REFUSALS), "the refused events of the examples")
    print(f"check explain: {found} refused events of the examples, each with its cause")


# ---- bad inputs


def check_causes(program: Program, seeds: int) -> None:
    """A cause is named exactly where the independent model refuses, and the one that is meant."""
    for bad_line, words in BAD_LINES:
        check_cause(program, GOOD + b"%\ntake 0/1\n" + bad_line + b"\n", (2, "arpasim: bad script line 2\n"), words)
    for octets, words in BAD_TOPOLOGIES:
        check_cause(program, octets, (1, "arpasim: bad topology\n"), words)
    check_cause(program, b"#" * (MOST_OCTETS + 1), (1, "arpasim: input too long\n"), TOO_LONG)
    for bad_line, words in BAD_LINES_OF_WORLDS:
        same(words in (wrong_with_line(bad_line, raw=False) or ""), True, f"{bad_line!r}: {wrong_with_line(bad_line, raw=False)}")
    bad = 0
    for seed in range(seeds):
        chance = random.Random(seed)
        network = some_network(chance)._replace(raw=True)
        is_refused = wrong_with_topology(Input(f"{spelled(network)}\n%\n".encode())) is not None
        same(is_refused, not network_is_good(network), f"the topology {network}")
        bad += is_refused
        for line in some_script(chance, network)[:20]:
            bad += check_line(changed(chance, line) if line and line[0] != "#" else line, True)
    print(f"check explain: a cause named for {len(BAD_LINES) + len(BAD_TOPOLOGIES)} inputs written by hand and for {bad} random ones")


def check_cause(program: Program, octets: bytes, ended: tuple[int, str], words: str) -> None:
    """The program ends so on an input, and the cause that is named has these words."""
    given = Input(octets)
    found = replay(given, program)
    same((found.status, found.said), ended, octets[-80:])
    same(words in diagnose(given, found.said), True, f"{octets[-80:]!r}: {diagnose(given, found.said)}")


def check_line(line: str, raw: bool) -> bool:
    """A line has a cause exactly if it is bad, which is the answer."""
    try:
        read_line(line, raw)
        is_bad = False
    except BadLine:
        is_bad = True
    octets = line.encode("latin-1")
    why = is_event(octets) and wrong_with_line(octets, raw)
    same(bool(why), is_bad, f"the line {line!r}: {why}")
    return is_bad


def check_worlds(seeds: int) -> None:
    """In networks with host programs: a cause is named for each bad line and for no other, and each output has its sentence."""
    lines, bad, outputs = 0, 0, Counter[str]()
    for seed in range(seeds):
        chance = random.Random(seed)
        _, script = some_script_of_world(seed)
        for line in script.lines[:60]:
            bad += check_line(changed(chance, line) if chance.random() < 0.5 else line, False)
            lines += 1
        for words in (output.split(" ") for output in script.world.printed + script.world.end_of_book()):
            is_said = words[1] in {**IN_A_HOST, **IN_A_SUBNET} if words[0] == "refused" else crossing(words)
            same(bool(is_said), True, f"a sentence for {words}")
            outputs[words[0]] += 1
    print(f"check explain: {lines} lines of host programs, {bad} of them bad; {outputs.total()} outputs of {len(outputs)} kinds, each with a sentence")


# ---- logs


def audited(log: bytes) -> tuple[int, str, str]:
    """The status, the output and the words of `./explain --audit`, which ends as the program does."""
    ran = subprocess.run([f"{ROOT}/explain", "--audit"], input=log, capture_output=True)
    return ran.returncode, ran.stdout.decode(), ran.stderr.decode()


def check_logs() -> None:
    """Of a bad line of a log its cause and form are named, of a broken part the lines that disagree, and where."""
    log = read_octets(f"{ROOT}/logs/two-octets")
    lines = log.split(b"\n")
    bad: list[tuple[int | None, bytes, str]] = [(number + (line == b"end"), b"\n".join([*lines[: number - 1], line, *lines[number:]]), words) for number, line, words in BAD_LOG_LINES]
    bad += [(None, log.removesuffix(b"end\n") + end, words) for end, words in BAD_LOG_ENDS]
    for wanted, octets, words in bad:
        status, output, said = audited(octets)
        same((status, "arpasim: bad log line" in said, words in output), (2, True, True), f"{said}{output}")
        named = re.search(r"line (\d+)", said)
        same(wanted in (None, int(named[1]) if named else 0), True, f"{wanted}: {said}")
    check_broken(log, BROKEN_LOGS)
    check_broken(read_octets(f"{ROOT}/logs/beside-a-stranger"), BROKEN_BESIDE)
    books = len(BROKEN_LOGS) + len(BROKEN_BESIDE)
    print(f"check explain: {len(bad)} bad logs, each with its cause and form; {books} books, each with the lines that disagree")


def check_broken(log: bytes, rows: list[BrokenLog]) -> None:
    """Of a log that is changed in a line the verdict is given, and why."""
    lines = log.split(b"\n")
    for number, before, after, verdict, words in rows:
        line = lines[number - 1] + b"\n"
        broken = log.replace(b"\n" + line, b"\n" + line.replace(before, after, 1), 1)
        status, output, _ = audited(broken)
        same((status, output.startswith(f"{verdict}\n"), words in output), (0 if verdict == "kept" else 4, True, True), output)


# ---- streams


def seconds_of_children() -> float:
    """The processor time of all commands that have ended."""
    spent = os.times()
    return spent.children_user + spent.children_system


# what becomes of a stream, and what a command says of it
ENDINGS = [(">&-", "standard output is closed"), ("<&-", "standard input is closed"), ("< /", "standard input is a directory"), ("> /dev/full", "No space left on device")]


def check_books() -> None:
    """Of a life and a message of a log, or of an input's log, each clause says what it says."""
    for name, line, status, words in BOOKS:
        with open(f"{ROOT}/{name}", "rb") as file:
            ran = subprocess.run([f"{ROOT}/explain", "--book", *line], stdin=file, capture_output=True, check=False)
        found = (ran.returncode, all(it in ran.stdout.decode() + ran.stderr.decode() for it in words))
        same(found, (status, True), f"./explain --book {' '.join(line)} < {name}")
    print(f"check explain: {len(BOOKS)} lives, messages and other lines of books")


def check_ends() -> None:
    """Where a stream is closed or full, or a name is not UTF-8, a command says so in one line and ends with status 1; long blanks take no time."""
    name = os.fsencode(f"{ROOT}/examples/none-") + b"\xff"
    for words in ("explain", "check", "measure", "export --shiviz", "explore --list"):
        for ending, said in ENDINGS:
            command = words.split(" ")[0]
            if (command, ending) == ("check", "> /dev/full") or (command in ("check", "measure") and ending == "< /"):
                continue  # the check runs the whole gate before it has written what its buffer holds; neither reads an input
            ran = subprocess.run(["bash", "-c", f"./{words} < examples/first-message {ending}"], cwd=ROOT, capture_output=True, text=True, stdin=subprocess.DEVNULL)
            same((ran.returncode in (1, 2), f"{command}: {said}" in ran.stderr, "Traceback" in ran.stderr), (True, True, False), f"{words} {ending}: {ran.stderr}")
    for command in ("explain", "check", "measure"):
        ran = subprocess.run([f"{ROOT}/{command}".encode(), *([b"--page"] if command == "explain" else []), name], capture_output=True, text=True, input="")
        same((ran.returncode, ran.stderr.count("\n"), "Traceback" in ran.stderr), (1, 1, False), f"{command} and a name that is not UTF-8: {ran.stderr}")
    before = seconds_of_children()
    blanks = subprocess.run([f"{ROOT}/explain"], input=b"\n" * 40_000 + GOOD + b"%\ntake 0/1\n", capture_output=True)
    same((blanks.returncode, seconds_of_children() - before < 8), (0, True), "40,000 blank lines before a topology")
    print("check explain: closed and full streams, names that are not UTF-8, and long blanks")


def main() -> int:
    program = kept_program()
    if not program:
        print("check explain: there is no program of these sources: ./build makes it")
        return 1
    try:
        check_ties(program, 60)
        check_refusals(program)
        check_inside(program, 60)
        check_thrown_away()
        check_full_store(program)
        check_causes(program, 400)
        check_logs()
        check_books()
        check_stalls(program)
        check_ends()
        check_worlds(100)
        check_pages(program)
    except Wrong as what:
        print(f"check explain: {what}")
        return 1
    return 0

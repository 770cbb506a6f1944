"""The program's --audit and --log against a second reading of logs and of the promise (a minute for 500 books): ./check audit [COUNT]

Tries what the program says of logs and prints as logs, against an independent reader and judge in Python (python/dorydate/model/log.py).

- Logs that were written by hand (workshop.checks.log_rows), each with its verdict or the number of its bad line, and those of docs/audit.md.
  Readings of these rules that are wrong in one place have to be distinguished from the right one by these.
- Each prefix of a short log, and of one that names a stranger, and the same with each octet changed to 00, 7F and FF; and
  long logs.
- What `--log` prints of each example and each stored input is the log that the model makes of it, and `--audit` says `kept`.
- The books that break where a rule is lacking, in the folder `without`: the part that each file names is reported.
- Random books (python/dorydate/model/chance/books.py): COUNT of worlds that the model runs, every other one broken on purpose in one place,
  and as many small ones of few hosts and sockets. Of each tenth world the program's own log is compared too.
- As many books of worlds with strangers (python/dorydate/model/chance/mixed_books.py), every other one broken, as a rule in
  what it says of strangers; as many small ones; and logs with a line that names a stranger at another place. Of each tenth
  of these worlds the program's own log is compared, and it says `kept` of that.

It takes the proved program, or where ./build has not made that the one that was built without proofs.
"""

from __future__ import annotations

import functools
import multiprocessing
import os
import sys
from collections import Counter
from collections.abc import Iterator
from concurrent.futures import ProcessPoolExecutor, ThreadPoolExecutor

from dorydate.model.audit import PARTS
from dorydate.model.chance.books import of_world, small
from dorydate.model.chance.breaking import WAYS
from dorydate.model.chance.mixed_books import EVERY_WAY, misnamed, of_mixed_world, small_mixed
from dorydate.model.log import Book, book_of, ends_log, read_log, spelled_log
from dorydate.model.misread_logs import MISREADINGS
from dorydate.model.verdict import Judge, ended, ends_audit, says
from dorydate.model.chance.worlds import Script
from dorydate.model.runs import End
from dorydate.model.strangers import MixedWorld
from dorydate.model.topology import Topology, network_of, spelled_input
from dorydate.model.without.stored import Lesson
from workshop import limited
from workshop.checks import log_rows
from workshop.checks.cases import Case, cases_below
from workshop.checks import headline
from workshop.parts import ROOT, any_program
from workshop.words import Words

COUNT = 10_000
LOGGED = 10  # of this many worlds one is logged by the program too
CORES = os.cpu_count() or 1
SECONDS = 600  # of the processor, for one run


# ---- the program


@functools.cache
def program() -> str:
    """The program of these sources."""
    found = any_program()
    if found is None:
        sys.exit("check audit: there is no program of these sources")
    return found


def run(octets: bytes, *options: str) -> End:
    """How the program ends: its status, its output and its words."""
    ran = limited.run_within([program(), *options], octets, SECONDS)
    return ran.returncode, ran.stdout.decode("latin-1"), ran.stderr.decode("latin-1")


def compared(what: str, octets: bytes, owed: End) -> str | None:
    """What is wrong with the audit of a log, None where nothing is."""
    if (found := run(octets, "--audit")) != owed:
        return f"{what}: found {found}, wanted {owed}, of {octets[-1000:]!r}"
    return None


# ---- logs by hand

# the short log where its sender is a stranger, whose life nobody knows
TOWARD = "foreign 0/2\n" + log_rows.SHORT.replace(f"{log_rows.SENDER}\n{log_rows.LISTS}", log_rows.LIST)


def unnoticed() -> Iterator[str]:
    """The wrong readings that judge each log by hand as it should be judged."""
    for name, judge in MISREADINGS.items():
        if all(judged(judge, octets) == wanted for octets, wanted in log_rows.rows()):
            yield name


def judged(judge: Judge, octets: bytes) -> str | None:
    """What a wrong reading says of a log, if it comes to say anything."""
    try:
        return judge.says(octets)
    except (IndexError, StopIteration):
        return None


def parts_said(owed: End) -> list[str]:
    """What is printed about a log, line by line, without the lines' numbers."""
    return [line.split(" line")[0].strip() for line in owed[1].splitlines()] or ["bad log line"]


def said(owed: End) -> str:
    """The same in words."""
    return " and ".join(parts_said(owed))


def octets_around(octets: bytes) -> Iterator[bytes]:
    """Each prefix of a log, and the log with each octet changed."""
    yield from (octets[:length] for length in range(len(octets)))
    for place in range(len(octets)):
        yield from (octets[:place] + value + octets[place + 1 :] for value in (b"\0", b"\x7f", b"\xff"))


def check_logs() -> list[str]:
    """What is wrong with logs by hand, and with prefixes and changed octets of one."""
    wrong = [f"no log by hand tells this wrong reading: {it}" for it in unnoticed()]
    by_hand = [(octets, wanted, says(octets)) for octets, wanted in log_rows.rows()]
    of_page = [(octets, ended(wanted), ends_audit(octets)) for octets, wanted in log_rows.rows_of_page()]
    wrong += [f"the reader in Python says {found}, and {wanted} is wanted, of {octets[-400:]!r}" for octets, wanted, found in [*by_hand, *of_page] if found != wanted]
    rows = [*((octets, ended(wanted)) for octets, wanted, _ in by_hand), *((octets, owed) for octets, owed, _ in of_page)]
    around = [(it, ends_audit(it)) for log in (log_rows.SHORT, TOWARD) for it in octets_around(log.encode())]
    with ThreadPoolExecutor(CORES) as threads:
        found = threads.map(lambda row: compared("a log by hand", *row), [*rows, *around])
        wrong += filter(None, found)
    ends = Counter(said(owed) for _, owed in rows)
    unlike = f"by {len(MISREADINGS)} wrong readings of the rules not all judged rightly"
    print(f"check audit: {len(rows)} logs by hand ({listed(ends)}), {unlike}; {len(around)} logs around two")
    return wrong


def check_options() -> list[str]:
    """What is wrong with options: neither of the two goes with another one, or twice."""
    octets = log_rows.SHORT.encode()
    options = [[one, other] for one in ("--log", "--audit") for other in ("--log", "--audit", "--book", "--check", "--texts")]
    options += [[*words[::-1]] for words in options if words[::-1] not in options]
    wrong = [f"{words}: {run(octets, *words)}" for words in options if run(octets, *words) != (1, "", "arpasim: bad arguments\n")]
    print(f"check audit: {len(options)} pairs of options that don't go together")
    return wrong


# ---- logs of inputs


def owed_log(octets: bytes) -> End:
    """How `--log` has to end on an input: as without it, where that ends in a fault, and else with the model's log."""
    without = run(octets)
    if without[0]:
        return without
    lines = octets.decode("latin-1").split("\n")
    marker = lines.index("%")
    network = network_of("\n".join(lines[:marker]))
    return ends_log(network, lines[marker + 1 :])


def logged(case: Case) -> tuple[str | None, int]:
    """What is wrong with the log of a stored input, None where nothing is, and how `--log` ended."""
    status, log, words = found = run(case.octets, "--log")
    owed = owed_log(case.octets)
    if found != owed:
        return f"{case.name}: --log ends with {status} {words}and {different_line(log, owed[1])}", status
    if status == 0:
        book = read_log(log.encode("latin-1"))
        if spelled_log(book) != log.encode("latin-1"):
            return f"{case.name}: its log is not read as it was printed", status
        return compared(case.name, log.encode("latin-1"), (0, "kept\n", "")), status
    return None, status


def different_line(found: str, owed: str) -> str:
    """Where two outputs differ."""
    lines, wanted = found.split("\n"), owed.split("\n")
    at = next((at for at, pair in enumerate(zip(lines, wanted)) if pair[0] != pair[1]), min(len(lines), len(wanted)))
    return f"prints {lines[at : at + 1]} as line {at + 1}, for {wanted[at : at + 1]}"


# What crosses when one message is taken and answered, and how often it happens in a long log
PASSED = b"out 0/1 0/2 5 24 414243\nin 0/1 0/2 5 24 414243\nanswer rfnm 0/1 0/2 5\n"
TIMES = 520_000
CONNECTIONS = 35_000  # of a log with a life at each end of each
CROSSED = 12  # crossings of each of them
GRANT = "104 00080008000405000100000010"  # ALL of link 5: one message, 16 bits
HOSTS = [f"{host}/{imp}" for imp in range(1, 64) for host in range(4)]


def log_of_lives(count: int) -> bytes:
    """A log of this many connections, each of two hosts that have no other, in which two octets are sent and taken. It is kept."""
    crossings, lives, handed = [], [], []
    for at in range(count):
        one, other = HOSTS[at % 252], HOSTS[(at + 1 + at // 252 % 251) % 252]
        even, odd, place = 2 * at + 16, 2 * at + 17, CROSSED * at
        rts, request = f"120 0008000A0001{even:08X}{odd:08X}05", f"120 0008000A0002{odd:08X}{even:08X}08"
        data = f"{other} {one} 5", "56 00080002004849"
        for flow, text in ((f"{one} {other} 0", rts), (f"{other} {one} 0", request), (f"{one} {other} 0", GRANT), data):
            crossings += [f"out {flow} {text}", f"in {flow} {text}", f"answer rfnm {flow}"]
        lives.append(f"life {one} {even} {other} {odd} {place} {place + 4} receive 1 16 1 16 0 0 open 4849")
        lives.append(f"life {other} {odd} {one} {even} {place + 3} {place + 1} send 1 16 0 0 0 0 open 4849")
        handed += ["handed 0 -", "handed 16 4849"]
    return "\n".join([*crossings, *lives, *handed, "end", ""]).encode()


ALIEN = "112 0008000900030000000200000003"  # CLS of sockets that have no connection
WITHOUT_DATA = {"1 16 1 16 0 0 open 4849": "0 0 1 16 0 0 open -", "1 16 0 0 0 0 open 4849": "0 0 0 0 0 0 open -"}


def log_of_commands(count: int, closed: bool) -> bytes:
    """A log of this many connections that all continue while as many CLS of other sockets cross.

    If both CLS of the last connection follow, its lives are the first that have to say so.
    """
    *lines, _, _ = log_of_lives(count).decode().split("\n")
    for start, end in WITHOUT_DATA.items():
        lines = [line.replace(start, end) for line in lines]
    pairs = [(HOSTS[at % 252], HOSTS[(at + 1 + at // 252 % 251) % 252]) for at in range(count)]
    commands = [(one, other, ALIEN) for one, other in pairs]
    if closed:
        (one, other), even, odd = pairs[-1], f"{2 * count + 14:08X}", f"{2 * count + 15:08X}"
        commands += [(one, other, f"112 000800090003{even}{odd}"), (other, one, f"112 000800090003{odd}{even}")]
    crossings = lines[: CROSSED * count]
    for one, other, text in commands:
        crossings += [f"out {one} {other} 0 {text}", f"in {one} {other} 0 {text}", f"answer rfnm {one} {other} 0"]
    return "\n".join([*crossings, *lines[CROSSED * count :], "end", ""]).encode()


def named_last(count: int) -> End:
    """What is said of a log of this many connections, of which the last is over by both CLS and said to be open."""
    return 4, f"broken fates line {CROSSED * count + 3 * count + 6 + 2 * count - 1}\nsafe\n", ""


def check_long() -> list[str]:
    """What is wrong with long logs, since logs have no limit.

    They are of 35 million octets without a good line or with one flow's messages, of 70,000 lives, and of as many that
    continue beside many commands, of which the last two are over in one.
    """
    kept: End = (0, "kept\n", "")
    rows: list[tuple[bytes, End]] = [(b"x" * 36_000_000, (2, "", "arpasim: bad log line 1\n"))]
    rows += [(PASSED * TIMES + b"end\n", kept), (log_of_lives(CONNECTIONS), kept)]
    rows += [(log_of_commands(CONNECTIONS, False), kept), (log_of_commands(CONNECTIONS, True), named_last(CONNECTIONS))]
    short = [(log_of_lives(300), kept), (log_of_commands(300, False), kept)]
    short.append((log_of_commands(300, True), named_last(300)))
    if any(ends_audit(octets) != owed for octets, owed in short):
        return ["of logs of 300 connections the model doesn't say what they are made to be"]
    found = [(len(octets), owed, run(octets, "--audit")) for octets, owed in rows]
    print(f"check audit: logs of {', '.join(f'{count:,}' for count, _, _ in found)} octets")
    return [f"a log of {count} octets: found {ended}, wanted {owed}" for count, owed, ended in found if ended != owed]


def check_stored() -> list[str]:
    """What is wrong with the stored logs and inputs of the folder `logs`."""
    cases = [*cases_below(f"{ROOT}/logs")]
    found = [(case, run(case.octets, *(case.args or b"").decode().split())) for case in cases]
    print(f"check audit: {len(cases)} stored in the folder `logs`")
    return [f"{case.name}: {ended}" for case, ended in found if ended != (case.status, case.printed.decode(), case.words)]


def is_read(case: Case) -> bool:
    """Whether the model reads the network of a stored input, if that has one: it knows the plain spelling of topologies only."""
    document, marker, _ = case.octets.decode("latin-1").partition("\n%")
    try:
        network_of(document)
    except (ValueError, KeyError):
        return not marker or run(case.octets)[0] != 0
    return True


def check_inputs() -> list[str]:
    cases = [case for folder in ("examples", "cases") for case in cases_below(f"{ROOT}/{folder}")]
    with ThreadPoolExecutor(CORES) as threads:
        read = [case for case, known in zip(cases, threads.map(is_read, cases)) if known]
        found = [*threads.map(logged, read)]
    have = sum(status == 0 for _, status in found)
    print(f"check audit: {len(cases)} examples and stored inputs, {len(cases) - len(read)} of another spelling, {have} have a log")
    return [fault for fault, _ in found if fault]


def check_without() -> list[str]:
    """What is wrong with the verdicts on the books that break where a rule is lacking."""
    wrong: list[str | None] = []
    seen = Counter[str]()
    for path in headline.stored():
        lesson = Lesson(path)
        octets = spelled_log(book_of(lesson.network, lesson.run(lesson.rule, lesson.script)))
        owed = ends_audit(octets)
        parts = ["run", *PARTS, "sent"]
        if (f"broken {lesson.breaks}" in parts_said(owed)) != (lesson.breaks in parts) or lesson.breaks not in parts and said(owed) != "kept":
            wrong.append(f"{path}: it breaks {lesson.breaks}, and the audit in Python says {owed[1]}")
        seen[said(owed)] += 1
        wrong.append(compared(path, octets, owed))
    print(f"check audit: the books of {sum(seen.values())} files of `without`: {listed(seen)}")
    return [*filter(None, wrong)]


# ---- random books


Made = tuple[str, Book, Topology, Script]  # a book of a world, by what was done to it, with the network and the script
Found = tuple[Counter[str], list[str]]  # what was seen, and what is wrong
KINDS = {
    "world": "of worlds",
    "small": "small ones",
    "mixed": "of worlds with strangers",
    "small mixed": "small ones with strangers",
}
MISNAMED = "misnamed"  # the kind of a log in which a line that names a stranger is at another place


def tried(seed: int) -> Found:
    """What a book of a world and a small one came to, without strangers and with them, and what is wrong."""
    alone, among = of_world(seed), of_mixed_world(seed)
    logs = {"small": spelled_log(small(seed)), "small mixed": spelled_log(small_mixed(seed))}
    logs[MISNAMED] = misnamed(seed, among[1])
    found = [tried_world("world", seed, alone, alone[0] in WAYS)]
    found += [tried_world("mixed", seed, among, among[0] in EVERY_WAY)]
    found += [tried_log(kind, seed, "", octets) for kind, octets in logs.items()]
    return sum((seen for seen, _ in found), Counter[str]()), [fault for _, faults in found for fault in faults]


def tried_log(kind: str, seed: int, way: str, octets: bytes) -> Found:
    """What a log came to, and what is wrong with what the program says of it."""
    owed = ends_audit(octets)
    fault = compared(f"the {kind} book {seed} {way}", octets, owed)
    return Counter([f"{kind}: {said(owed)}"]), [fault] if fault else []


def tried_world(kind: str, seed: int, made: Made, is_broken: bool) -> Found:
    """The same of a book of a world; of some the program's own log is compared too."""
    way, book, network, script = made
    octets = spelled_log(book)
    seen, wrong = tried_log(kind, seed, way, octets)
    if is_broken == (ends_audit(octets)[1] == "kept\n"):
        wrong.append(f"the {kind} book {seed}, {way}: {ends_audit(octets)}")
    seen.update({f"{kind} crossings": len(book.log), f"{kind} lives": len(book.lives)})
    seen[f"{kind} {'broken' if is_broken else 'made'}: {way}"] += 1
    if seed % LOGGED == 0:
        seen[f"{kind} logged"] += 1
        wrong += log_of_world(kind, seed, network, script)
    return seen, wrong


def log_of_world(kind: str, seed: int, network: Topology, script: Script) -> list[str]:
    """What is wrong with the program's log of a script, and with what it says of that.

    In some worlds of the model strangers take what waits for them in a calm; then the log is that of the script's lines.
    """
    octets = spelled_input(network, script.lines)
    log = spelled_log(book_of(network, script.world))
    if isinstance(script.world, MixedWorld) and script.world.takes:
        log = owed_log(octets)[1].encode("latin-1")
    owed = 0, log.decode("latin-1"), ""
    found = run(octets, "--log")
    if found != owed:
        return [f"the log of the {kind} {seed}: {different_line(found[1], owed[1])}"]
    fault = compared(f"the log of the {kind} {seed}", log, (0, "kept\n", ""))
    return [fault] if fault else []


def check_chance(count: int) -> list[str]:
    seen, wrong = Counter[str](), list[str]()
    with ProcessPoolExecutor(CORES, multiprocessing.get_context("fork")) as processes:
        for found, faults in processes.map(tried, range(count), chunksize=8):
            seen += found
            wrong += faults
    for kind, made in KINDS.items():
        crossings, lives = seen[f"{kind} crossings"], seen[f"{kind} lives"]
        of = f", of {crossings} crossings and {lives} lives" if crossings else ""
        print(f"check audit: {count} books {made}{of}: {listed(seen, f'{kind}: ')}")
    for kind in "world", "mixed":
        whole, broken = listed(seen, f"{kind} made: "), listed(seen, f"{kind} broken: ")
        logged = seen[f"{kind} logged"]
        print(f"check audit: of those {KINDS[kind]} {whole}, and the others are broken in one place: {broken}")
        print(f"check audit: the program's own logs of {logged} of these worlds are the model's, and kept")
    elsewhere = listed(seen, f"{MISNAMED}: ")
    print(f"check audit: {count} logs with a line that names a stranger at another place: {elsewhere}")
    return wrong


def listed(seen: Counter[str], start: str = "") -> str:
    return ", ".join(f"{count} {name.removeprefix(start)}" for name, count in sorted(seen.items()) if name.startswith(start))


def main() -> int:
    count = Words(__doc__).count("count", COUNT, "random books of each kind").asked().count
    program()  # built before the processes that try books are
    wrong = [*check_logs(), *check_long(), *check_stored(), *check_options(), *check_inputs(), *check_without(), *check_chance(count)]
    print(*wrong[:10], sep="\n", end="\n" if wrong else "")
    print(f"check audit: {len(wrong)} wrong" if wrong else "check audit: the program says what it should of each log, and prints the logs that it should")
    return 1 if wrong else 0

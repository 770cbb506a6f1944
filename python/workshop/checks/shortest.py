"""Each claim that a script is the shortest, and what searches all states, beside the proved program (two minutes): ./check shortest [--write | --planted]

The plain program in Rust (tools/plain, `./explore --fast`) looks at all lists of the events of each search, and the program of these
sources confirms what it finds. The lengths have to be those of docs/measured/shortest.md, which --write writes anew; and so have the kinds
of states that a long calm doesn't bring to rest, or leaves stuck.

Then both programs walk through all states of five networks, and have to come to as many at each depth: by their spelling in the plain
program, and by the texts of the trace in the other. With --planted faults are put into a copy of the plain program's sources, and each has
to be found in this way: states that are spelled alike, and a refused event that changes something.
"""

from __future__ import annotations

import os
import shutil
import tempfile
from collections.abc import Iterator
from dataclasses import dataclass
from pathlib import Path

from dorydate.explore import fast
from dorydate.explore.beside import Beside, differences, spelled_apart, walked
from dorydate.explore.breadth import Asked
from dorydate.explore.kinds import chosen, fit, pools
from dorydate.explore.many import CannotRun
from dorydate.explore.named import SEARCHES, TWO, TWO_PLAIN, TWO_RAW
from dorydate.explore.pattern import Pattern, read
from dorydate.explore.search import Search
from dorydate.network import Network
from dorydate.program import Program
from dorydate.script import Calm, Contact, Event, Listen, OpenReceive
from workshop.parts import ROOT, any_program
from workshop.tools import lacking
from workshop.words import Words

PAGE = f"{ROOT}/docs/measured/shortest.md"
CALMS = tuple(map(Calm, (1, 2, 3, 5)))
SECONDS = 600.0
MAILBOXES = Network.joined("LEFT", "RIGHT", raw=True, carrier="plain")
NOTHING = Pattern("", ())


def asked(network: Network, pattern: Pattern, depth: int, calms: tuple[Calm, ...] = CALMS, kinds: tuple[str, ...] = (), opening: tuple[Event, ...] = ()) -> Asked:
    """All events of a network, or those of some kinds, with calms."""
    found = fit(chosen(pools(network), kinds) if kinds else pools(network), pattern)
    return Asked(network, pattern, opening, (*(event for kind in found.values() for event in kind), *calms), depth, SECONDS)


# ---- claims


@dataclass(frozen=True)
class Claim:
    """A search, in words where it has no name of its own, over a network, and how long the lists are at most."""

    name: str
    where: str
    network: Network
    depth: int


CLAIMS = [
    Claim("taken-and-incomplete", "two IMPs, raw", TWO_RAW, 8),
    Claim("taken-and-incomplete", "plain mailboxes, raw", MAILBOXES, 8),
    Claim("resets-in-step", "two IMPs", TWO, 6),
    Claim("one-user-in-step", "two IMPs", TWO, 6),
    Claim("waits-for-a-contact", "plain mailboxes", TWO_PLAIN, 6),
    Claim("half-open", "plain mailboxes", TWO_PLAIN, 8),
    Claim("lost-at-a-close", "plain mailboxes", TWO_PLAIN, 10),
    Claim("noted-before-it-comes", "two IMPs, raw", TWO_RAW, 8),
    Claim("refused-before-it-comes", "two IMPs, raw", TWO_RAW, 8),
    Claim("twice", "plain mailboxes, raw", MAILBOXES, 40),
    Claim("twice", "two IMPs, raw", TWO_RAW, 7),
]


def row_of(claim: Claim, program: Program) -> str:
    """The row of a claim in the table; a script that the program doesn't confirm is marked there."""
    pattern = read(SEARCHES[claim.name].pattern)
    what = asked(claim.network, pattern, claim.depth)
    answer = fast.searched(what)
    if answer.stopped:
        raise CannotRun(f"{claim.name}: {answer.stopped} was up")
    steps, states = sum(it.steps for it in answer.levels), answer.levels[-1].states if answer.levels else 1
    none, shortest, script = f"none of up to {answer.whole}", "", ""
    if answer.found is not None:
        none, shortest, script = f"none of up to {len(answer.found) - 1}", str(len(answer.found)), "; ".join(map(str, answer.found))
        if not Search(claim.network, pattern, program).matches(answer.found):
            script = f"not confirmed: {script}"
    elif answer.is_all:
        none = "none of any length"
    last = f" and calm {pattern.calm.rounds}" if pattern.calm.rounds and shortest else ""
    return f"| {claim.name} | {claim.where} | {len(what.events) - len(CALMS)} | {none} | {shortest}{last} | {states:,} | {steps:,} | {f'`{script}`' if script else ''} |"


# ---- what long calms make of states

RESTS = [("plain mailboxes", TWO_PLAIN, 7), ("two IMPs", TWO, 5), ("two IMPs, raw", TWO_RAW, 6), ("plain mailboxes, raw", MAILBOXES, 40)]


def rests() -> Iterator[str]:
    """The rows of kinds of states that a long calm doesn't bring to rest, or leaves stuck."""
    for where, network, depth in RESTS:
        what = asked(network, NOTHING, depth)
        answer = fast.searched(what, options=["--calms"])
        length = "any" if answer.is_all else f"up to {answer.whole}"
        states = answer.levels[-1].states
        for it in sorted(answer.classes, key=lambda it: (len(it.script), it.label)):
            yield f"| {where} | {length} | {it.count:,} of {states:,} | {it.label} | `{'; '.join(map(str, it.script))}` |"
        if not answer.classes:
            yield f"| {where} | {length} | none of {states:,} | | |"


# ---- the page


def page(program: Program) -> str:
    """The page of all that."""
    claims = [row_of(it, program) for it in CLAIMS]
    return "\n".join(
        [
            "# The shortest scripts",
            "",
            "`./check shortest --write` has written this page. The searches are those of [the explorer](../python.md#the-explorer). The plain program in `tools/plain`, of which nothing is proved, has looked at all lists of their events and of calms of 1, 2, 3 and 5 rounds, state by state, and the program has confirmed each script.",
            "",
            "| Search | Network | Events beside calms | Of these | The shortest has | States | Steps | Script |",
            "|---|---|---|---|---|---|---|---|",
            *claims,
            "",
            "## What a long calm leaves",
            "",
            "The same program has looked what 200 rounds make of every state that lists of these lengths lead to. *No rest*: something still crosses in the last rounds, in which these lines come. *Only a new contact frees a pair*: all is up and at rest, and nothing is without an answer, but a host waits for the reply to its reset. No state was a lockup: with everything up and at rest no packet was held.",
            "",
            "| Network | Events | States | What they are | The shortest script |",
            "|---|---|---|---|---|",
            *rests(),
            "",
        ]
    )


# ---- beside the trace

LEFT, RIGHT = TWO_PLAIN.hosts()
CONNECTED = (Contact(LEFT, RIGHT), Calm(2), Listen(RIGHT, 33, 8), OpenReceive(LEFT, RIGHT, 16, 33), Calm(2))
BESIDE = {
    "plain mailboxes, raw": asked(MAILBOXES, NOTHING, 6, CALMS[:1]),
    "two IMPs, raw": asked(TWO_RAW, NOTHING, 4, CALMS[:1]),
    "plain mailboxes": asked(TWO_PLAIN, NOTHING, 4, CALMS[:2]),
    "plain mailboxes with a connection": asked(TWO_PLAIN, NOTHING, 3, CALMS[:1], opening=CONNECTED),
    "two IMPs": asked(TWO, NOTHING, 3, CALMS[:1]),
}


def walks(program: Program) -> dict[str, Beside]:
    """All states of five networks, by the trace."""
    return {where: walked(what, program) for where, what in BESIDE.items()}


def beside(by_trace: dict[str, Beside], finder: str) -> list[str]:
    """How the states of the plain program differ from those of the trace."""
    found = []
    for where, walk in by_trace.items():
        try:
            wrong = differences(BESIDE[where], walk, finder)
        except CannotRun as why:
            wrong = [str(why)]
        found += [f"{where}: {it}" for it in wrong]
    return found


# ---- planted faults

IS_UP = "            return Err(Refusal::IsUp);"
PLANTED = {
    "two phases of a reset are spelled alike": ("pair.rs", "to.extend([self.phase.code(), self.owed as u8]);", "to.extend([self.phase.code().min(4), self.owed as u8]);"),
    "answers that wait aren't spelled": ("boxes.rs", "                answer.spell(to);\n                flow.spell(to);", "                let _ = (answer, flow);"),
    "whether a host is up isn't spelled": ("boxes.rs", "            found.is_up.spell(to);\n", ""),
    "whether an end of a line is up isn't spelled": ("imp.rs", "            port.is_down.spell(to);\n", ""),
    "frames that only acknowledge are left out": (
        "subnet.rs",
        "            live.len().spell(to);\n            live.iter().for_each(|it| it.spell(INFINITE, to));",
        "            live.iter().filter(|it| !matches!(it.content, Content::Acknowledgements)).for_each(|it| it.spell(INFINITE, to));",
    ),
    "a place in the log is part of a state": ("world.rs", "        self.carrier.spell(to);\n", "        self.carrier.spell(to);\n        self.past.spell(to);\n"),
    "a close that is refused changes the byte size": ("program.rs", "        if end.close_asked || end.close_taken {\n", "        if end.close_asked || end.close_taken {\n            end.size ^= 1;\n"),
    "a start of a host that is up is refused, and loses its answers": ("boxes.rs", IS_UP, f"            self.known(host).answers.clear();\n{IS_UP}"),
}


def planted(program: Program) -> list[str]:
    """Faults that aren't found."""
    missed, by_trace = [], walks(program)
    for name, (file, before, after) in PLANTED.items():
        with tempfile.TemporaryDirectory() as room:
            sources = Path(room) / "plain"
            shutil.copytree(f"{ROOT}/tools/plain", sources)
            text = (sources / file).read_text(encoding="utf-8")
            if text.count(before) != 1:
                return [f"{name}: tools/plain/{file} has its place {text.count(before)} times"]
            (sources / file).write_text(text.replace(before, after), encoding="utf-8")
            fast.build(sources, Path(room) / "built" / "plain", "-Copt-level=0")
            found = beside(by_trace, f"{room}/built/plain")
        print(f"check shortest: planted: {name}: {found[0] if found else 'not found'}", flush=True)
        missed += [] if found else [name]
    return missed


def main() -> int:
    words = Words(__doc__).flag("write", "write the page of what is found")
    asked = words.flag("planted", "try whether planted faults of the search are found, and no more").asked()
    path = os.environ.get("DORYDATE_PROGRAM") or any_program()
    if path is None:
        print("check shortest: there is no program of these sources: ./build makes it")
        return 1
    os.environ["DORYDATE_PROGRAM"] = path
    program = Program(path)
    try:
        finder = fast.finder()
    except CannotRun as why:
        if shutil.which("rustc"):
            print(f"check shortest: {why}")
            return 1
        lacking("shortest", "all of it", "rustc")
        return 0
    if asked.planted:
        missed = planted(program)
        print(f"check shortest: {len(PLANTED)} planted faults, {len(missed)} not found")
        return 1 if missed else 0
    by_trace = walks(program)
    wrong = beside(by_trace, finder)
    if wrong:
        wrong += [f"{where}: {it}" for where, walk in by_trace.items() for it in spelled_apart(BESIDE[where], walk, finder)]
    print("check shortest: states by the trace and by the plain program:", ", ".join(f"{where}: {len(walk.states)}" for where, walk in by_trace.items()), flush=True)
    made = page(program)
    if asked.write:
        Path(PAGE).write_text(made, encoding="utf-8")
    elif not os.path.isfile(PAGE) or Path(PAGE).read_text(encoding="utf-8") != made:
        wrong.append("docs/measured/shortest.md is not what is found: ./check shortest --write")
    wrong += [it for it in made.splitlines() if "not confirmed" in it]
    print(*[f"check shortest: {it}" for it in wrong], f"check shortest: {len(CLAIMS)} claims, {len(wrong)} faults", sep="\n")
    return 1 if wrong else 0

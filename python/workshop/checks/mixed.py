"""Random worlds with strangers in the model: what hosts with programs keep among each other, and toward strangers.

Each world is judged in two ways. The lives between hosts with programs are judged as they are, at the end of each run
and after each event of some. And the same moments happen again without the strangers, in a world all of whose hosts run
the program: there the same has to cross, each program has to be the same but for its pairs with strangers, the lives
have to be the same, and the book has to keep everything that is promised of any book. Programs that mix up their peers
have to be found by this, and one that does so without any harm must not break the promise.

Beside that each world has to keep what is promised toward a stranger (`workshop.checks.toward`); what is promised among
programs only, some world has to break there.
"""

from __future__ import annotations

from collections import Counter
from typing import NamedTuple

from workshop.checks.broken import Broken, broken, broken_book, runs_that_keep
from workshop.checks.toward import CLAUSES, STRONGER, Clause, Watching, broken_toward
from dorydate.model.chance.strangers import mixed_script
from dorydate.model.crossings import Passed
from dorydate.model.host import Host
from dorydate.model.leaks import HARMLESS, LEAKS, MISTAKES
from dorydate.model.mailboxes import first_break
from dorydate.model.names import spell_host
from dorydate.model.runs import opened_carrier
from dorydate.model.strangers import Asked, MixedWorld, Unsaid, differs, ends_of, masked
from dorydate.model.topology import Topology

CLOSELY = 10  # of this many runs one is judged after each event
TRIES = 300  # at most this many runs have to find a program that mixes up its peers


class Ran(NamedTuple):
    """A random run: what is broken, its network and script, and what it came to."""

    part: str | None
    network: Topology
    lines: list[str]
    counts: Counter[str]


def broken_among(world: MixedWorld) -> str | None:
    """What the lives between hosts with programs break, None where they keep all."""
    log, lives = world.carrier.log, world.lives_among()
    if first_break(world.carrier.hosts(), log) is not None:
        return "the mailboxes"
    if part := broken_book(log, lives, world.strangers):
        return part
    peers = {notice.split(" ")[1] for _, notice, _ in world.book.notices if notice.startswith("error ")}
    if peers - {spell_host(it) for it in world.strangers}:
        return "an error"
    return world.judged()


def broken_masked(world: MixedWorld) -> str | None:
    """What differs without the strangers, or what is broken there."""
    try:
        alone = masked(world)
    except Unsaid as unsaid:
        return f"what happens without strangers: {unsaid}"
    if part := differs(world, alone):
        return f"{part}, which differ without strangers"
    return broken(alone)


def counted(world: MixedWorld) -> Counter[str]:
    """What a mixed world came to."""
    counts = Counter[str]()
    for moment in world.moments:
        counts["moments"] += 1
        if isinstance(moment, Asked):
            counts["requests about a stranger"] += moment.is_strange
        elif {*ends_of(moment)} & world.strangers:
            counts["crossings of a stranger"] += 1
            if isinstance(moment, Passed) and moment.flow.source in world.strangers:
                is_taken = moment.kind == "in" and moment.flow.destination not in world.strangers
                counts["messages of a stranger"] += moment.kind == "out"
                counts["messages of a stranger that a program took"] += is_taken
    among = world.lives_among()
    counts["lives among programs"] = len(among)
    counts["lives among programs with data"] = sum(1 for life in among if life.bits)
    counts["lives toward strangers"] = len(world.book.lives) - len(among)
    return counts


def run(seed: int, host_program: type[Host] = Host) -> Ran:
    """A random run, of which some are judged after each event."""
    network, script, world = mixed_script(seed, host_program)
    part = broken_among(world) or broken_toward(world) or broken_masked(world)
    ran = Ran(part, network, script.lines, counted(world) + world.tried)
    if ran.part or seed % CLOSELY or host_program is not Host:
        return ran
    again = Watching(opened_carrier(network), world.strangers, world.takes)
    for at, event in enumerate(script.events):
        again.happen(*event)
        if part := broken_among(again) or again.spread or broken_toward(again):
            return ran._replace(part=part, lines=script.lines[: at + 1])
    return ran


def is_found(leak: type[Host]) -> bool:
    """Whether a program that mixes up its peers is found."""
    return any(run(seed, leak).part for seed in range(TRIES))


def is_harmful(leak: type[Host]) -> bool:
    """Whether such a program breaks the promise itself, and doesn't only keep other things than the right one."""
    return any(broken_among(mixed_script(seed, leak)[2]) for seed in range(TRIES))


def is_needless(stronger: Clause) -> bool:
    """Whether no world shows that this isn't promised toward a stranger."""
    return all(stronger.keeps(mixed_script(seed)[2]) for seed in range(TRIES))


def check(runs: int) -> int:
    """The exit status."""
    if missed := [it.__doc__ for it in (*LEAKS, *MISTAKES) if not is_found(it)]:
        print("check worlds: no mixed world shows these programs to differ from the right one:", *missed, sep="\n")
        return 1
    if is_harmful(HARMLESS):
        print(f"check worlds: a program that should do no harm breaks the promise: {HARMLESS.__doc__}")
        return 1
    if held := [it.name for it in STRONGER if is_needless(it)]:
        print("check worlds: no mixed world breaks toward a stranger what isn't promised there:", *held, sep="\n")
        return 1
    try:
        came_to = sum((it.counts for it in runs_that_keep("mixed run", runs, run)), Counter[str]())
    except Broken as why:
        print(f"check worlds: {why}")
        return 1
    wrong = f"{len(LEAKS)} programs that mix up their peers and {len(MISTAKES)} that ask wrongly"
    print(f"check worlds: {wrong}, each found, and one that does no harm")
    for kind, count in sorted(came_to.items()):
        print(f"check worlds: {kind}: {count}")
    print(f"check worlds: {len(CLAUSES)} clauses toward strangers, all kept; {len(STRONGER)} others, each broken")
    print(f"check worlds: {runs} mixed runs, and hosts with programs keep the promise among each other")
    return 0

"""What ./explain says of the inside of subnets: by hand, by the program's output, and by doing what it says."""

from __future__ import annotations

import re
from collections import Counter
from contextlib import AbstractContextManager
from unittest import mock

from dorydate.model.chance.subnets import Chance
from dorydate.explain import frames
from dorydate.explain.charts import chart, short_chart
from dorydate.explain.command import drawn
from dorydate.given import Input
from dorydate.explain.inside import Inside, Told
from dorydate.explain.runs import replay
from dorydate.sentences.events import REFUSALS
from dorydate.sentences.texts import text_in_words
from dorydate.model.forks import forked
from dorydate.model.imp import Imp
from dorydate.model.script import Event, read_event
from dorydate.model.subnet import Subnet
from dorydate.model.topology import Topology, spelled
from dorydate.program import Program
from workshop.checks.explain_given import Wrong, events_of, example, line_of, same, told
from workshop.checks.explain_rows import DRAWN, INSIDES, LOST, NOT_OPEN, PLAIN_PAIR, RAW_PAIR, READY_PAIR, REPEAT, STALLS, TEXTS, THROWN_AWAY

PAIR = Topology("subnet", True, [(1, 1), (2, 1)], [(1, 2)])


def check_rows(program: Program) -> None:
    """What is written by hand of events of the examples, of charts and of texts."""
    for name, number, words in INSIDES:
        lines = told(example(name), program)
        (at,) = [at for at, line in enumerate(lines) if re.match(f" *{number}  ", line)]
        after = lines[at + 1 :]
        end = next((k for k, line in enumerate(after) if not line.startswith("    ")), len(after))
        same(words in " ".join(after[:end]), True, f"{name}, line {number}: {after[:end]}")
    for script, words in NOT_OPEN:
        last = told(Input(f"{READY_PAIR}{chr(10).join(script)}\n".encode()), program)[-3:]
        same(("refused NotOpen" in last[0], words in last[1]), (True, True), f"{script}: {last}")
    for name, is_short, arrow in DRAWN:
        picture = drawn(example(name), replay(example(name), program), short_chart if is_short else chart)
        same(f"    {arrow}" in picture.splitlines(), True, f"the chart of {name} has {arrow}")
    for link, octets, words in TEXTS:
        same(text_in_words(link, bytes.fromhex(octets), 4 * len(octets)), words, f"the text {octets}")


def check_inside(program: Program, seeds: int) -> None:
    """The independent model beside the program on random events, each with sentences; what is refused is cleared as they say."""
    check_rows(program)
    found, cleared = Counter[str](), 0
    for seed in range(seeds):
        chance = Chance(seed, False)
        network = Topology("subnet", True, chance.imps, chance.ends)
        goes = Inside(network)
        if isinstance(goes.carrier, Subnet):
            chance.subnet = goes.carrier
        lines: list[str] = []
        outputs: list[list[str]] = []
        for event in (it for it in (chance.event() for _ in range(60)) if it[0] != "alive"):
            said = goes.happen(event)
            lines.append(line_of(event))
            outputs.append(said.printed)
            found["silent"] += not said.printed
            same(bool(said.sentences) or bool(said.printed) or event[0] == "calm", True, f"network {seed}: a sentence for {lines[-1]}")
            if said.printed and said.printed[-1].startswith("refused "):
                found[said.printed[-1]] += 1
                same(bool(said.sentences), True, f"network {seed}: a sentence for {lines[-1]}, {said.printed}")
                cleared += clears(goes, event, said)
        given = Input("\n".join([spelled(network), "%", *lines]).encode())
        same([it.printed for it in events_of(given, program)], outputs, f"network {seed}")
    wanted = {f"refused {it}" for it, who in REFUSALS.items() if who == "carrier" and it not in ("Unsettled", "NoRoom")}
    same(wanted - {*found}, set(), "refusals that come about")
    print(f"check explain: {found.total()} events in subnets that print nothing or are refused, each with sentences; {cleared} refused ones cleared as they say")


def clears(goes: Inside, event: Event, said: Told) -> int:
    """Does what the sentences about a refused event say, again and again, until it is refused for this cause no more."""
    refusal = said.printed[-1]
    if refusal.split(" ")[1] not in ("StillAlive", "Unsettled", "Blocked", "NoRoom"):
        return 0
    goes = forked(goes)
    for _ in range(400):
        named = re.findall("`([^`]*)`", " ".join(said.sentences))
        same(bool(named), True, f"an event that clears {line_of(event)}: {said.sentences}")
        done = goes.happen(read_event(named[-1]))
        same([it for it in done.printed if it.startswith("refused ")], [], f"the event {named[-1]}, which is named for {line_of(event)}")
        said = goes.happen(event)
        if said.printed[-1:] != [refusal]:
            return 1
    raise Wrong(f"{line_of(event)} stays {refusal} after 400 events")


# ---- packets with the channel's other bit


def check_thrown_away() -> None:
    """Which packets with the other bit came before and which are lost; and three wrong ways to judge that are found."""
    same(wrongly_judged(), [], "packets with the channel's other bit")
    end_down, impup = Imp.end_down, Subnet.impup

    def since_the_reset(imp: Imp, port: int) -> None:
        imp.ports[port].accepted = set()
        end_down(imp, port)

    def over_a_restart(subnet: Subnet, number: int) -> None:
        were = [(port, port.accepted) for imp in subnet.imps.values() if imp is not None for port in imp.ports]
        impup(subnet, number)
        for port, accepted in were:
            port.accepted = accepted

    planted: dict[str, AbstractContextManager[object]] = {
        "the bit in place of the packet": mock.patch.object(frames, "thrown_away", lambda *_: REPEAT),
        "since the reset in place of ever": mock.patch.object(Imp, "end_down", since_the_reset),
        "numbers that another IMP counts anew": mock.patch.object(Subnet, "impup", over_a_restart),
    }
    for what, fault in planted.items():
        with fault:
            same(wrongly_judged() != [], True, f"a planted fault: {what}")
    print(f"check explain: {len(THROWN_AWAY)} packets with the channel's other bit, repeated or lost ({LOST}); {len(planted)} planted faults found")


def wrongly_judged() -> list[tuple[str, list[str]]]:
    """Those of which something else is said."""
    found: list[tuple[str, list[str]]] = []
    for what, words, script in THROWN_AWAY:
        goes = Inside(PAIR)
        said = [goes.happen(read_event(it)) for it in script]
        if words not in " ".join(said[-1].sentences):
            found.append((what, said[-1].sentences))
    return found


# ---- a full store, and networks at rest


def check_full_store(program: Program) -> None:
    """An IMP whose store is full refuses, and says what makes room."""
    script = ["calm 1", *(f"out 0/1 0/2 {link} 8063 {'00' * 1008}" for link in range(2, 7))]
    goes = Inside(PAIR)
    said = [goes.happen(read_event(it)) for it in script]
    same(said[-1].printed, ["refused NoRoom"], "a fifth message of eight packets")
    same("IMP 1 holds 32 packets in its store and channels, 32 at most, and the message has 8." in said[-1].sentences, True, said[-1].sentences)
    clears(goes, read_event(script[-1]), said[-1])
    script.append("ask 0/1 0/2 2")
    said.append(goes.happen(read_event(script[-1])))
    same(said[-1].printed, ["refused NoRoom"], "a question where there is no room for it")
    same("IMP 1 holds 32 packets in its store and channels, 32 at most, and the question is one." in said[-1].sentences, True, said[-1].sentences)
    clears(goes, read_event(script[-1]), said[-1])
    given = Input("\n".join([spelled(PAIR), "%", *script]).encode())
    same([it.printed for it in events_of(given, program)], [it.printed for it in said], "a full store")


def check_stalls(program: Program) -> None:
    """What a network at rest waits for is said after a calm, and nothing where nothing waits."""
    for kind, script, words in STALLS:
        given = Input(((PLAIN_PAIR if kind == "plain" else RAW_PAIR) + "\n".join(script) + "\n").encode())
        last = "\n".join(told(given, program)).split("calm ")[-1]
        same("this waits" in last, words is not None, last)
        same((words or "") in last, True, last)
    print(f"check explain: {len(STALLS)} networks at rest, each with what waits")

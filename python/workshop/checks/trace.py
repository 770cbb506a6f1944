"""Traces of raw networks: what they leave out (a minute for 300 scripts over mailboxes and 300 over subnets): ./check trace [RUNS]

The traces of all examples over raw networks, and of random scripts, as the model has them from docs/trace.md:

- The program prints the same trace with `--trace`, where one is kept that traces this carrier; what it doesn't trace it refuses.
- The column of events is itself a script: it prints the same again, in the model, and by the program, where one is kept; and it
  comes to the same parts.
- The lines that are given as printed are, one after the other, what the script prints.
- An event's parts are those that are other than before: who puts them in the place of the old ones has all parts, and none is as it was.
- The trace leaves nothing out: networks made anew from its first line and their parts, in the middle of a script, continue alike:
  they print the same and come to the same parts.
- What has crossed is what is printed, and what becomes of frames is what their parts show.
- The worked examples of docs/trace.md are what the model has.
- Each line is an object of JSON, in which no member is twice.
- Of 256 flows a line has only those that change: the trace of a message on each link has at most 6 million octets.
- Of networks with host programs, examples and as many random scripts, and as many with strangers: see trace_worlds.

Then rules are broken in turn, and some script has to show it: events left out of a calm or given as one, parts that changed and are not
named, parts compared with another state than the one before, values left out of the texts of parts, lines left out of the first line, and other fates of frames; and of networks with host programs
traces in another order, without an RRP that is owed, without a service, and without others of what they tell have to be found wrong.
"""

from __future__ import annotations

import json
import os
import random
import subprocess
from collections import Counter
from collections.abc import Callable, Container, Iterable, Iterator, Sequence
from contextlib import AbstractContextManager, contextmanager
from glob import glob
from itertools import count
from typing import Any

from dorydate.model import trace as trace_model
from dorydate.model import trace_subnet
from dorydate.model.chance.inputs import some_network, some_script
from dorydate.model.chance.questions import Questions
from dorydate.model.chance.subnets import Chance
from dorydate.model.crossings import Carrier
from dorydate.model.runs import network_is_good, opened_carrier
from dorydate.model.script import BadLine, Event, read_line
from dorydate.model.subnet import Subnet
from dorydate.model.topology import Topology, network_of
from dorydate.model.topology import spelled as spelled_network
from dorydate.model.trace import OF_BOXES, OF_SUBNET, Traced, all_parts, ends_trace, fold_in, made_of
from dorydate.model.trace import network_in, opening, parts_of, spelled, text, traced
from dorydate.model.trace_subnet import OF_FLOWS, flow_named, home
from dorydate.model.trace_values import Object
from dorydate.model.trace_world import ends_world
from workshop.checks import trace_worlds
from workshop.parts import ROOT
from workshop.words import Words

RUNS = 300
MOST_TRIED = 600  # this many scripts are run to find that a rule is broken
ANEW = 2  # so often a network is made anew in a script
EVENTS = 80  # of a script about the frames of a subnet
MOST_ROUNDS = 20_000  # of the calms of a stored script that is traced
MOST_OCTETS = 6_000_000  # of the trace of a message on each link
UNTRACED = {"plain": "first-message", "subnet": "three-imps-in-a-row"}  # an example of each carrier


Records = list[Object]
Change = Callable[[Any], Any]
Script = tuple[Topology, list[str]]
Broken = Callable[[], AbstractContextManager[None]]  # puts another rule in the place of one, for a while


class Wrong(Exception):
    """Something that a trace should be and isn't."""


def parted(octets: bytes) -> tuple[str, list[str]]:
    lines = octets.decode("latin-1").split("\n")
    marker = lines.index("%")
    return "\n".join(lines[:marker]), lines[marker + 1 :]


def after(place: Carrier, lines: Iterable[str]) -> Carrier:
    """What is there after lines of a script."""
    for event in filter(None, map(read_line, lines)):
        place.happen(*event)
    return place


def held_up(network: Topology, lines: Sequence[str]) -> tuple[Records, list[str]]:
    """Looks at the trace of a script, and gives what it says and what the script prints."""
    records = [*traced(opened_carrier(network), lines)]
    whole = after(opened_carrier(network), lines)
    owed, last = whole.printed, all_parts(whole)
    if any(record["event"].startswith("calm") for record in records):
        raise Wrong("a calm is told as one event")
    if [line for record in records for line in record["printed"]] != owed:
        raise Wrong("other lines are told as printed")
    fates_are_shown(network, records)
    first = json.loads(text(trace_model.opening(network, opened_carrier(network))))
    replayed, kept = followed(network, first["parts"], records)
    if replayed.printed != owed:
        raise Wrong("the column of events prints other lines")
    if all_parts(replayed) != last:
        raise Wrong("the column of events comes to other parts")
    for place, parts in kept:
        begins_anew(network_in(first), parts, records[place:], last)
    return records, owed


def as_printed(it: Object) -> str:
    """The line that is printed for what crossed."""
    return " ".join(trace_worlds.as_logged(it).split(" ")[:5]).replace("nottaken", "incomplete")


UNCHANGED = {"impdown", "enddown", "noroom"}  # what becomes of frames that change nothing
NOTED = {"whole": "waits", "unmarked": "never", "dead": "dead", "never": "never"}  # the fate that an IMP notes with that of a frame


def fates_are_shown(network: Topology, records: Records) -> None:
    """Whether crossings are those that are printed, and frames become what the parts show."""
    parts = json.loads(json.dumps(all_parts(opened_carrier(network))))
    for record in records:
        if [as_printed(it) for it in record["crossed"]] != [it for it in record["printed"] if not it.startswith("refused ")]:
            raise Wrong("the crossings are not those of the lines")
        if ("fate" in record) != (record["event"].startswith("deliver ") and not record["printed"]):
            raise Wrong("a frame that arrives has no fate, or another event has one")
        before = dict(parts)
        fold_in(parts, record["parts"])
        if "fate" in record and not is_shown(record["fate"], reached(network, record["event"]), before, parts):
            raise Wrong(f"the parts do not show that a frame is `{record['fate']}`")


def reached(network: Topology, event: str) -> str:
    """The name of the IMP at the far end of the line on which a frame arrives."""
    _, line, way, _ = event.split(" ")
    return f"imp {network.lines[int(line)]['-+'.index(way)]}"


def is_shown(fate: str, name: str, before: Object, after: Object) -> bool:
    """Whether all parts before and after a frame's arrival at an IMP show what became of it."""
    if fate in UNCHANGED:
        return before == after
    was, now = of_imp(before, name), of_imp(after, name)
    if not was or not now:
        return False
    is_accepted = [it["expected"] for it in was["ports"]] != [it["expected"] for it in now["ports"]]
    if is_accepted != (fate not in ("acks", "distances", "repeat")):
        return False
    match fate:
        case "piece":
            return bool(now["slots"] != was["slots"])
        case "whole":
            return sum(len(it["messages"]) for it in now["hosts"]) == 1 + sum(len(it["messages"]) for it in was["hosts"])
        case "dead" | "never" | "unmarked":
            return any(was["kept"].get(flow) != it and it["fate"] == NOTED[fate] for flow, it in now["kept"].items())
        case "answer":
            return outstanding(was["source"]) == 1 + outstanding(now["source"])
    same = "hosts", "slots", *OF_FLOWS
    return all(now[key] == was[key] for key in [*same, *([] if fate == "distances" else ["routes"])])


def of_imp(parts: Object, name: str) -> Object:
    """What the parts have of an IMP that is up: its own keys, and under `source` and `kept` its flows. Else nothing."""
    own = {it: part for it, part in parts.items() if flow_named(it) and home(it) == name}
    flows = {kind: {it: part for it, part in own.items() if it.startswith(kind)} for kind in OF_FLOWS}
    return {**parts[name], **flows} if parts[name] else {}


def outstanding(sources: Object) -> int:
    """How many flows have a message without an answer."""
    return sum(it["state"] == "outstanding" for it in sources.values())


def followed(network: Topology, opening_parts: Object, records: Records) -> tuple[Carrier, list[tuple[int, Object]]]:
    """What is there after the column of events, and the parts as the records have them: in some places, and in the end."""
    chance = random.Random(len(records))
    places = {*chance.sample(range(len(records)), min(ANEW, len(records))), len(records) - 1}
    kept: list[tuple[int, Object]] = []
    replayed, parts = opened_carrier(network), {**opening_parts}
    if parts != all_parts(replayed):
        raise Wrong("the first line has other parts")
    for place, record in enumerate(records):
        after(replayed, [record["event"]])
        if any(parts.get(name, None if flow_named(name) else "") == part for name, part in record["parts"].items()):
            raise Wrong("a part is named that is as it was")
        fold_in(parts, record["parts"])
        if place in places:
            if parts != all_parts(replayed):
                raise Wrong("a part changed that isn't named, or another one is named")
            kept.append((place + 1, json.loads(json.dumps(parts))))
    return replayed, kept


def begins_anew(network: Topology, parts: Object, rest: Records, last: Object) -> None:
    """Whether a network made from the first line and parts continues as the trace does, and has the same parts in the end."""
    try:
        other = made_of(network, parts)
    except (ValueError, IndexError):
        raise Wrong("no network has these parts") from None
    if all_parts(other) != parts:
        raise Wrong("a network made from parts has other parts")
    if after(other, [record["event"] for record in rest]).printed != [line for record in rest for line in record["printed"]]:
        raise Wrong("a network with these parts goes on in another way")
    if all_parts(other) != last:
        raise Wrong("a network with these parts comes to other parts")


# ---- the program


def kept_program() -> str | None:
    """The program of the present sources, proved or not, where one is kept: this check has none built."""
    path = subprocess.run([f"{ROOT}/tools/kept-program"], stdout=subprocess.PIPE, text=True, check=True).stdout.strip()
    return next((it for it in (path, f"{path}-unproved") if os.path.isfile(it)), None)


def program_prints(program: str, document: str, lines: Sequence[str], *options: str) -> list[str]:
    ran = subprocess.run([program, *options], input="\n".join([document, "%", *lines, ""]).encode("latin-1"), stdout=subprocess.PIPE, check=True)
    return ran.stdout.decode().splitlines()


def same_by_program(program: str | None, document: str, records: Records, owed: Sequence[str]) -> None:
    """Whether the program prints for the column of events what the model prints for the script."""
    if program and program_prints(program, document, [record["event"] for record in records]) != [*owed, "end"]:
        raise Wrong("the program prints other lines for the column of events")


def same_trace(program: str, network: Topology, document: str, lines: Sequence[str], records: Records) -> None:
    """Whether the program prints the trace of the model."""
    found = program_prints(program, document, lines, "--trace")
    if found != [text(it) for it in [opening(network, opened_carrier(network)), *records]]:
        raise Wrong("the program prints another trace")
    for line in found:
        trace_worlds.read_json(line)


def answer_to(program: str, octets: bytes) -> tuple[int, bool, str]:
    """How the program ends when it is asked for a trace, whether it prints one, and what it says."""
    ran = subprocess.run([program, "--trace"], input=octets, capture_output=True, check=False)
    return ran.returncode, ran.stdout != b"", ran.stderr.decode()


def what_it_traces(program: str | None) -> list[str]:
    """The carriers whose traces the program prints: it is asked for each with a small network."""
    asked = {carrier: f'carrier = "{carrier}"\nraw = true\n[[imp]]\nid = 1\nhosts = 1\n%\nhostdown 0/1\n' for carrier in UNTRACED}
    return [carrier for carrier, it in asked.items() if program and answer_to(program, it.encode())[0] == 0]


def refusals(program: str, traces: Sequence[str]) -> Iterator[str]:
    """What the program should refuse to trace and doesn't: carriers of which it has no traces."""
    for carrier, name in UNTRACED.items():
        with open(f"{ROOT}/examples/{name}", "rb") as file:
            if carrier not in traces and answer_to(program, file.read()) != (1, False, "arpasim: no trace of such a network\n"):
                yield f"the program does not refuse to trace examples/{name}"


def of_worlds(program: str | None, runs: int) -> tuple[str, list[str]]:
    """What was looked at in the traces of networks with host programs, and what is wrong in them."""
    if program is None or not trace_worlds.is_traced(program):
        return "no trace of networks with host programs", []
    count, wrong = trace_worlds.faults(program, runs)
    return f"{count} lines of traces of networks with host programs", wrong


# ---- scripts


def over_boxes(seed: int) -> Script:
    """A raw network of plain mailboxes and a script for it, which need not be good."""
    chance = random.Random(f"trace {seed}")
    network = some_network(chance)
    network = Topology("plain", True, *network[2:])
    lines = some_script(chance, network)
    for _ in range(3):
        lines.insert(chance.randrange(len(lines) + 1), f"calm {chance.choice([1, 1, 2, 3])}")
    return network, lines


def over_subnet(seed: int) -> Script:
    """A raw subnet and a script for it: every other one is about its frames, and the others about what became of messages."""
    if seed % 2:
        questions = Questions(f"trace {seed}", EVENTS)
        return questions.network, questions.lines
    chance = Chance(f"trace {seed}", False)
    lines = ["calm 2"]
    chance.subnet.happen("calm", 2)
    for event in (chance.event() for _ in range(EVENTS)):
        if event[0] != "alive":
            chance.subnet.happen(*event)
            lines.append(spelled(event))
    return Topology("subnet", True, chance.imps, chance.ends), lines


def by_chance(kind: Callable[[int], Script]) -> Iterator[tuple[Topology, str, list[str]]]:
    """Raw networks of a kind, and scripts for them."""
    for seed in count():
        network, lines = kind(seed)
        if network_is_good(network) and is_script(lines):
            yield network, spelled_network(network), lines


class Made:
    """Random scripts, each made once."""

    def __init__(self, kind: Callable[[int], Script]) -> None:
        self.more = by_chance(kind)
        self.made: list[tuple[Topology, str, list[str]]] = []

    def first(self, runs: int) -> Iterator[tuple[Topology, str, list[str]]]:
        """This many of them, the first ones."""
        for place in range(runs):
            if place == len(self.made):
                self.made.append(next(self.more))
            yield self.made[place]


def is_script(lines: Iterable[str]) -> bool:
    """Whether all lines are good."""
    try:
        for line in lines:
            read_line(line)
    except BadLine:
        return False
    return True


def stored() -> Iterator[tuple[str, str, list[str]]]:
    """The examples and cases that are raw networks and replay, but for calms too long to be traced: each round has its lines."""
    for folder in ("examples", "cases"):
        for path in sorted(glob(f"{ROOT}/{folder}/*.stdout")):
            with open(path.removesuffix(".stdout"), "rb") as file:
                octets = file.read()
            if b"raw = true" in octets and b"\n%\n" in octets:
                document, lines = parted(octets)
                if is_script(lines) and network_is_raw(document) and rounds_of(lines) <= MOST_ROUNDS:
                    yield path.removesuffix(".stdout"), document, lines


def rounds_of(lines: Sequence[str]) -> int:
    """The rounds of all calms of a script."""
    return sum(int(line.split(" ")[1]) for line in lines if line.startswith("calm "))


def network_is_raw(document: str) -> bool:
    """Whether a topology is that of a raw network."""
    try:
        network = network_of(document)
    except (KeyError, ValueError):
        return False
    return network.raw and network_is_good(network)


# ---- broken rules


@contextmanager
def put(place: Any, name: str, value: Any) -> Iterator[None]:
    """Another function in the place of one."""
    kept = place.__dict__[name]
    setattr(place, name, value)
    try:
        yield
    finally:
        setattr(place, name, kept)


def with_class(broken: type[Traced]) -> Broken:
    """Traces of another class."""
    return lambda: put(trace_model, "Traced", broken)


class CalmAtOnce(Traced):
    """A calm is one event."""

    def calm(self, numbers: tuple[int, int], rounds: int) -> Iterator[Object]:
        yield self.tell(numbers, 0, ("calm", rounds))


def not_told(kind: str) -> Broken:
    """An event is left out of the quiet rounds, and happens nevertheless."""

    class Without(Traced):
        def quiet_round(self) -> Iterator[Event]:
            for event in super().quiet_round():
                if event[0] == kind:
                    self.place.happen(*event)
                else:
                    yield event

    return with_class(Without)


def named_less(kind: str, leave: Callable[[int, str], bool]) -> Broken:
    """Of the parts of an event of a kind some are not named, which `leave` chooses by their places and names."""

    class Less(Traced):
        def tell(self, numbers: tuple[int, int], number_of_round: int, event: Event) -> Object:
            record = super().tell(numbers, number_of_round, event)
            if record["event"].split(" ")[0] == kind:
                record["parts"] = {name: part for at, (name, part) in enumerate(record["parts"].items()) if not leave(at, name)}
            return record

    return with_class(Less)


class AllNamed(Traced):
    """Parts are named that are as they were."""

    def changed(self, names: Sequence[str]) -> Object:
        super().changed(names)
        return parts_of(self.place, names)


class Opening(Traced):
    """Parts are compared with those at the opening."""

    def changed(self, names: Sequence[str]) -> Object:
        first, found = {**self.parts}, super().changed(names)
        self.parts = first
        return found


class TwoAgo(Traced):
    """Parts are compared with those before the event before."""

    def __init__(self, place: Carrier) -> None:
        super().__init__(place)
        self.before = {**self.parts}

    def changed(self, names: Sequence[str]) -> Object:
        before, self.before = self.before, {**self.parts}
        super().changed(names)
        return trace_model.changed(before, parts_of(self.place, names))


class GoneLeftOut(Traced):
    """A flow that is gone is left out."""

    def changed(self, names: Sequence[str]) -> Object:
        return {name: part for name, part in super().changed(names).items() if part is not None or not flow_named(name)}


COMPARED = {
    "parts are named that are as they were": with_class(AllNamed),
    "parts are compared with those at the opening": with_class(Opening),
    "parts are compared with those two events ago": with_class(TwoAgo),
}


def boxes_with(change: Callable[[str, Any], Any]) -> Broken:
    """Another text of a part of mailboxes, wherever it is given."""
    kept = OF_BOXES.part
    return lambda: put(OF_BOXES, "part", lambda boxes, name: change(name, kept(boxes, name)))


def queues_with(**changes: Change) -> Broken:
    return boxes_with(lambda name, part: part if name == "down" else {key: changes[key](it) if key in changes else it for key, it in part.items()})


def without_texts(messages: Records) -> Records:
    return [{**it, "bits": 0, "octets": ""} for it in messages]


def each_with(**values: Any) -> Callable[[Records], Records]:
    """Objects with other values."""
    return lambda many: [{**it, **values} for it in many]


def network_without(key: str) -> Broken:
    """A first line that leaves something of the network out."""
    return lambda: put(trace_model, "opening", lambda network, place: {**opening(network, place), key: []})


def fates_with(**others: str) -> Broken:
    """Other fates of frames in the place of some."""
    kept = OF_SUBNET.fate

    def fate(subnet: Subnet, event: Event) -> str | None:
        told = kept(subnet, event)
        return others.get(told, told) if told else None

    return lambda: put(OF_SUBNET, "fate", fate)


def subnet_with(kind: str, change: Callable[[Object], Object]) -> Broken:
    """Another text of an IMP or a line, wherever it is given."""
    kept = OF_SUBNET.part

    def part(subnet: Subnet, name: str) -> Object | None:
        told = kept(subnet, name)
        return {**told, **change(told)} if told and name.startswith(kind) else told

    return lambda: put(OF_SUBNET, "part", part)


def flows_with(kind: str, change: Callable[[str, Object], Object]) -> Broken:
    """Other parts in the place of each of a flow, wherever these are given."""
    kept = OF_SUBNET.flows

    def flows(subnet: Subnet, names: Container[str]) -> Object:
        found: Object = {}
        for name, part in kept(subnet, names).items():
            found |= change(name, part) if name.startswith(kind) else {name: part}
        return found

    return lambda: put(OF_SUBNET, "flows", flows)


def imps_with(key: str, change: Change) -> Broken:
    return subnet_with("imp", lambda imp: {key: [change(it) for it in imp[key]]})


def lines_with(change: Change) -> Broken:
    return subnet_with("line", lambda line: {way: change(frames) for way, frames in line.items()})


BOXES_BROKEN = {
    **COMPARED,
    "a calm traced as one event": with_class(CalmAtOnce),
    "the source of what came in is not named": named_less("take", lambda at, name: at > 0),
    "a queue in reverse": queues_with(messages=lambda it: it[::-1]),
    "messages without their texts": queues_with(messages=without_texts),
    "answers are not told": queues_with(answers=lambda it: []),
    "who is down is not told": boxes_with(lambda name, part: [] if name == "down" else part),
}
SUBNET_BROKEN = {
    **COMPARED,
    "a calm traced as one event": with_class(CalmAtOnce),
    "what is told to neighbours is left out of a calm": not_told("route"),
    "what is sent again is left out of a calm": not_told("resend"),
    "frames that are gone are left out of a calm": not_told("drop"),
    "of an IMP that sends its lines are not named": named_less("out", lambda at, name: name.startswith("line")),
    "of an IMP that a frame reaches its other lines are not named": named_less("deliver", lambda at, name: at > 1),
    "the IMP that a frame reaches is not named": named_less("deliver", lambda at, name: at == 0),
    "what neighbours said is left out": imps_with("routes", lambda heard: None),
    "distances are told as if all were 1": imps_with("routes", lambda heard: heard and dict.fromkeys(heard, 1)),
    "packets in channels are left out": imps_with("ports", lambda port: {**port, "sending": [{"bit": it["bit"]} for it in port["sending"]]}),
    "the bits of channels are left out": imps_with("ports", lambda port: {**port, "sending": each_with(bit=0)(port["sending"])}),
    "the bits that are expected are left out": imps_with("ports", lambda port: {**port, "expected": "0" * 8}),
    "ends that are down are told as up": imps_with("ports", lambda port: {**port, "up": True}),
    "hosts that are down are told as up": imps_with("hosts", lambda host: {**host, "up": True}),
    "numbers of messages that wait are left out": imps_with("hosts", lambda host: {**host, "messages": each_with(number=0)(host["messages"])}),
    "packets in the store are left out": subnet_with("imp", lambda imp: {"store": []}),
    "pieces in slots are left out": subnet_with("imp", lambda imp: {"slots": []}),
    "which message is outstanding is left out": flows_with("source", lambda name, it: {name: {**it, "state": "idle"}}),
    "numbers begun last are left out": flows_with("source", lambda name, it: {name: {**it, "number": 0}}),
    "numbers noted last are left out": flows_with("kept", lambda name, it: {}),
    "the fate of a message is left out": flows_with("kept", lambda name, it: {name: {**it, "fate": "waits"}}),
    "flows that are gone are left out": with_class(GoneLeftOut),
    "links of flows are the same": flows_with("source", lambda name, it: {f"{name.rpartition(' ')[0]} 0": it}),
    "the oldest frame of a line is left out": lines_with(lambda frames: frames[1:]),
    "frames are told in reverse": lines_with(lambda frames: frames[::-1]),
    "acknowledgements in frames are left out": lines_with(lambda frames: [{**it, "acks": "0" * 8} for it in frames]),
    "distances in frames are left out": lines_with(lambda frames: [{**it, "routes": {}} if "routes" in it else it for it in frames]),
    "the lines are left out of the first line": network_without("lines"),
    "an old packet is called a repeat": fates_with(old="repeat"),
    "a repeat is called old": fates_with(repeat="old"),
    "a stale answer is called one that counts": fates_with(stale="answer"),
    "an answer that counts is called stale": fates_with(answer="stale"),
    "a whole message is called a piece": fates_with(whole="piece"),
    "a piece for a host that is down is called old": fates_with(dead="old"),
    "a question about a new number is called answered": fates_with(never="replied"),
}  # fmt: skip


def is_found(broken: Broken, scripts: Made) -> bool:
    """Whether some script finds that a rule is broken."""
    with broken():
        for network, _, lines in scripts.first(MOST_TRIED):
            try:
                held_up(network, lines)
            except Wrong:
                return True
    return False


# ---- many flows


def on_each_link() -> Script:
    """A message and its RFNM on each link between two hosts, one after the other, in 2,304 events."""
    there, back = ["deliver 0 + 0", "drop 0 + 0", "take 0/2"], ["deliver 0 - 1", "drop 0 - 0", "drop 0 - 0"]
    lines = [it for link in range(256) for it in (f"out 0/1 0/2 {link} 8 41", *there, *back, "take 0/1", "drop 0 + 0")]
    return Topology("subnet", True, [(1, 1), (2, 1)], [(1, 2)]), ["calm 2", *lines]


def with_many_flows(program: str | None) -> Iterator[str]:
    """What is wrong with the trace of many flows."""
    network, lines = on_each_link()
    whole = ends_trace(network, lines)[1]
    if whole.count('"printed":["answer rfnm') != 256 or "refused" in whole:
        yield "there is no RFNM on each of 256 links"
    if program and program_prints(program, spelled_network(network), lines, "--trace") != whole.splitlines():
        yield "the program prints another trace of 256 flows"
    if len(whole) > MOST_OCTETS:
        yield f"the trace of a message on each of 256 links has {len(whole)} octets"
    with with_class(AllNamed)():
        if len(ends_trace(network, lines)[1]) <= MOST_OCTETS:
            yield "a trace with all flows in each line is no larger"


# ---- the document


def of_document() -> Iterator[tuple[list[str], list[str]]]:
    """The worked examples of docs/trace.md: inputs, each with the lines of its trace that follow it."""
    with open(f"{ROOT}/docs/trace.md", encoding="utf-8") as file:
        lines = file.read().splitlines()
    blocks: list[list[str]] = []
    block: list[str] = []
    for line in [*lines, ""]:
        if line.startswith("    "):
            block.append(line[4:])
        elif block:
            blocks.append(block)
            block = []
    given = [place for place, it in enumerate(blocks) if "%" in it]
    for place in given:
        behind = blocks[place + 1 : next((it for it in given if it > place), None)]
        yield blocks[place], [line for it in behind for line in it if line.startswith(('{"trace"', '{"line"'))]


def document_is_right() -> bool:
    """Whether the examples end as the model says: with these lines, and with no others where the first is of the first event."""
    examples = [*of_document()]
    for given, told in examples:
        marker = given.index("%")
        network = network_of("\n".join(given[:marker]))
        whole = (ends_trace if network.raw else ends_world)(network, given[marker + 1 :])[1].splitlines()
        if not told or whole[-len(told) :] != told or told[0].startswith('{"trace"') and whole != told:
            return False
    return len(examples) >= 3


def main() -> int:
    runs = Words(__doc__).count("runs", RUNS, "scripts over each carrier").asked().runs
    program, failed = kept_program(), 0
    counted: Counter[str] = Counter()
    fates: set[str] = set()
    traces = what_it_traces(program)
    boxes, subnets = Made(over_boxes), Made(over_subnet)
    every = [("a script by chance", *it) for kind in (boxes, subnets) for it in kind.first(runs)]
    every += [(path, network_of(document), document, lines) for path, document, lines in stored()]
    for name, network, document, lines in every:
        try:
            records, owed = held_up(network, lines)
            same_by_program(program, document, records, owed)
            if program and network.carrier in traces:
                same_trace(program, network, document, lines, records)
        except (Wrong, trace_worlds.WrongWorld, json.JSONDecodeError) as wrong:
            failed += 1
            print(f"check trace: {name}: {wrong}\n" + "\n".join([document, "%", *lines]))
            continue
        counted[f"{network.carrier} scripts"] += 1
        counted["events"] += len(records)
        counted["in calms"] += sum(record["round"] > 0 for record in records)
        counted["refused"] += sum(line.startswith("refused") for line in owed)
        fates |= {record["fate"] for record in records if "fate" in record}
    for rules, made in ((BOXES_BROKEN, boxes), (SUBNET_BROKEN, subnets)):
        for name in (name for name, broken in rules.items() if not is_found(broken, made)):
            failed += 1
            print(f"check trace: no script finds this: {name}")
    if missing := {*trace_subnet.FATES} - {"unmarked"} - fates:  # (no IMP sends a body without a mark)
        failed += 1
        print(f"check trace: no frame is {', '.join(sorted(missing))} in any script")
    if not document_is_right():
        failed += 1
        print("check trace: docs/trace.md has another trace than the model")
    looked_at, in_worlds = of_worlds(program, runs)
    of_flows = with_many_flows(program if "subnet" in traces else None)
    for words in [*in_worlds, *of_flows, *(refusals(program, traces) if program and traces else ())]:
        failed += 1
        print(f"check trace: {words}")
    scripts = f"{counted['plain scripts']} scripts over mailboxes and {counted['subnet scripts']} over subnets"
    by_program = f"the program traces {' and '.join(traces) or 'nothing yet'}" if program else "no program is kept, so none was asked"
    print(f"check trace: {scripts}, {counted['events']} elementary events, {counted['in calms']} of them in calms, {counted['refused']} refused; {len(BOXES_BROKEN) + len(SUBNET_BROKEN)} broken rules; {by_program}; {looked_at}; {failed} failed")
    return 1 if failed else 0

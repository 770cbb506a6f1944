"""What ./check trace says of networks with host programs: the program's trace is JSON, and its lines and crossings are those of a replay
and of its log. Where some hosts are strangers there is no log, and the crossings are those that are printed.

- A calm has its lines in the order of its rounds: one quiet round at most, which comes first; then of each host, in order, 16 takings at
  most and then 32 offers at most. By each something is printed or changed, a taking and an offer are of what crossed, and nothing is named
  that is as it was.
- The trace is that of the independent model, line by line, and who puts what a line has in the place of what was before has all that the
  model has then of network, programs and services.
- The column of events does the same again: in the model, where `quiet` is a quiet round of the network, and in the program where no line
  has one. `quiet` is no line of a script.
"""

from __future__ import annotations

import json
import random
import subprocess
from collections import Counter
from collections.abc import Callable, Container, Iterator, Sequence
from glob import glob
from itertools import count, groupby
from operator import itemgetter
from typing import Any

from dorydate.export.replayed import as_printed
from dorydate.model.chance.strangers import mixed_script, naming, perhaps_refused
from dorydate.model.chance.worlds import Script, some_world
from dorydate.model.runs import opened
from dorydate.model.script import Event, read_event, read_line
from dorydate.model.topology import Topology, network_of
from dorydate.model.topology import spelled as spelled_network
from dorydate.model.trace import fold_in, text
from dorydate.model.trace_subnet import flow_named
from dorydate.model.trace_values import Object
from dorydate.model.trace_world import KINDS, opening_of, state_of, traced_world
from dorydate.model.world import OFFERS, TAKES, World
from dorydate.printed import CROSSINGS
from workshop.parts import ROOT

MOST_ROUNDS = 400  # of calms in an example that the model follows
EVENTS = 40  # of a random script, about
MOST_IMPS = 16  # of a network that is looked at after each line, and event by event once more
MOST = {"quiet": 1, "take": TAKES, "offer": OFFERS}  # how many lines a round has at most: of takings and offers for each host

Records = list[Object]


class WrongWorld(Exception):
    """Something that the trace of a world should be and isn't."""


def examples() -> Iterator[tuple[str, bytes]]:
    """The inputs of examples whose hosts have programs, strangers beside them or not, by name."""
    for path in sorted(glob(f"{ROOT}/examples/*.stdout")):
        name = path.removesuffix(".stdout")
        with open(name, "rb") as file:
            octets = file.read()
        if b"raw = true" not in octets and not glob(f"{name}.status"):
            yield name.rsplit("/", 1)[1], octets


def random_inputs(runs: int) -> Iterator[tuple[str, bytes]]:
    """Random inputs, by name."""
    made = (Script(chance, some_world(chance), EVENTS) for chance in (random.Random(f"trace of worlds {seed}") for seed in count()))
    for number, script in zip(range(runs), made):
        yield f"random script {number}", input_of(script.network, script.lines)


def mixed_inputs(runs: int) -> Iterator[tuple[str, bytes]]:
    """Random inputs with strangers, by name. Each has a line that may be refused for what its host is."""
    for number in range(runs):
        network, script, world = mixed_script(f"traced {number}", most=EVENTS)
        chance = random.Random(f"refused {number}")
        script.lines.insert(chance.randrange(len(script.lines) + 1), perhaps_refused(chance, network))
        yield f"random script with strangers {number}", input_of(naming(network, world.strangers), script.lines)


def input_of(network: Topology, lines: Sequence[str]) -> bytes:
    """The input of a network and a script."""
    return "\n".join([spelled_network(network), "%", *lines, ""]).encode("latin-1")


def printed(program: str, octets: bytes, option: str = "--texts") -> list[str]:
    ran = subprocess.run([program, option], input=octets, stdout=subprocess.PIPE, check=True)
    return ran.stdout.decode("latin-1").splitlines()


def is_traced(program: str) -> bool:
    """Whether the program traces networks with host programs at all."""
    name, octets = next(examples())
    return subprocess.run([program, "--trace"], input=octets, capture_output=True, check=False).returncode == 0


def members_once(pairs: Sequence[tuple[str, Any]]) -> Object:
    """An object of JSON, of which no member is there twice."""
    if len(dict(pairs)) < len(pairs):
        raise WrongWorld(f"a member is there twice among {[name for name, _ in pairs]}")
    return dict(pairs)


def no_number(word: str) -> Any:
    """Python's reader takes some words for numbers, which JSON does not."""
    raise WrongWorld(f"{word} is no JSON")


def read_json(line: str) -> Object:
    """A line of a trace, read strictly."""
    found = json.loads(line, object_pairs_hook=members_once, parse_constant=no_number)
    if not isinstance(found, dict):
        raise WrongWorld("a line is no object")
    return found


def as_logged(it: Object) -> str:
    """The line of a log for what crossed."""
    match it["kind"]:
        case "out" | "in":
            return f"{it['kind']} {it['from']} {it['to']} {it['link']} {it['bits']} {it['octets'] or '-'}"
        case "down" | "up":
            return f"{it['kind']} {it['host']}"
    return f"answer {it['kind']} {it['from']} {it['to']} {it['link']}"


def held_up(program: str, octets: bytes) -> int:
    """Looks at the trace of an input, and gives how many lines it has."""
    document, script = octets.decode("latin-1").split("\n%\n", 1)
    network = network_of(document)
    first, *records = map(read_json, printed(program, octets, "--trace"))
    if (first["trace"], first["carrier"], first["raw"]) != (3, network.carrier, False):
        raise WrongWorld("the first line has another network")
    lines = [" ".join(it.split(" ")[:5]) if it.startswith(("out ", "in ")) else it for it in printed(program, octets)[:-1]]
    if [line for record in records for line in record["printed"]] != lines:
        raise WrongWorld("the lines are not those that are printed")
    told = [as_logged(it) for record in records for it in record["crossed"]]
    if (told if not network.foreign else [*map(as_printed, told)]) != crossings(program, octets, network):
        raise WrongWorld("the crossings are not those of the log")
    look_at(network, script.split("\n"), first, records)
    if all(it["event"] != "quiet" for it in records):
        happens_again(program, document, first, records)
    return len(records)


def crossings(program: str, octets: bytes, network: Topology) -> list[str]:
    """What crosses, by the log, or as it is printed where strangers have none."""
    lines = printed(program, octets, *([] if network.foreign else ["--log"]))
    return [it for it in lines if it.split(" ")[0] in CROSSINGS]


def look_at(network: Topology, lines: Sequence[str], first: Object, records: Records) -> None:
    """Whether a trace has the lines that the rounds of its script have, and those of the model, where that comes to the end."""
    in_order(network, lines, first, records)
    if sum(event[1] for _, event, _ in events_of(network, lines) if event[0] == "calm") <= MOST_ROUNDS:
        follow(network, lines, first, records)
        if len(network.imps) <= MOST_IMPS:
            by_events(network, first, records)


# ---- rounds


def events_of(network: Topology, lines: Sequence[str]) -> list[tuple[int, Event, str]]:
    """The events of a script, each with the number of its line, and its text."""
    told = ((line, read_line(it, False, strangers=bool(network.foreign)), it) for line, it in enumerate(lines, 1))
    return [(line, event, it) for line, event, it in told if event]


def in_order(network: Topology, lines: Sequence[str], first: Object, records: Records) -> None:
    """Whether each event has one line, and each calm those that its rounds may have; and nothing is named that is as it was."""
    events = events_of(network, lines)
    held: Object = {key: dict(first[key]) for key in KINDS}
    of_events = {number: [*them] for number, them in groupby(records, itemgetter("number"))}
    if [number for number, them in of_events.items() for _ in them] != sorted(it["number"] for it in records) or not {*of_events} <= {*range(1, len(events) + 1)}:
        raise WrongWorld("the lines are not in the order of their events")
    for number, (line, event, spelled) in enumerate(events, 1):
        mine = of_events.get(number, [])
        if any(it["line"] != line for it in mine):
            raise WrongWorld(f"event {number} is not of line {line}")
        if event[0] == "calm":
            is_a_calm(mine, event[1], [*first["programs"]], f"line {line}")
        elif [(it["round"], it["event"]) for it in mine] != [(0, spelled)]:
            raise WrongWorld(f"line {line} has no line of its own")
        for record in mine:
            put_in(held, record, f"line {line}, round {record['round']}")


def is_a_calm(records: Records, most: int, hosts: Sequence[str], where: str) -> None:
    """Whether lines may be those of a calm of this many rounds."""
    rounds = [(number, [*them]) for number, them in groupby(records, itemgetter("round"))]
    numbers = [number for number, _ in rounds]
    if numbers != sorted({*numbers}) or not {*numbers} <= {*range(1, most + 1)}:
        raise WrongWorld(f"the rounds of {where} are not in their order")
    for number, them in rounds:
        is_a_round(them, hosts, f"{where}, round {number}")


def is_a_round(records: Records, hosts: Sequence[str], where: str) -> None:
    """Whether lines may be those of a round: a quiet round, and then of each host takings and offers."""
    order = ["quiet", *(f"{kind} {host}" for host in hosts for kind in ("take", "offer"))]
    places = [order.index(it["event"]) if it["event"] in order else -1 for it in records]
    if -1 in places or places != sorted(places):
        raise WrongWorld(f"in {where} something else happens, or in another order")
    for event, times in Counter(it["event"] for it in records).items():
        if times > MOST[event.split(" ")[0]]:
            raise WrongWorld(f"in {where} there is `{event}` more often than a round has it")
    for record in records:
        kind, *of = record["event"].split(" ")
        if crossed_by(record) != ([] if kind == "quiet" else [(kind, *of)]):
            raise WrongWorld(f"in {where} `{record['event']}` is not of what crossed")
        if not record["printed"] and not any(record[key] for key in KINDS):
            raise WrongWorld(f"in {where} `{record['event']}` prints nothing and changes nothing")
        if not {*record["programs"], *record["services"]} <= {*of} or kind == "quiet" and record["printed"]:
            raise WrongWorld(f"in {where} `{record['event']}` is of another host, too")


def crossed_by(record: Object) -> list[tuple[str, str]]:
    """By which takings and offers something crossed."""
    ends = {"out": ("offer", "from"), "in": ("take", "to")}
    return [(kind, it.get(end, "")) for it in record["crossed"] for kind, end in [ends.get(it["kind"], ("take", "from"))]]


def put_in(held: Object, record: Object, where: str) -> None:
    """Puts what a record has in the place of what was there, which has to be something else."""
    for key in KINDS:
        for name, value in record[key].items():
            is_other = held[key][name] != value if name in held[key] else value is not None and flow_named(name)
            if not is_other:
                raise WrongWorld(f"in {where} there is {name} among the {key}, which is new or as it was")
        fold_in(held[key], record[key])


# ---- beside the model


def opened_world(network: Topology) -> World:
    """A world of the model at its opening."""
    world = opened(network)
    assert isinstance(world, World)
    return world


def follow(network: Topology, lines: Sequence[str], first: Object, records: Records) -> None:
    """Compares each line with that of the model, and the state after it with all that the model has."""
    world, held = opened_world(network), {key: dict(first[key]) for key in KINDS}
    same_line(opening_of(network, world), first)
    left = iter(records)
    for owed in traced_world(world, lines):
        record = next(left, None)
        where = f"line {owed['line']}, round {owed['round']}"
        if record is None or not same_place(owed, record):
            raise WrongWorld(f"in {where} `{owed['event']}` has no line of its own, or another event has one")
        same_line(owed, record)
        put_in(held, record, where)
        if len(network.imps) <= MOST_IMPS:
            same_state(world, held, where)
    same_state(world, held, "the last line")
    if next(left, None) is not None:
        raise WrongWorld("there are lines after the last")


def same_place(owed: Object, record: Object) -> bool:
    """Whether two lines are about the same event."""
    return all(owed[key] == record.get(key) for key in ("line", "number", "round", "event"))


def same_line(owed: Object, record: Object) -> None:
    """Whether a line is the one of the model, octet for octet."""
    for key, value in owed.items():
        found, wanted = text({key: record.get(key)}), text({key: value})
        if found != wanted:
            raise WrongWorld(f"in line {owed.get('line', 0)}, round {owed.get('round', 0)}, there is {found}, and {wanted} in the model")
    if [*owed] != [*record]:
        raise WrongWorld(f"a line has the keys {', '.join(record)}")


def same_state(world: World, held: Object, where: str) -> None:
    """Whether what is known by a trace is what the model has."""
    if {key: dict(it) for key, it in state_of(world).items()} != held:
        raise WrongWorld(f"after {where} the network, its programs or its services are other than those of the model")


def by_events(network: Topology, first: Object, records: Records) -> None:
    """Whether the column of events prints the same in the model and comes to the same."""
    world, held = opened_world(network), {key: dict(first[key]) for key in KINDS}
    for record in records:
        if record["event"] == "quiet":
            world.carry(world.carrier.quiet_round)
        else:
            world.happen(*read_event(record["event"], False, bool(network.foreign)))
        put_in(held, record, f"line {record['line']}")
    if world.printed != [line for record in records for line in record["printed"]]:
        raise WrongWorld("the column of events prints other lines")
    same_state(world, held, "the column of events")


def happens_again(program: str, document: str, first: Object, records: Records) -> None:
    """Whether the column of events, as a script, has the same trace but for where its events are."""
    script = "\n".join([document, "%", *(it["event"] for it in records), ""])
    told = [*map(read_json, printed(program, script.encode("latin-1"), "--trace"))]
    as_script = [{**it, "line": place, "number": place, "round": 0} for place, it in enumerate(records, 1)]
    if told != [first, *as_script]:
        raise WrongWorld("the column of events has another trace")


# ---- broken traces

Change = Callable[[Records], Records]


def each(change: Callable[[Object], Object]) -> Change:
    """A trace with other records."""
    return lambda records: [*map(change, records)]


def of_pairs(change: Callable[[Object], Object]) -> Change:
    """A trace with other pairs in the programs of its hosts."""
    return each(lambda record: {**record, "programs": {host: it and {**it, "pairs": [*map(change, it["pairs"])]} for host, it in record["programs"].items()}})


def of_ends(change: Callable[[Object], Object]) -> Change:
    return of_pairs(lambda pair: {**pair, "ends": [*map(change, pair["ends"])]})


def of_services(change: Callable[[Object], Object]) -> Change:
    """A trace with other services of its hosts."""
    return each(lambda record: {**record, "services": {host: change(it) for host, it in record["services"].items()}})


def repeating(records: Records) -> Records:
    """Each record with what the one before it has, too."""
    before = [dict.fromkeys(KINDS, {}), *records]
    return [{**record, **{key: {**last[key], **record[key]} for key in KINDS}} for last, record in zip(before, records)]


def in_whole_rounds(records: Records) -> Records:
    """The events of a round as one line."""
    found: Records = []
    for (_, round_of), them in groupby(records, itemgetter("number", "round")):
        last, *more = reversed([*them])
        for it in more if round_of else ():
            joined = {key: [*it[key], *last[key]] for key in ("crossed", "printed")}
            last = {**last, **joined, **{key: {**it[key], **last[key]} for key in KINDS}}
        found += [last] if round_of else [*reversed(more), last]
    return found


def exchanged(first: str, second: str) -> Change:
    """Events of a round exchanged where one follows the other at once."""

    def change(records: Records) -> Records:
        found = [*records]
        for at, (one, other) in enumerate(zip(records, records[1:])):
            if one["round"] and (one["number"], one["round"]) == (other["number"], other["round"]) and one["event"].startswith(first) and other["event"].startswith(second):
                found[at : at + 2] = [other, one]
                return found
        return found

    return change


def with_silent(records: Records) -> Records:
    """A quiet round before the first event of each calm, of which nothing comes."""
    silent: Object = {"event": "quiet", "crossed": [], "printed": [], "parts": {}, "programs": {}, "services": {}}
    return [it for record in records for it in ([{**record, **silent}, record] if record["round"] == 1 else [record])]


OF_ROUNDS: dict[str, Change] = {  # what the order of rounds shows without a model
    "events of a round by themselves": in_whole_rounds,
    "a quiet round before the takings": exchanged("quiet", "take"),
    "takings before offers": exchanged("take", "offer"),
    "the order of hosts": exchanged("offer", "take"),
    "the rounds of calms": each(lambda record: {**record, "round": min(record["round"], 1)}),
    "the calms of rounds": each(lambda record: {**record, "round": 0}),
    "whose event it is": each(lambda record: {**record, "event": record["event"].replace("take ", "offer ") if record["round"] else record["event"]}),
    "leaving out what shows nothing": with_silent,
    "leaving out what is as it was": repeating,
}
BROKEN: dict[str, Change] = {
    **OF_ROUNDS,
    "an RRP that is owed": of_pairs(lambda pair: {**pair, "owed": False}),
    "a command that waits": of_pairs(lambda pair: {**pair, "commands": pair["commands"][1:]}),
    "the order of links": of_pairs(lambda pair: {**pair, "busy": sorted(pair["busy"])}),
    "the bits of an allocation": of_ends(lambda end: {**end, "allocation": {**end["allocation"], "bits": end["allocation"]["messages"]}}),
    "a closing that is due": of_ends(lambda end: {**end, "closing": {"own": "no", "peer": end["closing"]["peer"]}}),
    "the last service": of_services(lambda it: {**it, "running": it["running"][:-1]}),
    "that a service is over": of_services(lambda it: {**it, "running": [{**one, "over": False} if "over" in one else one for one in it["running"]]}),
    "where a typed line goes": of_services(lambda it: {**it, "typing": None}),
    "a part of the network": each(lambda record: {**record, "parts": dict([*record["parts"].items()][1:])}),
    "quiet rounds": lambda records: [it for it in records if it["event"] != "quiet"],
    "offers": lambda records: [it for it in records if not it["round"] or not it["event"].startswith("offer ")],
}

WITH_ALL = "two-users-at-one-server", "a-reset-that-fails-and-one-that-works", "a-service-that-is-not-there"  # in these traces is each of these

AMONG: dict[str, Change] = {  # of all lines of a trace with strangers, the first one among them
    "who is a stranger": lambda lines: [{key: it for key, it in lines[0].items() if key != "foreign"}, *lines[1:]],
    "that a stranger runs nothing": lambda lines: [
        {**lines[0], **{key: {**lines[0][key], **dict.fromkeys(lines[0]["foreign"])} for key in KINDS[1:]}},
        *lines[1:],
    ],
    "what a stranger takes": lambda lines: [it for it in lines if it.get("event") != "take 1/2"],
    "what a stranger changes": lambda lines: [
        {**it, "parts": {}} if it.get("event") == "take 1/2" else it for it in lines
    ],
    "that a stranger is refused": lambda lines: [
        {**it, "printed": []} if it.get("printed") == ["refused NoProgram"] else it for it in lines
    ],
    "that a calm has no turn of a stranger": lambda lines: [
        {**it, "line": 2, "number": 2, "round": 1} if it.get("event") == "take 1/2" else it for it in lines
    ],
}
WITH_STRANGERS = ("a-trace-among-strangers",)  # in this trace is each of these


def whole(change: Change) -> Change:
    """A change of records, as one of all lines."""
    return lambda lines: [lines[0], *change(lines[1:])]


def is_found(program: str, change: Change, by_rounds: bool, names: Container[str] = WITH_ALL) -> bool:
    """Whether a trace that is broken so is found to be wrong, perhaps by the order of its rounds without a model."""
    for octets in (octets for name, octets in examples() if name in names):
        document, script = octets.decode("latin-1").split("\n%\n", 1)
        first, *records = change([*map(read_json, printed(program, octets, "--trace"))])
        try:
            (in_order if by_rounds else look_at)(network_of(document), script.split("\n"), first, records)
        except WrongWorld:
            return True
    return False


def faults(program: str, runs: int) -> tuple[int, list[str]]:
    """How many lines the traces of all examples have, and of this many random scripts and as many with strangers, and what
    is wrong in them."""
    lines, wrong = 0, []
    for name, octets in [*examples(), *random_inputs(runs), *mixed_inputs(runs)]:
        try:
            lines += held_up(program, octets)
        except (WrongWorld, json.JSONDecodeError) as why:
            wrong.append(f"{name}: {why}")
    passing = [name for name, change in BROKEN.items() if not is_found(program, whole(change), False)]
    by_rounds = ((name, whole(change)) for name, change in OF_ROUNDS.items())
    passing += [f"{name}, by rounds," for name, change in by_rounds if not is_found(program, change, True)]
    passing += [name for name, change in AMONG.items() if not is_found(program, change, False, WITH_STRANGERS)]
    return lines, wrong + [f"traces without {name} pass" for name in passing]

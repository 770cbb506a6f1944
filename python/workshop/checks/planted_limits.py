"""Limits that nobody wrote down, and bodies that hold more than they have to: faults that no proof refuses.

Each is planted by itself, and the input of `./check limits` or `./check memory` that it names has to show it.
"""

from __future__ import annotations

import glob
import sys
from collections.abc import Callable, Mapping, Sequence
from concurrent.futures import ThreadPoolExecutor
from typing import NamedTuple

from workshop.builds.drivers import CORES
from workshop.builds.switching import PROGRAM, made, planted
from workshop.builds.unproved import NotKept
from workshop.checks.planting import Edit
from workshop.parts import ROOT, text_of

# whether a program shows a fault on an input, with these variables
Shows = Callable[[str, str, Mapping[str, str]], bool]


class Fault(NamedTuple):
    """A planted fault: a file of a crate, or the crate whose only such file it is; and what it puts in which place."""

    where: str
    old: str
    new: str

    @property
    def title(self) -> str:
        return f"{self.where}: {' '.join(self.new.split())}"

    @property
    def edit(self) -> Edit:
        crate, _, file = self.where.partition("/")
        paths = glob.glob(f"{ROOT}/crates/{crate}/src/{file or '**/*.rt'}", recursive=True)
        files = tuple(it.removeprefix(f"{ROOT}/crates/{crate}/") for it in paths if text_of(it).count(self.old) == 1)
        return Edit(crate, self.title, files, ((self.old, self.new),), False)


def limit(where: str, before: str, refused: str, fault: str = "AllocError") -> Fault:
    """A limit, before this text: what is past it is refused with this fault."""
    return Fault(where, before, f"if {refused} {{ return Err({fault}); }} {before}")


# the faults that each input has to show
LIMITS: Mapping[str, Sequence[Fault]] = {
    "messages of a life": [
        limit("net_sim/life.rt", "changes.add_one()?;", "life.messages > 1_000"),
    ],
    "bits of a life": [
        limit("bit_messages/store.rt", "if len > u32::MAX as usize {", "len > 65_535"),
        limit("bit_messages/store.rt", "if len > u32::MAX as usize {", "len > 1_048_576"),
    ],
    "octets of a log": [
        limit("bit_messages/store.rt", "if len > u32::MAX as usize {", "len > 134_217_728"),
        limit("book_judge/joined.rt", "let Ok(()) = self.bits.append(&data) else {", "self.bits.len() > 134_217_728"),
        limit(
            "command_line/auditing.rt",
            "octets.extend_from_slice(&buffer[..count])?;",
            "octets.len() > 67_108_864",
            "AuditFault::OutOfMemory",
        ),
    ],
    "bits that wait": [
        limit("host_pairs/held.rt", "let Ok(()) = end.bits.append(bits) else {", "bits.len() > 1_048_576"),
    ],
    "crossings, notices and changes of lives": [
        limit("leader1822/contents.rt", "self.log.push(crossing)?;", "self.log.len() > 100_000"),
    ],
    "notices that services hear, and changes of lives": [
        limit("net_sim/notes.rt", "let before = all.len();", "all.len() > 100_000"),
        limit("net_sim/crossed.rt", "self.count.checked_add(news.len())", "self.count > 1_000_000"),
        limit("net_sim/life.rt", "changes.add_one()?;", "life.messages > 100_000"),
        limit(
            "host_services/desk.rt", "let Some(notices) = self.notices.checked_add(1) else {", "self.notices > 65_535",
        ),
    ],
    "events of a script": [
        limit(
            "world_script/events.rt",
            "read_events(alloc, text, strangers)",
            "text.len() > 4_000_000",
            "LineFault::OutOfMemory",
        ),
        limit(
            "command_line/carriers.rt",
            "let mut world = World::new(alloc, carrier)?;",
            "events.len() > 500_000",
            "ScriptFault::OutOfMemory",
        ),
    ],
    "peers": [
        limit("sockets/peers.rt", "self.peers.insert(at, Peer::new(host, pair))?;", "self.peers.len() > 200"),
        limit(
            "topology/network.rt",
            "imps.push(imp)?;\n    }\n    Ok(imps)",
            "imps.len() > 60",
            "TopologyFault::OutOfMemory",
        ),
    ],
    "requests in a row": [
        limit("leader1822/queues.rt", "queue.push_back(item)?;\n            return Ok(());", "queue.len() > 200"),
    ],
    "ends": [
        limit("host_pairs/held.rt", "self.ends.push(end)?;", "self.ends.len() > 4_096"),
    ],
    "listeners": [
        limit("host_pairs/listener.rt", "self.listening.reserve(1)?;", "self.listening.len() > 2_048"),
    ],
    "commands that wait": [
        limit("host_pairs/queue.rt", "self.commands.push(command)?;", "self.commands.len() > 4_096"),
    ],
    "a typed line": [
        limit(
            "host_services/typed_line.rt",
            "let octets = typed(alloc, text)?;",
            "text.len() > 16_384",
            "TerminalFault::OutOfMemory",
        ),
    ],
    "servers": [
        limit("host_services/services.rt", "self.full.reserve(1)?;", "self.full.len() > 16"),
    ],
    "strangers": [
        limit(
            "net_sim/mixed_world.rt",
            "let strangers = strangers_of(alloc, carrier.hosts(), named)?;",
            "named.len() > 64",
        ),
        limit("topology", "found.push(host)?;", "found.len() > 100"),
    ],
    "events among strangers": [
        limit(
            "command_line",
            "let outcome = replay_mixed_events(&mut world, events, detail, writer);",
            "events.len() > 50_000",
            "ScriptFault::OutOfMemory",
        ),
    ],
    "events of a log among strangers": [
        limit("command_line", "match replay_mixed_events(", "events.len() > 100_000", "ScriptFault::OutOfMemory"),
    ],
    "events of a log": [
        limit(
            "command_line/logging.rt",
            "let mut world = World::new(alloc, carrier)?;",
            "events.len() > 100_000",
            "ScriptFault::OutOfMemory",
        ),
    ],
    "events of a raw log": [
        limit(
            "command_line/logging.rt",
            "match replay::replay_events(",
            "events.len() > 100_000",
            "ScriptFault::OutOfMemory",
        ),
    ],
    "nobody but strangers": [
        limit("net_sim/mixed_world.rt", "let hosts = Hosts::new(alloc, &programs)?;", "programs.is_empty()"),
    ],
    "messages of a stranger": [
        limit("net_sim/lives.rt", "self.fates.reserve(1)?;", "life.own_stamp > 131_072"),
    ],
    "flows of mailboxes": [
        limit("leader1822/flows.rt", "self.flows.insert(flow, pending)?;", "self.flows.len() > 10_000"),
    ],
    "numbers of a flow": [
        limit(
            "command_line/carriers.rt",
            "match replay::replay_events(&mut carrier, events, detail, writer) {",
            "events.len() > 400_000",
            "ScriptFault::OutOfMemory",
        ),
        limit("subnet/parts.rt", "self.log.push(crossing)?;", "self.log.len() > 100_000"),
    ],
    "flows of an IMP": [
        limit("link_table/flow_map.rt", "self.flows.insert(flow, value)?;", "self.flows.len() > 10_000"),
    ],
    "lines of a subnet": [
        limit("topology/network.rt", "lines.push(line)?;", "lines.len() > 100", "TopologyFault::OutOfMemory"),
        limit("subnet/lines.rt", "lines.push(Wire::new(alloc, *end))?;", "lines.len() > 100"),
        limit("command_line/carriers.rt", "ends.push(subnet::Ends {", "ends.len() > 100"),
    ],
    "events of a trace": [
        limit(
            "simulator/tracing.rt",
            "match trace_events(alloc, network, &mut carrier, events, writer) {",
            "events.len() > 100_000",
            "ScriptFault::OutOfMemory",
        ),
    ],
    "the text of a part": [
        limit("trace/members.rt", "text.extend_from_slice(member)?;", "member.len() > 100_000"),
    ],
    "flows of an IMP that is traced": [
        limit("subnet_trace/flows.rt", "parts.push(part_of(side, imp, flow, known))?;", "parts.len() > 1_000"),
    ],
    "rounds of a trace": [
        limit(
            "trace/events.rt",
            "let mut place = carrier.begin_calm(rounds);",
            "rounds > 1_000_000",
            "ReplayFault::OutOfMemory",
        ),
    ],
    "strangers of a trace": [
        limit(
            "world_trace/mixed.rt",
            "trace_all(alloc, world, events, writer)",
            "world.strangers().len() > 64",
            "ReplayFault::OutOfMemory",
        ),
    ],
    "events of a trace among strangers": [
        limit(
            "world_trace/mixed.rt",
            "trace_all(alloc, world, events, writer)",
            "events.len() > 50_000",
            "ReplayFault::OutOfMemory",
        ),
    ],
    "octets of the input of a trace": [
        limit(
            "simulator/tracing.rt",
            "follow(alloc, &octets, writer)",
            "octets.len() > 1_000_000",
            "ScriptFault::OutOfMemory",
        ),
        limit("trace/numbers.rt", "passed += 1;", "passed > 65_535"),
        limit("trace/numbers.rt", "let mut placed = Vec::with_capacity(alloc, places)?;", "places > 131_072"),
    ],
    "events of a trace of hosts": [
        limit(
            "simulator/tracing.rt",
            "let mut world = World::new(alloc, carrier)?;",
            "events.len() > 100_000",
            "ScriptFault::OutOfMemory",
        ),
    ],
    "rounds of a trace of hosts": [
        limit(
            "world_trace/calm.rt",
            "let mut texts = known_texts(alloc, world, known.take(), notes)?;",
            "rounds > 2_048",
            "ReplayFault::OutOfMemory",
        ),
    ],
    "crossings of a log": [
        limit("book_log/read.rt", "passed += 1;", "passed > 200_000", "LogFault::OutOfMemory"),
        limit("book_judge/runs.rt", "let mut mail = Mail::new(alloc);", "log.len() > 200_000"),
        limit("book_judge/fates.rt", "let deeds = deeds_of(alloc, log)?;", "log.len() > 1_048_576"),
    ],
    "crossings of a log that strays": [
        limit("book_judge/messages.rt", "let mut last = FlowMap::new(alloc);", "log.len() > 65_536"),
    ],
    "strangers of a log": [
        limit("book_log/strangers.rt", "strangers.push(next.0)?;", "strangers.len() > 250"),
    ],
    "flows of a log": [
        limit("book_judge/joined.rt", "self.streams.push(Stream::new(alloc))?;", "number > 65_535"),
        limit("book_judge/flow_map.rt", "self.flows.insert(flow, value)?;", "self.flows.len() > 65_535"),
    ],
    "lives of a log": [
        limit("book_log/book.rt", "self.fates.push(fate)?;", "self.fates.len() > 10_000"),
        limit("book_log/book.rt", "match line {", "self.handed.len() > 10_000"),
        limit("book_judge/broken.rt", "let named = partners_of(alloc, log, lives)?;", "lives.len() > 5_000"),
        limit("book_judge/broken.rt", "match partners_of(alloc, log, lives)? {", "lives.len() > 500"),
        limit("book_judge/stamps.rt", "names.push(name)?;", "names.len() > 4_096"),
        limit("book_judge/starts.rt", "starts.push(start_of(log, &lives[place]))?;", "starts.len() > 4_096"),
        limit("book_judge/places.rt", "self.places.insert(key, place)?;", "self.places.len() > 10_000"),
        limit("book_judge/fates.rt", "let cuts = courses.cuts(alloc)?;", "lives.len() > 10_000"),
        limit("book_judge/fates/changes.rt", "changes.push(Change {", "changes.len() > 16_384"),
        limit("command_line/layout.rt", "among.push(is_among(strangers, life))?;", "among.len() > 10_000"),
        limit("command_line/judging.rt", "let unmade = unmade_at(&log, some);", "some.len() > 2_000"),
        limit(
            "command_line/judging.rt",
            "let lives_kept = keep_counted(alloc, among, all)?;",
            "!strangers.is_empty() && lives.len() > 10_000",
        ),
    ],
    "octets of a topology": [
        limit(
            "command_line/input.rt",
            "let document = str::from_utf8(document)",
            "document.len() > 100_000",
            "ScriptFault::OutOfMemory",
        ),
    ],
    "octets of a topology with strangers": [
        limit(
            "command_line/mixed.rt",
            "let document = str::from_utf8(document)",
            "document.len() > 100_000",
            "ScriptFault::OutOfMemory",
        ),
    ],
}
HELD: Mapping[str, Sequence[Fault]] = {
    "connections that close": [
        Fault("host_pairs/held.rt", "if self.gone > self.ends.len() / 2 {", "if self.gone > 1_000_000 {"),
        Fault("net_sim/open.rt", "forget_ended(list, lives);", "let _ = lives;"),
    ],
    "commands that go out": [
        Fault("host_pairs/queue.rt", "if self.gone > self.commands.len() / 2 {", "if self.gone > 1_000_000 {"),
    ],
    "routes of a subnet that is traced": [
        Fault(
            "subnet_trace/ways.rt",
            "let ways = Ways::of(alloc, routes)?;",
            "let ways = Ways::of(alloc, routes)?; self.ways.push(Some(Ways::of(alloc, routes)?))?;",
        ),
    ],
    "IMPs of a network that is traced": [
        Fault(
            "trace/flow_lists.rt",
            "let mut copy = Vec::new(alloc);\n    for part in list {",
            "let mut copy = Vec::with_capacity(alloc, 100_000)?;\n    for part in list {",
        ),
    ],
}


def numbered() -> dict[int, tuple[str, Fault]]:
    """All of them, each with the input that has to show it."""
    return dict(enumerate(((name, it) for faults in (LIMITS, HELD) for name in faults for it in faults[name]), 1))


def missed(check: str, faults: Mapping[str, Sequence[Fault]], names: Sequence[str], shows: Shows) -> int:
    """Plants those of these faults that inputs of these names have to show, and prints what comes of it."""
    every = numbered()
    try:
        program, there = made(PROGRAM, {number: it.edit for number, (_, it) in every.items()})
    except (NotKept, OSError) as why:
        sys.exit(f"check {check}: the program was not built: {why}")
    some = {number: it for number, it in every.items() if it[0] in names and it[1] in faults.get(it[0], ())}
    inputs = sorted({name for name, _ in some.values()})
    with ThreadPoolExecutor(CORES) as threads:
        alone = dict(zip(inputs, threads.map(lambda it: shows(program, it, planted(0)), inputs)))
        shown = dict(zip(some, threads.map(lambda it: it in there and shows(program, some[it][0], planted(it)), some)))
    wrong = [f"{name}: without a planted fault it ends otherwise than it should" for name in inputs if alone[name]]
    for number, (name, fault) in some.items():
        if not shown[number]:
            said = f"not shown by {name}" if number in there else "it has no place, or does not compile"
            wrong.append(f"{fault.title}: {said}")
    for line in wrong:
        print(f"check {check}: {line}")
    count = [*shown.values()].count(True)
    print(f"check {check}: {len(some)} planted faults, {count} of them shown by the inputs that have to")
    return 1 if wrong else 0

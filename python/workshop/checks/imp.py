"""One IMP against the independent model in Python, on random calls (minutes): ./check imp [RUNS]

Compares one IMP with an independent model of its rules, on random calls.

The proofs say that `Imp` does what its definitions say. Whether the definitions say what docs/imp.md says is for
readers to judge; this script tries it as well. `Imp` in python/dorydate/model/imp.py was written from those rules, in
another language and another form, with packets and frames spelled from the formats. Both run every call, and answers,
frames and what the queries answer have to be the same. The same calls are made each time. So are those on whole
networks of route tables, of up to 63 IMPs, that exchange their distances (`settle`): each has to end as
python/dorydate/model/tables.py counts.

First the model answers the stored rows (cases/calls) of IMPs and of tables. The calls are made by tools/calls,
built without proofs (workshop.builds.drivers): ./check imp [RUNS]
"""

from __future__ import annotations

import random
import tempfile
from collections import Counter
from collections.abc import Iterator

from dorydate.model.bits import Bits, spell_bits
from dorydate.model.channels import Channels
from dorydate.model.imp import Imp
from dorydate.model.imp_state import NUMBERS
from dorydate.model.names import Flow, HostName, spell_flow
from dorydate.model.packets import (
    ASK, CHANNELS, DATA, DEAD, INFINITE, MOST_IMPS, NEVER, PIECE, REQUESTS, RFNM, Carried, Content, Packet, Routes, answer, body, spell_frame,
)  # fmt: skip
from workshop.builds.drivers import run_cases, write_case
from workshop.checks.imp_rows import ImpRows, open_imp
from workshop.checks.imp_tables import open_tables, table_rows
from workshop.checks.net_rows import open_net
from workshop.checks.readings import read_stored, told
from workshop.rows import spelled
from workshop.words import Words

RUNS = 1000
CALLS = 100

# ---- random calls


class Chance:
    """Random calls for one IMP, its hosts and its neighbours."""

    def __init__(self, seed: int) -> None:
        self.random = random.Random(seed)
        self.five = self.random.sample(range(1, MOST_IMPS + 1), 5)
        number = self.five[0]
        self.imp = Imp(number, self.random.choice((1, 2, 2, 3, 4, 4, 0)), self.random.choice((1, 1, 2, 2, 3, 5, 0)))
        self.rows = [f"imp {number} {len(self.imp.hosts)} {len(self.imp.ports)}"]
        self.bodies: dict[tuple[Flow, int], Bits] = {}
        # runs differ: some free channels seldom, take seldom, stop nothing, know all routes, use many links or long
        # texts
        self.frees = self.random.choice((0.02, 0.3, 0.9))
        self.takes = self.random.choice((0.01, 0.15))
        self.stops = self.random.random() < 0.5
        self.near_all = self.random.random() < 0.6
        self.links = self.random.choice((3, 40))
        self.lengths = self.random.choice(((0, 8, 24), (0, 24, 1007, 1008, 2100), (0, 2100, 8063)))

    def host(self, own: float = 0.5) -> HostName:
        """A host, as a rule one of this IMP."""
        imp = self.imp.number if self.random.random() < own else self.random.choice(self.five)
        return HostName(self.number_below(len(self.imp.hosts) if imp == self.imp.number else 2, 3), imp)

    def number_below(self, count: int, most: int) -> int:
        """Mostly a number that is there."""
        if count > 0 and self.random.random() < 0.93:
            return self.random.randrange(count)
        return self.random.randint(0, most)

    def flow(self, own: float = 0.5) -> Flow:
        """A flow."""
        return Flow(self.host(own), self.host(1 - own if own in (0, 1) else own), self.random.randint(2, 1 + self.links))

    def text(self) -> Bits:
        """A text."""
        most = self.random.choice(self.lengths)
        length = self.random.choice((most, self.random.randint(0, most)))
        return "".join(self.random.choice("01") for _ in range(length))

    def near(self, number: int | None) -> int:
        """A number that is near another one, or on the other side of the window."""
        window = NUMBERS.window
        steps = 0, 1, 1, 1, 2, 255, 256, window - 1, window, window + 1, NUMBERS.count - 1
        return 0 if number is None else (number + self.random.choice(steps)) % NUMBERS.count

    def packet(self) -> Packet:
        """A packet from a neighbour."""
        kind = self.random.choice((DATA, DATA, DATA, DATA, RFNM, DEAD, ASK, ASK, NEVER))
        flow = self.flow(self.random.choice((0, 0, 0.4)) if kind in REQUESTS else self.random.choice((1, 1, 0.4)))
        if kind != DATA:
            known = self.imp.kept if kind == ASK else {**self.imp.last, **self.imp.outstanding}
            if known and self.random.random() < 0.5:
                flow = self.random.choice([*known])
            number = known.get(flow)
            chosen = number if number is not None and self.random.random() < 0.7 else self.near(number)
            return answer(kind, flow, chosen)
        held = self.imp.slots.get(flow)
        message = held[0] if held and self.random.random() < 0.8 else self.near(self.imp.kept.get(flow))
        if self.random.random() < 0.05:
            place = self.random.randint(0, 7)
            last = place == 7 or self.random.random() < 0.5
            return Packet(kind, flow, message, place, last, "0" * (16 * self.random.randint(1, 63) if last else PIECE))
        whole = self.bodies.setdefault((flow, message), body(self.text()))
        count = -(-len(whole) // PIECE)
        place = self.random.randrange(count)
        return Packet(kind, flow, message, place, place == count - 1, whole[place * PIECE : (place + 1) * PIECE])

    def acknowledged(self, line: Channels) -> int:
        """Acknowledgement bits: as a rule those that free all channels."""
        good = sum((1 - bit) << channel for channel, bit in enumerate(line.next_bit))
        return self.random.choice((good, good, good ^ 255, self.random.randint(0, 255)))

    def frame(self) -> tuple[int, int, Content]:
        """A frame from a neighbour: the port, the acknowledgement bits and the content."""
        port = self.random.randrange(len(self.imp.ports))
        line = self.imp.ports[port].line
        kind = self.random.random()
        content: Content = None
        if 0.1 <= kind < 0.25:
            distances = (0, 1, 2) if self.near_all else (0, 1, 2, 16, INFINITE - 2, INFINITE - 1, INFINITE)
            content = Routes([self.random.choice(distances) for _ in range(MOST_IMPS)])
        elif kind >= 0.25:
            channel = self.random.randrange(CHANNELS)
            bit = line.expected[channel] ^ (self.random.random() < 0.15)
            content = Carried(channel, bit, self.packet())
        acknowledged = self.acknowledged(line) if self.random.random() < self.frees else sum(
            bit << channel for channel, bit in enumerate(line.next_bit)
        )
        return port, acknowledged, content

    def call(self) -> str:
        """A call."""
        imp = self.imp
        choice = self.random.random()
        if choice < 0.5 and imp.ports:
            port, acknowledged, content = self.frame()
            return f"from_line {port} {spell_frame(acknowledged, content).hex().upper()}"
        if choice < 0.7:
            flow, text = self.flow(self.random.choice((1, 1, 0.6))), self.text()
            return f"from_host {spell_flow(flow)} {spell_bits(text)}"
        if choice < 0.7 + self.takes:
            return f"to_host {self.number_below(len(imp.hosts), 3)}"
        return self.seldom_call()

    def seldom_call(self) -> str:
        """One of the other calls."""
        imp = self.imp
        if self.random.random() < 0.02:
            return "claim"
        names = "end_up host_up resend route give_up ask forget abandon".split()
        name = self.random.choice(names + 2 * ["end_down", "host_down", "end_up", "host_up"] * self.stops)
        if name in ("resend", "route"):
            return name
        if name in ("end_down", "end_up", "host_down", "host_up"):
            number = self.number_below(len(imp.ports), 5) if name.startswith("end") else self.number_below(len(imp.hosts), 3)
            return f"{name} {number}"
        if name == "forget":
            return f"{name} {self.random.choice(self.five)}"
        pool = [*imp.slots] if name == "abandon" else [*imp.outstanding]
        flow = self.random.choice(pool) if pool and self.random.random() < 0.7 else self.flow()
        return f"{name} {spell_flow(flow)}"

    def run(self) -> Iterator[tuple[str, list[str]]]:
        """Each call, with what the model answers."""
        reading = ImpRows(self.imp)
        for _ in range(CALLS):
            call = self.call()
            yield call, reading.answers(call, [])
            flow = self.flow(self.random.choice((0, 1, 0.5)))
            words = spell_flow(flow)
            last = self.imp.last.get(flow) or 0
            for query in (f"query {words} {last}", f"kept {words}", f"awaits {flow.destination.imp}"):
                yield query, reading.answers(query, [])


def with_cases(folder: str, runs: int) -> Counter[str]:
    """Puts the calls of each run into a folder, and what is owed for them. Counts the calls by what they came to."""
    seen: Counter[str] = Counter()
    for run in range(runs):
        chance = Chance(run)
        for call, answers in chance.run():
            chance.rows += spelled(call, answers)
            name, word = call.split()[0], answers[0]
            if name not in ("query", "kept", "awaits"):
                seen[f"{name}: {word if word.startswith('refused') else word.split()[0]}"] += 1
        seen["from_line: lost for want of room"] += chance.imp.lost
        write_case(folder, f"{run:04}", chance.rows)
    return seen


def main() -> int:
    """The exit status."""
    runs = Words(__doc__).count("runs", RUNS, "random runs of calls").asked().runs
    networks = [*table_rows()]
    is_stored = read_stored("imp", open_imp, "imp") & read_stored("imp", open_tables, "tables")
    is_stored &= read_stored("imp", open_net, "line", "pieces", "sources", "destinations", "routes")
    with tempfile.TemporaryDirectory() as folder:
        seen = with_cases(folder, runs)
        write_case(folder, "tables", ["tables", *(row for asked, owed in networks for row in spelled(asked, owed))])
        said = run_cases(folder)
    agreed = f"{runs * CALLS} calls in {runs} runs agree, and {len(networks)} networks of tables"
    return told("imp", said, agreed, seen, is_stored)

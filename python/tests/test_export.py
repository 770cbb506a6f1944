"""What ./export writes, and what the readers of other tools say of it."""

from __future__ import annotations

import json
import re
import shutil
import struct
import subprocess
import tempfile
import unittest
from collections.abc import Iterator, Sequence
from functools import lru_cache
from pathlib import Path
from typing import Any
from xml.etree import ElementTree

from dorydate import Network
from dorydate.export import chart, pcapng, perfetto, shiviz, wire
from dorydate.export.command import DISSECTOR, written
from dorydate.export.leaders import body, leader, crossing_of
from dorydate.export.replayed import Happened, Line, Replayed, as_printed, output, replayed
from dorydate.sentences.texts import text_in_words
from dorydate.network import Host
from dorydate.where import found
from dorydate.script import BadLine, Calm, Flow, Script, Text
from dorydate.state import folded
from dorydate.trace import records
from workshop.tools import absence

ROOT = Path(__file__).resolve().parents[2]
REFUSED = {"a-bad-line", "an-unknown-event"}  # examples of scripts that the program refuses
BOXES = Network.joined("A-B", carrier="plain", hosts=2)


@lru_cache(maxsize=1)
def examples() -> dict[str, Script]:
    """The scripts of the examples, by name."""
    paths = [it for it in sorted((ROOT / "examples").iterdir()) if "." not in it.name and it.name not in REFUSED]
    return {it.name: Script.read(it.read_text(encoding="latin-1")) for it in paths}


@lru_cache(maxsize=1)
def replays() -> dict[str, Replayed]:
    return {name: replayed(script) for name, script in examples().items()}


def happened(*printed: str, network: Network = BOXES) -> Replayed:
    """A replay of one event that printed these lines."""
    lines = tuple(Line(tuple(it.split(" ")), at) for at, it in enumerate(printed))
    return Replayed(network, (Happened(0, 1, Calm(1), lines),))


class Octets(unittest.TestCase):
    def test_bodies(self) -> None:
        rows = [
            ("0 -", "8000"),
            ("3 A0", "B000"),
            ("8 4C", "4C80"),
            ("15 FFFE", "FFFF"),
            ("16 4C4F", "4C4F8000"),
            ("24 414243", "41424380"),
        ]
        for text, octets in rows:
            self.assertEqual(body(Text.read(*text.split(" "))).hex().upper(), octets, text)

    def test_leaders(self) -> None:
        self.assertEqual(leader(9, Host(3, 63), 255).hex(), "09ffff00")

    def test_whose_interface(self) -> None:
        rows = [
            ("out 0/1 1/2 5 0 -", "0/1", True, "00420500 8000"),
            ("in 0/1 1/2 5 0 -", "1/2", False, "00010500 8000"),
            ("answer nottaken 0/1 1/2 5", "0/1", False, "09420500"),
            ("down 0/2", "0/2", True, ""),
        ]
        for line, host, is_from_host, octets in rows:
            packet = crossing_of(tuple(line.split(" ")))
            assert packet
            self.assertEqual(
                (str(packet.host), packet.is_from_host, packet.octets),
                (host, is_from_host, bytes.fromhex(octets)),
                line,
            )
        for line in ("ready 0/1 0/2", "refused NoSuch", "line 0/1 out of it"):
            self.assertIsNone(crossing_of(tuple(line.split(" "))))


class Replays(unittest.TestCase):
    def test_all_lines_in_order(self) -> None:
        """Each line that is printed is that of one event, also where events are refused as the marker is."""
        for name, script in examples().items():
            with self.subTest(name):
                self.assertEqual(
                    [as_printed(str(line)) for _, line in replays()[name].lines()], output(found(), script, "--texts")
                )

    def test_refusals_like_the_marker(self) -> None:
        script = Script.read(
            Network.joined("A-B", raw=True).toml() + "%\nhostdown 1/2\ncalm 1\nhostdown 0/2\nhostdown 1/2\n"
        )
        self.assertEqual(
            [[str(it) for it in event.lines] for event in replayed(script).events],
            [["refused NoSuch"], [], ["down 0/2"], ["refused NoSuch"]],
        )
        self.assertEqual(
            [(it.second, it.number) for it in replayed(script).events], [(0, 13), (1, 14), (2, 15), (3, 16)]
        )


def blocks_of(capture: bytes) -> Iterator[tuple[int, bytes]]:
    """The blocks of a capture: the type of each, and what is between its two lengths."""
    place = 0
    while place < len(capture):
        kind, length = struct.unpack_from("<II", capture, place)
        assert length % 4 == 0 and struct.unpack_from("<I", capture, place + length - 4) == (length,)
        yield kind, capture[place + 8 : place + length - 4]
        place += length


class Wire(unittest.TestCase):
    def test_what_crossed(self) -> None:
        made = wire.capture("0.000001 udp from 0/3 00\n2.000000 tcp to 0/2 -\n0.1 cut off")
        kinds = [kind for kind, _ in blocks_of(made)]
        self.assertEqual(kinds, [pcapng.SECTION, *[pcapng.INTERFACE, pcapng.PACKET] * 2])
        with self.assertRaisesRegex(BadLine, "line 2 is nothing that crossed"):
            wire.capture("0.000001 udp from 0/3 00\nout 0/1 0/2 5 0 -\n")


class Captures(unittest.TestCase):
    def test_blocks(self) -> None:
        kinds = [
            kind for kind, _ in blocks_of(pcapng.capture(happened("out 0/1 0/2 5 3 A0", "ready 0/1 0/2", "down 1/2")))
        ]
        self.assertEqual(kinds, [pcapng.SECTION, *[pcapng.INTERFACE] * 4, *[pcapng.PACKET] * 2])

    def test_a_packet(self) -> None:
        content = [it for kind, it in blocks_of(pcapng.capture(happened("in 0/1 1/2 5 3 A0"))) if kind == pcapng.PACKET]
        self.assertEqual(struct.unpack_from("<5I", content[0]), (3, 0, 0, 6, 6))
        self.assertEqual(content[0][20:28].hex(), "00010500b0000000")
        self.assertIn(b"line 1: calm 1", content[0])


# Texts of messages: every command, erroneous ones, some cut off, and data of several sizes; each with its link.
COMMANDS = [
    "00",
    "01000000100000002102",
    "01000000110000002220",
    "02000000210000001008",
    "02000000200000001100",
    "030000001000000021",
    "0402FFFFFFFFFFFF",
    "04020001000000FF",
]
COMMANDS += [
    "05028001",
    "06020001000000FF",
    "0702",
    "081F",
    "09FF",
    "0A00",
    "0B0102000000200000001100",
    "0B05070200000000000000 00",
    "0B090E000000000000000000",
    "0B010000000000000000 0000",
    "0C",
    "0D",
]
COMMANDS += ["0E", "0102", "0C0D0F", "00000000", "0B05"]
DATA = [
    (2, 8, "4C4F47494E"),
    (2, 8, "5C0A0D09"),
    (3, 5, "0842"),
    (4, 1, "80"),
    (5, 255, ""),
    (6, 36, "0123456780"),
    (2, 8, "41" * 70),
    (2, 8, "00FF"),
]
WRONG = [
    "0 -",
    "39 000800000000"[:13],
    "40 0008000500",
    "48 00070001000C",
    "40 0008000000",
    f"{40 + 968} 0008007900{'00' * 121}",
]


def control(octets: str) -> str:
    commands = bytes.fromhex(octets)
    return f"0 {Text.of(bytes([0, 8, 0, len(commands), 0]) + commands)}"


def message(link: int, size: int, octets: str) -> str:
    data = bytes.fromhex(octets)
    number = 8 * len(data) // size
    return f"{link} {Text(bytes([0, size, 0, number, 0]) + data[: -(-size * number // 8)], 40 + size * number)}"


def texts() -> list[str]:
    return [
        *map(control, COMMANDS),
        *(message(*it) for it in DATA),
        *(f"0 {it}" for it in WRONG),
        "7 40 0008000100",
        "7 47 000800010000",
    ]


@unittest.skipUnless(shutil.which("tshark"), absence("tshark"))
class Dissected(unittest.TestCase):
    """What Wireshark's tshark says, with the dissector of this package."""

    def dissected(self, captures: Sequence[bytes], *fields: str) -> list[list[str]]:
        """The fields of each packet in captures, one after another."""
        with tempfile.TemporaryDirectory() as folder:
            paths = [f"{folder}/{at:03}" for at, _ in enumerate(captures)]
            for path, capture in zip(paths, captures):
                Path(path).write_bytes(capture)
            subprocess.run(["mergecap", "-a", "-w", f"{folder}/whole", *paths], check=True)
            wanted = [it for field in fields for it in ("-e", field)]
            ran = subprocess.run(
                [
                    "tshark",
                    "-X",
                    f"lua_script:{DISSECTOR}",
                    "-r",
                    f"{folder}/whole",
                    "-T",
                    "fields",
                    "-E",
                    "separator=|",
                    "-E",
                    "aggregator=;",
                    *wanted,
                ],
                capture_output=True,
                text=True,
                check=False,
            )
        self.assertEqual(ran.returncode, 0, ran.stderr)
        self.assertNotIn("Lua", ran.stderr)
        return [it.split("|", len(fields) - 1) for it in ran.stdout.splitlines()]

    def test_examples(self) -> None:
        """Of each example: the lines of the log, the interface and the event of each."""
        crossed = [
            (str(packet.host), happened.said, as_printed(str(line)))
            for what in replays().values()
            for happened, line in what.lines()
            if (packet := crossing_of(line.words))
        ]
        rows = self.dissected(
            [*map(pcapng.capture, replays().values())], "frame.interface_name", "dorydate.line", "frame.comment"
        )
        self.assertEqual([(host, comments.split(";")[-1], line) for host, line, comments in rows], crossed)
        self.assertGreater(len(rows), 2_000)

    def test_texts_in_words(self) -> None:
        """What texts say is what the independent model's reader says."""
        what = happened(*(f"out 0/1 0/2 {it}" for it in texts()))
        wanted = [
            text_in_words(int(link), bytes.fromhex(octets.replace("-", "")), int(bits))
            for link, bits, octets in (it.split(" ") for it in texts())
        ]
        told = [row[0].split(": ", 1)[1] for row in self.dissected([pcapng.capture(what)], "_ws.col.Info")]
        self.assertEqual(told, wanted)

    def test_raw_texts_have_no_form(self) -> None:
        network = Network.joined("A-B", raw=True)
        rows = self.dissected(
            [pcapng.capture(happened("out 0/1 0/2 0 8 41", network=network))], "_ws.col.Info", "dorydate.command"
        )
        self.assertEqual(rows, [["0/1 to 0/2 on link 0: 8 bits", ""]])

    def test_octets_that_are_no_leader(self) -> None:
        made = (
            pcapng.section("")
            + pcapng.interface(pcapng.USER0, "0/1", "")
            + b"".join(
                pcapng.packet(0, 0, bytes.fromhex(it), 1, [])
                for it in ("000105", "00010500", "000105000000", "0F010500", "04000000")
            )
        )
        rows = self.dissected([made], "dorydate.type", "dorydate.line", "_ws.expert.message")
        self.assertEqual(
            [row[2] for row in rows],
            [
                "a leader has four octets",
                "no bit 1 marks the end of the text",
                "no bit 1 marks the end of the text",
                "",
                "",
            ],
        )
        self.assertEqual([row[1] for row in rows], [""] * 5)

    def test_the_wire_of_a_live_network(self) -> None:
        """Frames and messages as they crossed: the ready line, NOPs, an RST, its RFNM and the RRP."""
        lines = [
            "0.000001 udp from 0/3 483331360000000000000002",
            "0.000002 udp to 0/3 48333136000000000002000304030000",
            "1.500000 udp from 0/3 4833313600000001000500030001000000080001000C",
            "1.600000 udp to 0/3 48333136000000030002000305010000",
            "1.700000 tcp to 0/2 000C0001000000080001000D8000",
            "1.800000 tcp from 0/2 0000",
        ]
        fields = "frame.interface_name", "frame.time_epoch", "dorydate.line", "_ws.col.Info", "dorydate.wire.sequence"
        rows = self.dissected([wire.capture("".join(f"{it}\n" for it in lines))], *fields)
        wanted = [
            ["0/3", "0.000001000", "", "ready", "0"],
            ["0/3", "0.000002000", "", "NOP, 0/3 to 0/3 on link 0", "0"],
            ["0/3", "1.500000000", "out 0/3 0/1 0 48 00080001000C", "0/3 to 0/1 on link 0: RST", "1"],
            ["0/3", "1.600000000", "answer rfnm 0/3 0/1 0", "RFNM, 0/3 to 0/1 on link 0", "3"],
            ["0/2", "1.700000000", "in 0/1 0/2 0 48 00080001000D", "0/1 to 0/2 on link 0: RRP", ""],
            ["0/2", "1.800000000", "", "is the IMP there?", ""],
        ]
        self.assertEqual(rows, wanted)


TRACED = (
    "first-message",
    "rerouted-over-a-triangle",
    "a-cut-line-and-the-way-round",
    "arpanet-of-december-1969",
    "lo-of-login",
)
AMONG_STRANGERS = "data-past-the-grant"


class Timelines(unittest.TestCase):
    """What the document *Trace Event Format* asks for, and what the trace of the program says."""

    def events(self, name: str) -> tuple[Replayed, list[dict[str, Any]]]:
        what = replayed(examples()[name], None, True)
        return what, json.loads(perfetto.trace(what))["traceEvents"]

    def test_fields_of_each_kind(self) -> None:
        wanted = {"X": {"ts", "dur", "tid"}, "i": {"ts", "s", "tid"}, "C": {"ts", "args"}, "M": {"args"}}
        for name in TRACED:
            for it in self.events(name)[1]:
                self.assertTrue({"ph", "name", "pid"} | wanted[it["ph"]] <= it.keys(), it)
                self.assertTrue(it["ph"] != "C" or all(isinstance(value, int) for value in it["args"].values()), it)

    def test_spans_of_a_track_follow_one_another(self) -> None:
        for name in TRACED:
            ends: dict[tuple[int, int], int] = {}
            for it in self.events(name)[1]:
                if it["ph"] == "X":
                    self.assertTrue(it["dur"] >= 0 and ends.get((it["pid"], it["tid"]), 0) <= it["ts"], it)
                    ends[it["pid"], it["tid"]] = it["ts"] + it["dur"]

    def test_messages_have_their_answers(self) -> None:
        for name in TRACED:
            what, events = self.events(name)
            words = [line.words for _, line in what.lines()]
            flows = [it for it in events if it["ph"] == "X" and it["pid"] == perfetto.FLOWS]
            self.assertEqual(len(flows), sum(it[0] == "out" for it in words), name)
            answers = sorted(it["args"]["answer"] for it in flows if "answer" in it["args"])
            self.assertEqual(answers, sorted(it[1] for it in words if it[0] == "answer"), name)

    def test_takings_and_offers_of_a_calm_have_their_own_times(self) -> None:
        what, events = self.events("lo-of-login")
        of_calms = [it for it in what.moments() if str(it.happened.event).startswith("calm ")]
        self.assertEqual({it.event.split(" ")[0] for it in of_calms}, {"quiet", "take", "offer"})
        for it in of_calms:
            crossed = [line.kind for line in it.lines if line.kind in ("out", "in", "answer")]
            self.assertEqual(len(crossed), 0 if it.event == "quiet" else 1, it.event)
        times = [it.time for it in what.moments()]
        self.assertEqual(times, sorted({*times}))
        self.assertTrue(all(it["dur"] > 0 for it in events if it["ph"] == "X" and it["pid"] == perfetto.FLOWS))

    def test_counters_end_as_the_state_says(self) -> None:
        for name in TRACED[1:4]:
            what, events = self.events(name)
            state = folded(what.network, what.trace)
            last = {it["name"]: it["args"] for it in events if it["ph"] == "C"}
            for imp in what.network.imps:
                known = state.imp(imp.number)
                assert known
                distances = {
                    int(to): distance
                    for to, distance in last[f"imp {imp.number}: distances"].items()
                    if distance < perfetto.FAR
                }
                self.assertEqual(distances, known.distances)
                self.assertEqual(
                    last[f"imp {imp.number}: packets"],
                    {"store": len(known.store), "channels": sum(map(len, known.sending))},
                )
            self.assertEqual(last["messages without answer"]["messages"], len(state.outstanding()))

    def test_what_programs_hold_beside_strangers(self) -> None:
        what, events = self.events(AMONG_STRANGERS)
        allocations = [it["args"] for it in events if it["ph"] == "C" and it["name"] == "0/1 socket 32: allocation"]
        granted, taken = {"messages": 2, "bits": 16}, {"messages": 1, "bits": 0}
        self.assertEqual(allocations[-2:], [granted, taken])
        by_script = [str(it.event) for it in what.events]
        self.assertEqual([it.event for it in what.moments()].count("take 0/2"), by_script.count("take 0/2"))
        self.assertFalse([it["name"] for it in events if it["name"].startswith("0/2 socket")])

    def test_allocations_of_ends(self) -> None:
        ends = [{"socket": 33, "allocation": {"messages": 2, "bits": 80}}]
        counters = perfetto.Counters()
        told = [
            *counters.see_programs({"0/1": {"pairs": [{"ends": ends}]}, "0/2": None}, 5),
            *counters.see_programs({"0/1": {"pairs": [{"ends": ends}]}}, 6),
        ]
        self.assertEqual(
            [(it["name"], it["ts"], it["args"]) for it in told],
            [("0/1 socket 33: allocation", 5, {"messages": 2, "bits": 80})],
        )

    def test_frames_have_the_fates_of_the_trace(self) -> None:
        what, events = self.events("rerouted-over-a-triangle")
        told = [it["name"] for it in events if it["ph"] == "i" and it["pid"] == perfetto.LINES and it["name"] != "drop"]
        self.assertEqual(told, [it["fate"] for it in map(json.loads, records(what.trace)) if "fate" in it])


class Slides(unittest.TestCase):
    def test_each_is_xml_with_its_event(self) -> None:
        for name in ("rerouted-over-a-triangle", "lo-of-login", "first-message"):
            what = replays()[name]
            for step in (0, 1, len(what.events)):
                root = ElementTree.fromstring(written("svg", examples()[name], step))
                said = [it.text for it in root.iter("{http://www.w3.org/2000/svg}text")]
                self.assertIn(
                    f"Event {step} of {len(what.events)}, {what.events[step - 1].said}"
                    if step
                    else "Before the first event",
                    said,
                )

    def test_rows(self) -> None:
        lines = [
            Line(tuple(it.split(" ")), 0)
            for it in (
                "out 0/1 0/2 5 8 41",
                "in 0/1 0/2 5 8 41",
                "answer rfnm 0/1 0/2 5",
                "out 0/1 0/2 5 8 42",
                "down 0/2",
                "answer dead 0/1 0/2 5",
            )
        ]
        told = [(it.words, it.source, it.destination, it.share) for it in chart.rows_of(lines, True)]
        wanted = [
            ("8 bits, link 5", "0/1", "0/2", (0.0, 1.0)),
            ("rfnm, link 5", "0/2", "0/1", (0.0, 1.0)),
            ("8 bits, link 5", "0/1", "0/2", (0.0, 0.7)),
            ("down", "0/2", "", (0.0, 1.0)),
            ("dead, link 5", "0/2", "0/1", (0.5, 1.0)),
        ]
        self.assertEqual(told, wanted)
        self.assertEqual(chart.unanswered(lines[:4]), [Flow.read("0/1", "0/2", "5")])
        self.assertEqual(chart.unanswered(lines), [])


class Clocks(unittest.TestCase):
    """ShiViz's own rules for clocks: docs of its log format."""

    def parsed(self, log: str) -> list[tuple[str, dict[str, int], str]]:
        first, empty, *lines = log.splitlines()
        self.assertEqual(empty, "")
        expression = re.compile(first.replace("(?<", "(?P<"))
        matches = [expression.fullmatch(it) for it in lines]
        self.assertNotIn(None, matches)
        return [(it["host"], json.loads(it["clock"]), it["event"]) for it in matches if it]

    def test_examples(self) -> None:
        for name, what in replays().items():
            with self.subTest(name):
                last: dict[str, dict[str, int]] = {}
                for host, clock, _ in self.parsed(shiviz.log(what)):
                    before = last.get(host, {})
                    self.assertEqual(clock[host], before.get(host, 0) + 1)
                    for other, count in clock.items():
                        self.assertLessEqual(before.get(other, 0), count)
                        self.assertTrue(other == host or count <= last[other][other])
                    last[host] = clock

    def test_messages_bring_clocks(self) -> None:
        what = happened(
            "out 0/1 0/2 5 0 -",
            "out 1/1 0/2 5 0 -",
            "in 0/1 0/2 5 0 -",
            "answer rfnm 0/1 0/2 5",
            "refused NoSuch",
            "answer dead 1/1 0/2 5",
            "done user 0/2 3 4",
        )
        clocks = [(host, clock) for host, clock, _ in self.parsed(shiviz.log(what))]
        wanted = [
            ("0/1", {"0/1": 1}),
            ("1/1", {"1/1": 1}),
            ("0/2", {"0/1": 1, "0/2": 1}),
            ("0/1", {"0/1": 2, "0/2": 1}),
            ("1/1", {"1/1": 2}),
            ("0/2", {"0/1": 1, "0/2": 2}),
        ]
        self.assertEqual(clocks, wanted)


if __name__ == "__main__":
    unittest.main()

"""The independent model: rows of its readers and spellers, and small runs whose outcome the documents give."""

from __future__ import annotations

import unittest

from dorydate.model.audit import RIGHT
from dorydate.model.bits import bits_of, octets, read_bits, spell_bits
from dorydate.model.boxes import Boxes
from dorydate.model.chance.worlds import spell_event
from dorydate.model.commands import CONTROL_TEXT, RST, alone, control_message, fitting, split
from dorydate.model.crossings import Answered, Crossing, Passed, Turned
from dorydate.model.imp_state import NUMBERS, Numbers
from dorydate.model.log import Book, read_log, spelled_log
from dorydate.model.mailboxes import first_break, hosts_of, never_taken
from dorydate.model.misread_logs import MISREADINGS as LOGS_MISREAD
from dorydate.model.misreadings import MISREADINGS
from dorydate.model.names import Flow, HostName, in_order
from dorydate.model.packets import DATA, PIECE, Packet, body, pieces_of, spell_frame, spell_packet, target
from dorydate.model.runs import expected, network_is_good, opened
from dorydate.model.script import BadLine, read_event, read_line
from dorydate.model.subnet import Subnet
from dorydate.model.topology import Topology, network_of, spelled
from dorydate.model.trace_world import TracedWorld, state_of, traced_world
from dorydate.model.verdict import says
from dorydate.model.without import LACKING, opened_without
from dorydate.model.world import World

ONE, OTHER = HostName(0, 1), HostName(0, 2)
FLOW = Flow(ONE, OTHER, 5)
OUT, TAKEN, RFNM = Passed("out", FLOW, "1"), Passed("in", FLOW, "1"), Answered("answer", "rfnm", FLOW)
PAIR = Topology("subnet", True, [(1, 1), (2, 1)], [(1, 2)])


class Spelled(unittest.TestCase):
    def test_bits(self) -> None:
        for bits, of, words in ("", b"", "0 -"), ("1", b"\x80", "1 80"), ("00000001" * 2, b"\x01\x01", "16 0101"), ("101", b"\xa0", "3 A0"):
            self.assertEqual((octets(bits), spell_bits(bits)), (of, words))
            self.assertEqual(read_bits(*words.split(" ")), bits)
        self.assertEqual(bits_of(b"\x05\x00"), "0000010100000000")

    def test_bodies_and_pieces(self) -> None:
        self.assertEqual(body(""), "1" + "0" * 15)
        self.assertEqual([len(body("0" * it)) for it in (15, 16, 31)], [16, 32, 32])
        self.assertEqual([len(pieces_of("0" * it)) for it in (0, PIECE - 1, PIECE, 8063)], [1, 1, 2, 8])

    def test_frames(self) -> None:
        packet = Packet(DATA, FLOW, 258, 0, True, "1" + "0" * 15)
        self.assertEqual(spell_packet(packet).hex(), "00010205" + "0102" + "80" + "0010" + "8000")
        self.assertEqual(target(packet), 2)
        self.assertEqual(spell_frame(255, None).hex(), "f201ff")

    def test_events(self) -> None:
        lines = "out 0/1 0/2 5 8 41", "deliver 0 + 3", "giveup 0/1 0/2 5", "calm 2", "enddown 1 0"
        self.assertEqual([spell_event(*read_event(it)) for it in lines], [*lines])
        self.assertIsNone(read_line("# nothing"))
        for line in "out 0/1 0/2 5 7 41", "take 4/1", "take 0/64", "deliver 0 * 1", "calm 01", "contact 0/1 0/2":
            with self.assertRaises(BadLine, msg=line):
                read_line(line)

    def test_topologies(self) -> None:
        self.assertEqual(network_of(spelled(PAIR)), PAIR)
        self.assertTrue(network_is_good(PAIR))
        self.assertFalse(network_is_good(PAIR._replace(lines=[(1, 1)])))
        self.assertFalse(network_is_good(PAIR._replace(raw=False)))
        self.assertTrue(network_is_good(PAIR._replace(raw=False), ["worlds"]))

    def test_control_texts(self) -> None:
        parts = split(control_message([alone(RST)]))
        self.assertEqual(parts, (8, 1, "00001100"))
        self.assertIsNone(split("0" * 39))
        self.assertEqual(fitting([bytes(10)] * 13), CONTROL_TEXT // 10)

    def test_order_of_flows(self) -> None:
        later = Flow(HostName(0, 2), ONE, 0), Flow(HostName(1, 1), OTHER, 0)
        self.assertEqual(in_order(later), [later[1], later[0]])


class Numbered(unittest.TestCase):
    def test_the_window_wraps(self) -> None:
        few = Numbers(8, 3)
        self.assertEqual([it for it in range(8) if few.is_after(it, 6)], [0, 1, 7])
        self.assertEqual((few.following(7), few.following(None)), (0, 0))
        self.assertTrue(NUMBERS.is_after(0, 65535))


class Carried(unittest.TestCase):
    def test_mailboxes(self) -> None:
        boxes = Boxes([(1, 1), (2, 1)])
        for line in "out 0/1 0/2 5 1 80", "out 0/1 0/2 5 0 -", "take 0/2", "take 0/1", "deliver 0 + 0":
            boxes.happen(*read_event(line))
        self.assertEqual(boxes.log, [OUT, TAKEN, RFNM])
        self.assertEqual(boxes.printed, ["out 0/1 0/2 5 1", "refused Blocked", "in 0/1 0/2 5 1", "answer rfnm 0/1 0/2 5", "refused NoSuch"])

    def test_a_subnet(self) -> None:
        subnet = Subnet(PAIR.imps, PAIR.lines)
        for line in "out 0/1 0/2 5 1 80", "take 0/1", "calm 2", "out 0/1 0/2 5 1 80", "calm 3":
            subnet.happen(*read_event(line))
        self.assertEqual(subnet.log, [OUT, Answered("answer", "dead", FLOW), OUT, TAKEN, RFNM])
        self.assertIsNone(first_break(subnet.hosts(), subnet.log))

    def test_a_calm_ends_where_a_round_changes_nothing(self) -> None:
        row = Topology("subnet", True, [(1, 1), (2, 1), (3, 1)], [(1, 2), (2, 3)])
        head = ["calm 4", "enddown 3 1", "out 0/1 0/3 5 8 41", "out 0/1 0/2 5 8 42"]
        long, short = (expected([], row, [*head, f"calm {rounds}", "endup 3 1", "calm 3"]) for rounds in (4294967295, 15))
        self.assertEqual(long, short)
        self.assertIn("in 0/1 0/3 5 8\n", long[1])

    def test_what_only_reports_look_at_keeps_no_calm_going(self) -> None:
        one, other = Subnet(PAIR.imps, PAIR.lines), Subnet(PAIR.imps, PAIR.lines)
        assert (imp := other.imps[1]) is not None
        imp.lost += 1
        self.assertEqual(one.state(), other.state())
        imp.hosts[0].is_up = False
        self.assertNotEqual(one.state(), other.state())

    def test_how_inputs_end(self) -> None:
        self.assertEqual(expected([], PAIR, ["take 0/1", "no"]), (2, "", "arpasim: bad script line 2\n"))
        self.assertEqual(expected(["--check"], PAIR, ["take 0/1"]), (0, "ok\n", ""))
        self.assertEqual(expected(["--log"], PAIR, []), (1, "", "arpasim: bad arguments\n"))

    def test_how_sessions_end(self) -> None:
        lines = ["# it sends", "out 0/1 0/2 5 8 41", "out 0/1 0/2 5 8 42", "no", ""]
        said = "\nout 0/1 0/2 5 8 41\n\nrefused Blocked\n\n"
        self.assertEqual(expected(["--live"], PAIR, lines), (2, said, "arpasim: bad script line 4\n"))
        self.assertEqual(expected(["--live"], PAIR, [*lines[:3], ""]), (0, f"{said}end\n", ""))
        self.assertEqual(expected(["--live"], PAIR, lines[:3]), (0, f"{said}end\n", ""))
        self.assertEqual(expected(["--live"], PAIR, [""]), (0, "end\n", ""))
        self.assertEqual(expected(["--live", "--texts"], PAIR, [""]), (1, "", "arpasim: bad arguments\n"))


class Judged(unittest.TestCase):
    def test_logs_of_mailboxes(self) -> None:
        none, down = Answered("answer", "nottaken", FLOW), Turned("down", ONE)
        rows: list[tuple[list[Crossing], int | None]] = [([OUT, TAKEN, RFNM], None), ([OUT, RFNM], 1), ([OUT, none, TAKEN], 2), ([down, OUT], 1)]
        for log, place in rows:
            self.assertEqual(first_break([ONE, OTHER], log), place)
            self.assertEqual(hosts_of([*log, OUT]), {ONE, OTHER})
        self.assertFalse(never_taken([OUT, none, TAKEN]))

    def test_the_promise_of_messages(self) -> None:
        self.assertIsNone(RIGHT.audit([OUT, TAKEN, RFNM], []))
        wrong: list[list[Crossing]] = [[OUT, TAKEN, TAKEN], [OUT, RFNM], [TAKEN], [OUT, TAKEN, OUT, RFNM]]
        for log in wrong:
            self.assertEqual(RIGHT.audit(log, []), "messages")

    def test_each_misreading_says_what_it_reads(self) -> None:
        said = [str(it.__doc__) for it in MISREADINGS]
        self.assertEqual(len({*said}), len(MISREADINGS))
        self.assertEqual(len(LOGS_MISREAD), 158)

    def test_logs_are_read_as_they_are_spelled(self) -> None:
        book = Book([OUT, TAKEN, RFNM, Turned("down", OTHER)], [], [])
        self.assertEqual(read_log(spelled_log(book)), book)
        self.assertEqual(says(spelled_log(book)), "kept")
        self.assertEqual(says(b"down 0/1\nno\nend\n"), "bad log line 2")
        self.assertEqual(says(spelled_log(Book([OUT, RFNM], [], []))), "broken run line 2\nbroken messages line 2")


class Lacked(unittest.TestCase):
    def test_each_network_without_a_rule_opens(self) -> None:
        for rule in LACKING:
            self.assertNotIsInstance(opened_without(rule, PAIR), World)
            self.assertIsInstance(opened_without(rule, PAIR._replace(raw=False)), World)

    def test_numbers_are_a_parameter(self) -> None:
        few = opened_without(None, PAIR, Numbers(8, 3))
        assert isinstance(few, Subnet)
        self.assertEqual([it.numbers.count for it in few.imps.values() if it is not None], [8, 8])
        whole = opened(PAIR)
        assert isinstance(whole, Subnet)
        self.assertEqual(whole.numbers, NUMBERS)


class TracesOfWorlds(unittest.TestCase):
    def told(self, network: Topology, *lines: str) -> list[str]:
        """Of each line of a trace its event, its round, and what is printed or changes."""
        world = opened(network)
        assert isinstance(world, World)
        return [f"{it['number']}.{it['round']} {it['event']}: {', '.join([*it['printed'], *it['parts'], *it['programs']])}" for it in traced_world(world, lines)]

    def test_takings_and_offers_by_which_something_crosses(self) -> None:
        wanted = [
            "1.0 contact 0/1 1/1: 0/1",
            "2.1 offer 0/1: out 0/1 1/1 0 48, host 1/1, 0/1",
            "2.1 take 1/1: in 0/1 1/1 0 48, ready 1/1 0/1, host 0/1, host 1/1, 1/1",
            "2.1 offer 1/1: out 1/1 0/1 0 48, host 0/1, 1/1",
            "2.2 take 0/1: answer rfnm 0/1 1/1 0, host 0/1, 0/1",
            "2.2 take 0/1: in 1/1 0/1 0 48, ready 0/1 1/1, host 0/1, host 1/1, 0/1",
            "2.2 take 1/1: answer rfnm 1/1 0/1 0, host 1/1, 1/1",
            "4.0 take 0/1: ",
        ]
        self.assertEqual(self.told(Topology("plain", False, [(1, 2)], []), "contact 0/1 1/1", "calm 5", "calm 9", "take 0/1"), wanted)

    def test_quiet_rounds_that_change_something(self) -> None:
        wanted = [
            "1.1 quiet: imp 1, imp 2",
            "1.2 quiet: imp 1, imp 2",
            "2.0 contact 0/1 0/2: 0/1",
            "3.1 offer 0/1: out 0/1 0/2 0 48, imp 1, line 0, source 0/1 0/2 0, 0/1",
            "3.2 quiet: imp 1, imp 2, line 0, kept 0/1 0/2 0",
            "3.2 take 0/2: in 0/1 0/2 0 48, ready 0/2 0/1, imp 2, line 0, kept 0/1 0/2 0, 0/2",
        ]
        network = Topology("subnet", False, [(1, 1), (2, 1)], [(1, 2)])
        self.assertEqual(self.told(network, "calm 9", "contact 0/1 0/2", "calm 2")[:6], wanted)

    def test_what_a_calm_names_is_all_that_changes(self) -> None:
        class Whole(TracedWorld):
            def left(self, event: tuple[object, ...]) -> dict[str, object]:
                return state_of(self.world)

        for network in Topology("plain", False, [(1, 2)], []), Topology("subnet", False, [(1, 1), (2, 1)], [(1, 2)]):
            host = "1/1" if network.carrier == "plain" else "0/2"
            lines = ["calm 3", f"server {host} 7 100", f"contact 0/1 {host}", "calm 9", f"user 0/1 {host} 7 16", "calm 40", "type 0/1 A", "calm 9"]
            traces = []
            for kind in TracedWorld, Whole:
                world = opened(network)
                assert isinstance(world, World)
                trace = kind(world)
                traces.append([it for number, line in enumerate(lines, 1) for it in trace.happen(number, number, read_event(line, False), line)])
            self.assertEqual(*traces)
            self.assertTrue(any(it["services"] for it in traces[0] if it["round"]))

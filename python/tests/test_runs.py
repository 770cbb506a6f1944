"""Replays, explorations and expectations: what runs the program."""

from __future__ import annotations

import os
import re
import unittest
from collections.abc import Callable
from functools import partial
from unittest import mock

from dorydate import BadNetwork, Network, Replay, Stopped
from dorydate.ending import shown_name
from dorydate.expect import differences, expected
from dorydate.explore.breadth import Lists, Walk
from dorydate.explore.kinds import chosen, pools
from dorydate.explore.lockup import SOURCE, Climb
from dorydate.explore.lockup import events as outs
from dorydate.explore.many import CannotRun, Many, One
from dorydate.explore.named import SEARCHES, TWO, TWO_PLAIN, TWO_RAW
from dorydate.explore.pattern import read
from dorydate.explore.search import Search
from dorydate.inside import CannotFollow, state_of
from dorydate.program import PrintedTooMuch, Program, TookTooLong
from dorydate.where import found
from dorydate.script import BadLine, Calm, Contact, Event, Flow, Out, Script, read_event
from tests.fast import NeedsFastProgram

RING = Network.joined("WEST-A-B-EAST-C-D-WEST", hosts={"A": 0, "B": 0, "C": 0, "D": 0})


def raw() -> Replay:
    net = Replay(Network.joined("UCLA-SRI-UTAH-UCLA", raw=True))
    net.calm(2)
    return net


class Programs(unittest.TestCase):
    def test_limit_of_time(self) -> None:
        in_step = ["contact 0/1 0/2", "contact 0/2 0/1", "calm 1", "contact 0/2 0/1", "calm 4294967295"]
        text = "\n".join([f"{TWO.toml()}%", *in_step, ""])
        with self.assertRaises(TookTooLong):
            found().run(text.encode(), seconds=0.3)

    def test_limit_of_octets(self) -> None:
        """A stranger that floods a host with ECO and takes no answer: each line of the trace has all that wait."""
        ecos = f"out 2/1 0/1 0 1000 000800780009{'4109' * 59}41\ncalm 1\ntake 2/1\n"
        head = 'carrier = "plain"\n[[imp]]\nid = 1\nhosts = 3\nforeign = [2]\n%\n'
        flood = f"{head}out 2/1 0/1 0 48 00080001000C\ncalm 2\ntake 2/1\ntake 2/1\n{20 * ecos}".encode()
        printed = len(found().run(flood, "--trace").output)
        self.assertGreater(printed, 300_000)
        for run in (partial(found().run, flood, "--trace"), partial(found().run_by_pipes, flood, ["--trace"], 60.0)):
            most, words = printed - 1, f"than {printed - 1} octets"
            with mock.patch("dorydate.program.MOST_PRINTED", most), self.assertRaisesRegex(PrintedTooMuch, words):
                run()
            with mock.patch("dorydate.program.MOST_PRINTED", printed):
                self.assertEqual(len(run().output), printed)

    def test_streams(self) -> None:
        ran = found().run(b"nothing")
        self.assertEqual((ran.status, ran.output, ran.said), (1, "", "arpasim: bad topology\n"))
        self.assertEqual(found().run_by_pipes(b"nothing", [], 5.0), ran)

    def test_program_that_is_not_there(self) -> None:
        with self.assertRaises(FileNotFoundError):
            Program("/nowhere/arpasim").run(b"")


class Names(unittest.TestCase):
    def test_a_name_that_is_not_utf_8(self) -> None:
        self.assertEqual(shown_name(os.fsdecode(b"/tmp/first-\xff")), "first-\ufffd")


class Replays(unittest.TestCase):
    def test_a_message_is_lost_and_comes_again(self) -> None:
        net = raw()
        message = net.out("UCLA", "SRI", 5, b"LO")
        (frame,) = net.frames_of(message)
        self.assertEqual((frame.line, frame.way, frame.place), (0, "+", 0))
        self.assertTrue(net.lose(message))
        self.assertEqual(net.frames_of(message), [])
        self.assertEqual(net.settle().printed, ["in 0/1 0/2 5 16", "answer rfnm 0/1 0/2 5"])
        self.assertEqual((net.state.outstanding(), net.unanswered(), net.audit()), ({}, [], "kept"))

    def test_sentences(self) -> None:
        net = raw()
        self.assertEqual(net.steps[0].meanings, ["2 rounds pass, and no host takes anything."])
        self.assertIn("hands its IMP a message for host 0/2 on link 5: 8 bits", net.out("UCLA", "SRI", 5, b"A").steps[0].meanings[0])
        self.assertEqual(net.out("UCLA", "SRI", 5).steps[0].meanings, ["A message of this flow is outstanding, or an answer about one waits for its source."])

    def test_what_can_never_be_is_refused_by_its_name(self) -> None:
        net = raw()
        rows: list[tuple[Callable[[], object], str]] = [
            (lambda: net.out("UCLA", "SRI", 300), "300 is not from 0 to 255"),
            (lambda: net.calm("x"), "'x' is not a whole number from 0 to 4294967295"),  # type: ignore[arg-type]
            (lambda: net.do("hostdown 0/1"), "'hostdown 0/1' is no event"),  # type: ignore[arg-type]
            (lambda: Network.joined("A", hosts={"A": "1"}), "IMP 1 with '1' hosts"),  # type: ignore[dict-item]
            (lambda: net.out(1, 2), "1 is not a host: write `0/1`"),  # type: ignore[arg-type]
            (lambda: net.back(2), "1 events have happened, so 2 can't be taken back"),
            (lambda: net.back(-1), "can't be taken back"),
            (lambda: net.run_until("nonsense"), "no printed line begins with `nonsense`"),
            (lambda: net.run_until("in (.*"), "no printed line begins with `in"),
            (lambda: Replay(net.network, Program("/bin/true")).calm(), "/bin/true printed no last line `end`"),
        ]
        for call, words in rows:
            with self.subTest(words), self.assertRaisesRegex((BadLine, BadNetwork, Stopped), re.escape(words)):
                call()
        self.assertEqual(len(net.steps), 1)
        self.assertEqual(net.run_until("line 0/1", 1).note, "not until `line 0/1` in 1 rounds")

    def test_back_and_branch(self) -> None:
        net = raw()
        other = net.branch()
        net.out("UCLA", "SRI", 5)
        self.assertEqual((len(net.steps), len(other.steps)), (2, 1))
        net.back()
        self.assertEqual(net.events, other.events)

    def test_refusals_change_nothing(self) -> None:
        net = raw()
        self.assertEqual(net.host_up("UCLA").refused, "IsUp")
        self.assertFalse(net.host_up("UCLA"))
        before = net.state.parts
        net.ask("UCLA", "SRI", 5)
        self.assertEqual((net.steps[-1].refused, net.state.parts), ("NotOutstanding", before))
        with self.assertRaises(Stopped):
            net.contact("UCLA", "SRI")

    def test_settle_is_the_least_that_prints_all(self) -> None:
        net = raw()
        net.out("UCLA", "SRI", 5, b"LO")
        events = net.settle(50).steps[0].event
        self.assertEqual(events, Calm(3))
        self.assertEqual(net.settle(50).printed, [])

    def test_restart_says_what_was_in_the_way(self) -> None:
        net = raw()
        net.out("UCLA", "SRI", 5, b"LO")
        deed = net.restart("SRI")
        self.assertTrue(deed, deed)
        self.assertIn("Still alive: message 0 of flow 0/1 0/2 5", deed.note)
        self.assertEqual([str(it.event) for it in deed.steps][-3:], ["endup 1 0", "endup 3 1", "hostup 0/2"])
        net.calm(2)
        net.out("UCLA", "SRI", 5, b"HI")
        self.assertEqual(net.run_until("answer rfnm").printed, ["in 0/1 0/2 5 16", "answer rfnm 0/1 0/2 5"])
        self.assertEqual(net.audit(), "kept")

    def test_the_made_experiment(self) -> None:
        net = Replay(RING)
        net.settle()
        self.assertEqual(net.session("WEST", "EAST").printed.count("done user 0/1 18 19"), 1)
        net.type("WEST", "HELLO")
        self.assertEqual(len(net.lose(net.offer("WEST")).steps), 1)
        self.assertTrue(net.run_until("line 0/1 HELLO"))
        net.cut("A", "B")
        net.type("WEST", "AGAIN")
        net.settle()
        net.restart("C")
        net.settle()
        net.type("WEST", "THIRD")
        self.assertIn("line 0/1 THIRD", net.run_until("line 0/1 THIRD", 60).printed)
        self.assertEqual((net.audit(), len(net.lives)), ("kept", 6))
        self.assertIn("# C restarts", net.text)
        self.assertEqual(Replay.of(net.script).printed, net.printed)

    def test_run_until_says_when_it_is_not_reached(self) -> None:
        net = raw()
        self.assertIn("in 3 rounds", net.run_until("line", 3).note)

    def test_plain_mailboxes(self) -> None:
        for is_raw in (True, False):
            net = Replay(Network.joined("LEFT", "RIGHT", raw=is_raw, carrier="plain"))
            net.settle(5)
            self.assertTrue(net._repr_svg_().endswith("</svg>"))
            self.assertEqual([*net.state.frames()], [])
            with self.assertRaises(Stopped):
                net.restart("LEFT")

    def test_a_map_is_drawn(self) -> None:
        net = raw()
        net.cut("UCLA", "SRI")
        picture = net._repr_svg_()
        self.assertTrue(picture.startswith("<svg") and picture.endswith("</svg>"))
        self.assertIn("stroke-dasharray", picture)

    def test_expectation(self) -> None:
        net = raw()
        net.out("UCLA", "SRI", 5)
        net.expect("out 0/1 0/2 5 0")
        with self.assertRaises(Stopped):
            net.expect()


class Insides(unittest.TestCase):
    def test_network_of_hosts_with_programs(self) -> None:
        net = Replay(RING)
        net.settle()
        net.session("WEST", "EAST")
        state = net.state
        self.assertEqual(state.distances(1), {2: 1, 3: 2, 4: 3, 5: 2, 6: 1})
        self.assertEqual(state.outstanding(), {})

    def test_script_that_a_program_refuses(self) -> None:
        with self.assertRaises(CannotFollow):
            state_of(Program("/bin/false"), TWO, [Calm(0)])


class Explorations(NeedsFastProgram):
    def test_side_by_side_is_alone(self) -> None:
        script = [*pools(TWO_RAW)["out"], Calm(2)]
        many, one = Many(TWO_RAW, found()), One(TWO_RAW, found())
        lines: list[list[list[str]]] = [[[], [many.spelled(copy, it) for it in script[:-1]]] for copy in range(many.copies)]
        results = many.run(lines, [1, 2])
        single = one.of([Calm(1), *script])
        self.assertEqual({it.lines for it in results}, {single.lines})
        self.assertEqual(many.copies, 31)

    def test_searches_find_and_shrink(self) -> None:
        for name, least in (("taken-and-incomplete", 7), ("resets-in-step", 4), ("noted-before-it-comes", 7)):
            search = Search(SEARCHES[name].network, read(SEARCHES[name].pattern), found(), 1)
            script = search.run(8_000, wanted=3)
            self.assertIsNotNone(script, name)
            assert script is not None
            self.assertLessEqual(len(script), least, name)
            self.assertTrue(search.matches(script))

    def test_logs_are_kept(self) -> None:
        for network in (TWO_RAW, TWO, TWO_PLAIN):
            search = Search(network, read(SEARCHES["twice"].pattern), found(), 7, audits=True)
            self.assertIsNone(search.run(186))
            self.assertEqual(search.progress.kept, search.progress.schedules)

    def test_no_shorter_script(self) -> None:
        events = [it for kind in chosen(pools(TWO_RAW, places=2), ("out", "ask", "deliver", "drop")).values() for it in kind]
        walk = Walk(TWO_RAW, read(SEARCHES["noted-before-it-comes"].pattern), found(), [*events, Calm(1)])
        script = walk.run(5, 60)
        assert script is not None
        # no script of up to four events; `./check shortest` compares the states of each depth with the plain program's
        self.assertEqual((len(script), len(walk.counts)), (5, 4))

    def test_every_list(self) -> None:
        contacts = [Contact(a, b) for a, b in zip(TWO.hosts(), reversed(TWO.hosts()))]
        search = Lists(TWO, read(SEARCHES["resets-in-step"].pattern), found(), [*contacts, Calm(1)])
        script = search.run(4, 60)
        assert script is not None
        self.assertEqual((len(script), search.whole), (4, 3))

    def test_networks_that_do_not_fit(self) -> None:
        with self.assertRaises(CannotRun):
            Many(Network.joined(*(f"{it}" for it in range(63)), raw=True), found())
        with self.assertRaises(CannotRun):
            Search(TWO, read("arrives data A B N K"), found())


LOCKUP = """out 0 | deliver 0 + 0 | out 1 | deliver 0 + 2 | out 2 | deliver 0 + 4 | deliver 0 - 0 | out 3 | deliver 0 + 6 | out 4 | deliver 0 + 8
| deliver 0 - 4 | out 5 | deliver 0 + 10 | out 6 | deliver 0 + 12 | deliver 0 - 0 | out 7 | deliver 0 + 14 | beside"""


class Lockups(unittest.TestCase):
    """The climb to the lockup: what it measures on a script that is known to come to one."""

    def script(self) -> tuple[Event, ...]:
        links = {f"out {it.flow.link}" if it.flow.source == SOURCE else "beside": it for it in outs() if isinstance(it, Out)}
        return tuple(links.get(it.strip()) or read_event(it.strip()) for it in LOCKUP.split("|"))

    def test_a_known_script_locks(self) -> None:
        climb, script = Climb(found(), 1), self.script()
        self.assertTrue(climb.locks(script))
        for at in (0, 1, 19):
            self.assertFalse(climb.locks(script[:at] + script[at + 1 :]), script[at])

    def test_the_measure_grows(self) -> None:
        climb, script = Climb(found(), 1), self.script()
        measures = climb.measures([script[:at] for at in (0, 2, 4, 6, 9, 13, 19, 20)])
        self.assertEqual(measures, sorted(measures))
        self.assertEqual((measures[0], len({*measures}) >= 7), (0, True))

    def test_what_the_measure_needs_stays(self) -> None:
        climb, script = Climb(found(), 1), self.script()
        padded = (*script[:6], read_event("deliver 1 - 3"), read_event("deliver 1 - 5"), *script[6:9])
        (value,) = climb.measures([padded])
        self.assertLessEqual(len(climb.trimmed(padded, value)), 9)


class Expectations(unittest.TestCase):
    def test_first_difference(self) -> None:
        net = raw()
        net.out("UCLA", "SRI", 5)
        net.calm(2)
        good = expected(net.script)
        self.assertEqual(differences(good), [])
        bad = Script.read(good.text().replace("#= in 0/1 0/2 5 0", "#= in 0/1 0/2 5 1"))
        (difference,) = differences(bad)
        self.assertIn("in 0/1 0/2 5 1\nand is\n  in 0/1 0/2 5 0", str(difference))

    def test_flow_is_a_value(self) -> None:
        self.assertEqual({Flow.read("0/1", "0/2", "5")}, {Flow.read("0/1", "0/2", "5")})
        with self.assertRaises(BadLine):
            Flow.read("0/1", "0/2", "256")


if __name__ == "__main__":
    unittest.main()

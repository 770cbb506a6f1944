"""Networks, scripts, patterns and steps of shrinking: what needs no program."""

from __future__ import annotations

import random
import re
import sys
import unittest
from collections.abc import Callable
from pathlib import Path

from dorydate import script as events
from dorydate.explore import pattern, shrink
from dorydate.explore.kinds import Maker, favoured, fit, pools
from dorydate.explore.many import moved
from dorydate.network import BadNetwork, Host, Imp, Line, Network
from dorydate.script import BadLine, Calm, Drop, Flow, Out, Script, Text, read_event

TWO, TWO_RAW = (Network.joined("A-B", raw=raw) for raw in (False, True))
MANY_DIGITS = "9" * 4301  # Python refuses to read as many

ROOT = Path(__file__).resolve().parents[2]
REFUSED = {"a-bad-line", "an-unknown-event"}  # examples of scripts that the program refuses


class Networks(unittest.TestCase):
    def test_chains(self) -> None:
        net = Network.joined("UCLA-SRI-UTAH", "UCLA-UCSB-SRI", hosts={"UTAH": 2, "UCSB": 0})
        self.assertEqual([imp.name for imp in net.imps], ["UCLA", "SRI", "UTAH", "UCSB"])
        self.assertEqual(net.lines, (Line(1, 2), Line(2, 3), Line(1, 4), Line(4, 2)))
        self.assertEqual(list(map(str, net.hosts())), ["0/1", "0/2", "0/3", "1/3"])
        self.assertEqual(net.host("1 at UTAH"), Host(1, 3))
        self.assertEqual((net.line("SRI", "UCSB"), net.lines_of(2)), (3, [0, 1, 3]))

    def test_ring_has_one_line_a_pair(self) -> None:
        self.assertEqual(len(Network.joined("A-B-C-A").lines), 3)
        self.assertEqual(len(Network.joined("A-B", "B-A").lines), 1)

    def test_toml_is_read_again(self) -> None:
        net = Network.joined("UCLA-SRI-UTAH-UCLA", raw=True, carrier="plain")
        self.assertEqual(Network.read(net.toml()), net)

    def test_refused_by_name(self) -> None:
        rows = [
            ((Imp(1), Imp(1)), (), "two IMPs have the number 1"),
            ((Imp(64),), (), "number from 1 to 63"),
            ((Imp(1, 5),), (), "0 to 4 hosts"),
            ((), (), "1 to 63 IMPs"),
            ((Imp(1), Imp(2)), (Line(1, 2), Line(2, 1)), "two lines join"),
            ((Imp(1),), (Line(1, 1),), "does not join two different IMPs"),
            (tuple(map(Imp, range(1, 8))), tuple(Line(1, it) for it in range(2, 8)), "more than 5 lines"),
        ]
        for imps, lines, words in rows:
            with self.subTest(words), self.assertRaisesRegex(BadNetwork, words):
                Network(imps, lines)

    def test_names_that_are_not_there(self) -> None:
        net = Network.joined("UCLA-SRI")
        calls: list[Callable[[], object]] = [lambda: net.host("UTAH"), lambda: net.line("UCLA", "UCLA"), lambda: net.host("4 at SRI"), lambda: net.imp(3)]
        for call in calls:
            with self.assertRaises(BadNetwork):
                call()


class Scripts(unittest.TestCase):
    def test_examples_are_spelled_again(self) -> None:
        count = 0
        for path in sorted((ROOT / "examples").iterdir()):
            if "." in path.name or path.name in REFUSED:
                continue
            text = path.read_text(encoding="latin-1")
            script = Script.read(text)
            lines = [it for it in text.split("\n%\n")[1].split("\n") if it and not it.startswith("#")]
            self.assertEqual([str(it) for it in script.events], lines, path.name)
            self.assertEqual(Script.read(script.text()).events, script.events)
            count += 1
        self.assertGreater(count, 50)

    def test_bad_lines(self) -> None:
        rows = ["jump", "take", "take 0/64", "take 4/1", "out 0/1 0/2 5 8 ff", "out 0/1 0/2 5 7 FF", "out 0/1 0/2 256 0 -", "calm 01", "calm 4294967296", "deliver 0 * 0", "drop 0 + -1", "offer 0/1", "out 0/1 0/2 5 0 00"]
        for line in rows:
            with self.subTest(line), self.assertRaises((BadLine, BadNetwork)):
                read_event(line, TWO_RAW)

    def test_bad_inputs_are_named_by_their_lines(self) -> None:
        good = Network.joined("A-B", raw=True).toml()
        rows = [("x = 1\n" + good + "%\n", "line 1 of the topology, `x = 1`"), (good + "%\njump\n", "line 13, `jump`"), (good + "%\n" + "j" * 200, f"line 13, `{'j' * 60} .. {'j' * 8}`")]
        for text, words in rows:
            with self.subTest(words), self.assertRaisesRegex((BadLine, BadNetwork), re.escape(words)):
                Script.read(text)

    @unittest.skipIf(sys.version_info < (3, 11), "this Python has no reader of TOML")
    def test_a_topology_in_any_spelling_of_toml(self) -> None:
        text = 'line = [{a = 1, b = 2}]\nraw = true\n[[imp]]\nhosts = 1\nid = 1 # A\tB\n[[imp]]\nid = 0x2\nhosts = 1\n'
        self.assertEqual(Network.read(text), Network((Imp(1, 1, "A B"), Imp(2)), (Line(1, 2),), True))

    def test_topologies_that_are_none(self) -> None:
        rows = {"imp": "not read", "[[imp]]\nid = 1": "exactly the keys hosts and id", "[[imp]]\nid = true\nhosts = 1": "are whole", "raw = 1": "`raw` is true or false", "imp = 1": "exactly the keys", "": "1 to 63 IMPs"}
        for text, words in rows.items():
            with self.subTest(text), self.assertRaisesRegex(BadNetwork, words):
                Network.read(text)

    def test_inputs_of_any_octets(self) -> None:
        text = Network.joined("Łódź-Zürich", raw=True).toml()
        script = Script.of_octets(b"\xef\xbb\xbf" + text.encode() + b"%\n# \xff\r\ncalm 1")
        self.assertEqual([it.name for it in script.network.imps], ["Łódź", "Zürich"])
        self.assertIn(b"# Z\xc3\xbcrich\n", script.octets())
        self.assertIn(b"\n# \xff\ncalm 1\n", script.octets())
        self.assertEqual(Script.of_octets(text.encode() + b"%").events, ())

    def test_names_that_no_topology_can_have(self) -> None:
        for name in ("A\nB", "A\rB", "\0A", "A\x85B", "A\u2028B", "\udcffA"):
            with self.subTest(name), self.assertRaises(BadNetwork):
                Network.joined(f"{name}-C")

    def test_typed_text_keeps_its_spaces(self) -> None:
        self.assertEqual(read_event("type 0/1  a b", TWO), events.Type(Host(0, 1), " a b"))
        self.assertEqual(str(events.Type(Host(0, 1), "")), "type 0/1 ")

    def test_numbers_in_range(self) -> None:
        long = Text.of(b"x" * 1008)
        calls: list[Callable[[], object]] = [lambda: events.Resend(64), lambda: events.Calm(-1), lambda: events.Listen(Host(0, 1), 5, 256), lambda: Out(Flow(Host(0, 1), Host(0, 2), 0), long)]
        for call in calls:
            with self.assertRaises(BadLine):
                call()

    def test_expectations_are_read(self) -> None:
        text = Network.joined("A-B", raw=True).toml() + "%\n# first\ncalm 1\n#=\nout 0/1 0/2 0 0 -\n#= out 0/1 0/2 0 0\ntake 0/1\n"
        script = Script.read(text)
        self.assertEqual([it.expected for it in script.entries], [(), ("out 0/1 0/2 0 0",), None])
        self.assertEqual((script.entries[0].comments, script.entries[1].number), (("first",), 16))
        self.assertEqual(Script.read(script.text()).entries[1].expected, ("out 0/1 0/2 0 0",))
        for wrong in ("#= x\ncalm 1\n", "calm 1\n#=\n#= out\n"):
            with self.assertRaises(BadLine):
                Script.read(Network.joined("A-B", raw=True).toml() + "%\n" + wrong)


class Patterns(unittest.TestCase):
    def found(self, text: str, lines: list[str], last: tuple[str, ...] = ()) -> dict[str, str] | None:
        return pattern.read(text).match(lines, last)

    def test_names_are_bound_once(self) -> None:
        lines = ["in 0/1 0/2 5 8", "answer rfnm 0/1 0/2 6", "answer rfnm 0/1 0/2 5"]
        self.assertEqual(self.found("in A B N .. then answer rfnm A B N", lines), {"A": "0/1", "B": "0/2", "N": "5"})
        self.assertIsNone(self.found("in A B N .. then answer rfnm A B N", lines[:2]))
        self.assertIsNone(self.found("answer rfnm A B N then in A B N ..", lines))

    def test_what_must_not_come_between(self) -> None:
        text = "out A B .. then not down A then in A B .."
        self.assertIsNone(self.found(text, ["out 0/1 0/2 0 0", "down 0/1", "in 0/1 0/2 0 0"]))
        self.assertIsNotNone(self.found(text, ["out 0/1 0/2 0 0", "down 0/2", "in 0/1 0/2 0 0"]))
        self.assertIsNotNone(self.found(text, ["down 0/1", "out 0/1 0/2 0 0", "in 0/1 0/2 0 0"]))

    def test_nothing_until_the_end(self) -> None:
        self.assertIsNone(self.found("up A then not down A", ["up 0/1", "down 0/1"]))
        self.assertIsNotNone(self.found("up A then not down A", ["up 0/1", "down 0/2"]))

    def test_anywhere_and_comparisons(self) -> None:
        lines = ["sent 0/2 33 8", "arrived 0/1 16 7"]
        self.assertIsNotNone(self.found("arrived A S M and sent B T N where M < N where A != B", lines))
        self.assertIsNone(self.found("arrived A S M and sent B T N where N < M", lines))

    def test_rest_in_the_middle(self) -> None:
        self.assertEqual(self.found("life A .. open", ["life 0/1 16 0/2 ended", "life 0/2 33 0/1 open"]), {"A": "0/2"})

    def test_last_calm(self) -> None:
        self.assertIsNone(self.found("out .. and calm 5: nothing", ["out 0/1"], ("in 0/1",)))
        self.assertIsNotNone(self.found("out .. and calm 5: 2 lines, no ready", ["out 0/1"], ("in 0/1", "in 0/1")))
        self.assertIsNone(self.found("out .. and calm 5: 2 lines, no in", ["out 0/1"], ("in 0/1", "in 0/1")))

    def test_numbers_of_many_digits(self) -> None:
        many = MANY_DIGITS
        for text in (f"calm {many}: nothing", f"calm 2: {many} lines", f"in A N .. where N < {many}"):
            with self.subTest(text[:9]), self.assertRaises(pattern.BadPattern):
                pattern.read(text)

    def test_bad_patterns(self) -> None:
        for text in ("", "A B", "in .. A .. B", "in a B ..", "not in A", "in A where A", "out .. and calm 5: quiet"):
            with self.subTest(text), self.assertRaises(pattern.BadPattern):
                pattern.read(text)

    def test_what_is_asked_of_printed_lines(self) -> None:
        def kept(text: str) -> list[str]:
            sequels = pattern.read(text).printed().sequels
            return [" ".join([*(f"not {bar} then" for bar in barred), str(part)]) for it in sequels for barred, part in it.parts]

        self.assertEqual(kept("noted never A B N K then answer incomplete A B N then arrives data A B N K"), ["answer incomplete A B N"])
        self.assertEqual(kept("noted never A B N K then arrives data A B N K"), [])
        self.assertEqual(kept("out A B N .. then not in A B N .. then answer dead A B N"), ["out A B N ..", "not in A B N .. then answer dead A B N"])
        # nothing is barred after a line that isn't printed, nor by a name that such a line binds
        self.assertEqual(kept("noted taken A B N K then not out .. then in A B N .."), ["in A B N .."])
        self.assertEqual(kept("slots I 2 and out A B N .. then not in X B N .. then in A B N .."), ["out A B N ..", "in A B N .."])

    def test_what_matches_all_matches_what_is_printed(self) -> None:
        chance, full = random.Random(3), pattern.read("out A B N then not up A then noted never A B N K then answer incomplete A B N then not down B then up B then not out A B N")
        kinds, count = ("out 0/1 0/2 5", "noted never 0/1 0/2 5 0", "answer incomplete 0/1 0/2 5", "up 0/1", "up 0/2", "down 0/2", "out 0/2 0/1 5"), 0
        for _ in range(20_000):
            lines = [chance.choice(kinds) for _ in range(chance.randrange(10))]
            if full.match(lines) is not None:
                count += 1
                self.assertIsNotNone(full.printed().match([it for it in lines if not it.startswith("noted")]), lines)
        self.assertGreater(count, 100)

    def test_depth(self) -> None:
        self.assertEqual(pattern.read("out A .. then in A .. then answer rfnm A ..").depth(["out 0/1 0/2", "in 0/1 0/2"]), 2)


class Shrinking(unittest.TestCase):
    def test_needed_events_stay(self) -> None:
        script = tuple(Drop(0, "+", it) for it in range(40))
        wanted = {str(script[it]) for it in (3, 17, 30)}
        shrinker = shrink.Shrinker(lambda it: wanted <= set(map(str, it)))
        self.assertEqual(len(shrinker.shrink(script)), 3)
        self.assertLess(shrinker.runs, 400)

    def test_calms_are_joined_and_shortened(self) -> None:
        shrinker = shrink.Shrinker(lambda it: sum(event.rounds for event in it if isinstance(event, Calm)) >= 4)
        self.assertEqual(shrinker.shrink((Calm(5), Drop(0, "+", 0), Calm(2), Calm(3))), (Calm(4),))

    def test_after_too_many_runs_nothing_is_tried(self) -> None:
        shrinker = shrink.Shrinker(lambda it: True, 0)
        self.assertEqual(shrinker.shrink((Calm(1),)), (Calm(1),))


class Schedules(unittest.TestCase):
    def test_forbidden_kinds_are_left_out(self) -> None:
        net = Network.joined("A-B", raw=True)
        kept = fit(pools(net), pattern.read("not down .. then in A .."))
        self.assertFalse({"hostdown", "impdown"} & {*kept})
        self.assertIn("impdown", fit(pools(net), pattern.read("up A then not down .. then in A ..")))

    def test_same_seed_same_schedules(self) -> None:
        maker = Maker(pools(Network.joined("A-B", raw=True)))
        self.assertEqual(maker.batch(random.Random(5), 4), maker.batch(random.Random(5), 4))

    def test_copies_are_moved(self) -> None:
        self.assertEqual(moved(Flow(Host(0, 1), Host(1, 2), 7), "flow", 4, 2), Flow(Host(0, 5), Host(1, 6), 7))
        self.assertEqual((moved(1, "line", 4, 2), moved(1, "imp", 4, 2), moved(1, "place", 4, 2)), (3, 5, 1))

    def test_a_pattern_about_a_trace_favours_what_leads_to_it(self) -> None:
        net = Network.joined("A-B", raw=True)
        self.assertEqual(favoured(pattern.read("out A B N")), frozenset())
        asked = favoured(pattern.read("noted never A B N K then arrives data A B N K"))
        self.assertEqual(asked, {"out", "ask", "deliver"})
        maker = Maker(pools(net), favoured=asked)
        counts = [sum(type(maker.events[it]).__name__ in ("Out", "Ask", "Deliver") for parts in maker.batch(random.Random(1), 30, number)[0] for part in parts for it in part) for number in (0, 2)]
        self.assertGreater(counts[1], 2 * counts[0])


if __name__ == "__main__":
    unittest.main()

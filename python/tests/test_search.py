"""Searches: batches in their order from any executor, states in files, campaigns, and all states of small networks."""

from __future__ import annotations

import json
import os
import signal
import tempfile
import unittest
from collections.abc import Callable
from concurrent.futures import Future
from itertools import islice
from pathlib import Path
from typing import TypeVar

from dorydate.explore import fast, without
from dorydate.explore.breadth import Asked, Lists, Walk
from dorydate.explore.campaign import BadTable, Campaign, seeds_of
from dorydate.explore.engine import CHUNK, Local, NoCluster, Ordered, OtherProgram, made
from dorydate.explore.kinds import pools
from dorydate.explore.pattern import read
from dorydate.explore.search import Job, Progress
from dorydate.explore.sides import batches, calms_of, with_own_places
from dorydate.explore.state import OtherState, State
from dorydate.model.subnet import Subnet
from dorydate.model.without import HARMLESS
from dorydate.network import Network
from dorydate.program import Program
from dorydate.where import found
from dorydate.script import Calm, read_event

Made = TypeVar("Made")
PLAIN = Network.joined("A", "B", raw=True, carrier="plain")
JOB = Job(PLAIN.toml(), "in A B N ..")


def squares(first: int, many: int) -> list[int]:
    return [it * it for it in range(first, first + many)]


def fails_at_three(first: int, many: int) -> list[int]:
    return [it if it != 3 else it // 0 for it in range(first, first + many)]


def ends_once(mark: str, first: int, many: int) -> list[int]:
    """Ends its process at the first call for the numbers from CHUNK on."""
    if first == CHUNK and not os.path.exists(mark):
        Path(mark).touch()
        os.kill(os.getpid(), signal.SIGKILL)
    return squares(first, many)


class Bare:
    """Workers without the package."""

    def submit(self, call: Callable[..., list[Made]], *words: object) -> Future[list[Made]]:
        future: Future[list[Made]] = Future()
        future.set_exception(ModuleNotFoundError("no", name="dorydate"))
        return future

    def count(self) -> int:
        return 1

    def renew(self) -> None: ...

    def close(self) -> None: ...


class Executors(unittest.TestCase):
    def local(self) -> Local:
        local = Local(2, Program("/bin/true"))
        self.addCleanup(local.close)
        return local

    def setUp(self) -> None:
        before = os.environ.get("DORYDATE_PROGRAM")
        self.addCleanup(lambda: os.environ.pop("DORYDATE_PROGRAM", None) if before is None else os.environ.update(DORYDATE_PROGRAM=before))

    def test_batches_come_in_order_from_any_number_on(self) -> None:
        for first in (0, 5):
            self.assertEqual([*islice(Ordered(self.local(), squares).since(first), 40)], [it * it for it in range(first, first + 40)])

    def test_what_goes_wrong_comes_in_its_place(self) -> None:
        with self.assertRaises(ZeroDivisionError):
            next(Ordered(self.local(), fails_at_three).since(0))

    def test_what_a_killed_worker_had_is_made_once_more(self) -> None:
        with tempfile.TemporaryDirectory() as room:
            self.assertEqual([*islice(Ordered(self.local(), ends_once, f"{room}/mark").since(0), 40)], [it * it for it in range(40)])
            self.assertTrue(os.path.exists(f"{room}/mark"))

    def test_a_package_that_is_missing_is_told(self) -> None:
        with self.assertRaisesRegex(NoCluster, "a worker has no package dorydate"):
            next(Ordered(Bare(), squares).since(0))

    def test_a_worker_with_another_program_is_told(self) -> None:
        says = "a worker has another program: .* begins with .*, and not with 000000000000$"
        with self.assertRaisesRegex(OtherProgram, says):
            made(JOB, 64 * "0", 0, 1)


class States(unittest.TestCase):
    def kept(self, room: str) -> State:
        state = State(f"{room}/state", "hash")
        progress = Progress(schedules=62, matches=1, next=2, best=(Calm(1), read_event("take 0/1")))
        state.keep("", JOB, progress, True)
        return State(f"{room}/state", "hash")

    def test_a_search_goes_on_where_it_was(self) -> None:
        with tempfile.TemporaryDirectory() as room:
            progress = self.kept(room).resumed("", JOB)
            assert progress is not None and progress.best is not None
            self.assertEqual((progress.schedules, progress.next, [*map(str, progress.best)]), (62, 2, ["calm 1", "take 0/1"]))

    def test_states_of_others_are_refused(self) -> None:
        with tempfile.TemporaryDirectory() as room:
            state = self.kept(room)
            for word, job in ("seed", Job(JOB.network, JOB.pattern, seed=2)), ("pattern", Job(JOB.network, "out A B N ..")):
                with self.assertRaisesRegex(OtherState, f"another {word}"):
                    state.resumed("", job)
            with self.assertRaisesRegex(OtherState, "another program"):
                State(f"{room}/state", "other")
            wrong = {"format": 1, "program": "hash", "searches": 5}
            for text in "no JSON", "[]", json.dumps({"format": 9}), json.dumps(wrong):
                Path(f"{room}/wrong").write_text(text, encoding="utf-8")
                with self.assertRaisesRegex(OtherState, "no state of a search"):
                    State(f"{room}/wrong", "hash")


    def test_a_refused_state_stays_as_it_was(self) -> None:
        with tempfile.TemporaryDirectory() as room:
            path = self.kept(room).path
            before = path.read_text(encoding="utf-8")
            for word in "job", "progress", "schedules":
                wrong = before.replace(f'"{word}"', '"other"')
                path.write_text(wrong, encoding="utf-8")
                with self.assertRaisesRegex(OtherState, "no state of a search", msg=word):
                    State(str(path), "hash").resumed("", JOB)
                self.assertEqual(path.read_text(encoding="utf-8"), wrong)


class Campaigns(unittest.TestCase):
    def test_tables(self) -> None:
        campaign = Campaign.read("search,seeds,runs\nhalf-open,1-2 7,50\nresets-in-step,,\n", "out.csv")
        self.assertEqual([(it.row, it.name, it.job.seed, it.runs) for it in campaign.tasks], [(1, "half-open", 1, 50), (1, "half-open", 2, 50), (1, "half-open", 7, 50), (2, "resets-in-step", 1, 100_000)])
        self.assertEqual(seeds_of("3 5-6"), [3, 5, 6])
        for words in ("a", "1-", "-2", "1-2-3", "9" * 4301, f"1-{'9' * 4301}", "1-999999999"):
            with self.subTest(words[:9]), self.assertRaises(BadTable):
                seeds_of(words)

    def test_bad_tables_are_refused_by_name(self) -> None:
        for table, says in {
            "search,speed\na,b\n": "`speed` is no column",
            "search\n": "has no rows",
            "search\nno-such\n": "row 1: 'no-such' is no search",
            "network,pattern\nA-B,in A b\n": "row 1: `b` in",
            "search,seeds\nhalf-open,1-x\n": "row 1: `1-x` is no seed",
            "search,runs\nhalf-open,0\n": "row 1: `0` is no number",
            "network,raw,pattern\nA-B,maybe,in A B N ..\n": "row 1: `maybe` is neither yes nor no",
            "pattern\nin A B N ..\n": "row 1: it names neither",
        }.items():
            with self.assertRaisesRegex(BadTable, says, msg=table):
                Campaign.read(table, "out.json")
        with self.assertRaisesRegex(BadTable, "ends with .csv or .json"):
            Campaign.read("search\nhalf-open\n", "out.txt")


class Sides(unittest.TestCase):
    def test_scripts_with_the_same_calms_go_together(self) -> None:
        scripts = [(Calm(1),), (read_event("take 0/1"),), (read_event("take 0/2"), Calm(1)), (Calm(2),)]
        together = [[script for script, _ in some] for some in batches(((it, None) for it in scripts), 2)]
        self.assertEqual([[*map(calms_of, some)] for some in together], [[(1,), (1,)], [()], [(2,)]])

    def test_places_are_counted_in_the_own_copy(self) -> None:
        program = {"pairs": [{"ends": [{"requests": {"own": 7, "peer": None}}]}]}
        with_own_places(program, [2, 5, 7, 9])
        self.assertEqual(program["pairs"][0]["ends"][0]["requests"], {"own": 2, "peer": None})


class AllStates(unittest.TestCase):
    events = tuple(event for kind in pools(PLAIN).values() for event in kind)

    def test_plain_mailboxes_have_38_states(self) -> None:
        walk = Walk(PLAIN, read("out A B N .. then out A B N .. then in A B N .. then not out A B N .. then in A B N .."), found(), self.events)
        self.assertIsNone(walk.run(40, 600.0))
        self.assertTrue(walk.is_all())
        (first,) = (it for it in walk.counts if it.depth == 1)
        self.assertEqual((first.steps, first.refused), (10, 4))

    def test_the_shortest_is_found_after_an_opening_too(self) -> None:
        pattern = read("in A B N .. then answer incomplete A B N")
        walk = Walk(PLAIN, pattern, found(), self.events)
        shortest = walk.run(6, 600.0)
        assert shortest is not None
        self.assertEqual(len(shortest), 4)
        opening = shortest[:2]
        after = Walk(PLAIN, pattern, found(), self.events, opening).run(6, 600.0)
        assert after is not None
        self.assertEqual(len(after), 2)

    def test_lists_and_states_agree(self) -> None:
        states = Walk(PLAIN, read("answer incomplete A B N"), found(), self.events).run(5, 600.0)
        lists = Lists(PLAIN, read("answer incomplete A B N and calm 1: nothing"), found(), self.events).run(5, 600.0)
        assert states is not None and lists is not None
        self.assertEqual((len(states), len(lists)), (3, 3))


class Fast(unittest.TestCase):
    def test_patterns_as_the_plain_program_reads_them(self) -> None:
        pattern = read("not down .. then out A B N .. then not in _ B then answer dead A B N and calm 5: no ready, 9 lines where A != B")
        lines = ["sequel", "bar down ..", "part out A B N ..", "bar in _ B", "part answer dead A B N", "where A != B", "calm 5", "least 9", "none ready .."]
        self.assertEqual(fast.spelled(pattern).splitlines(), lines)

    def test_what_it_prints_is_read(self) -> None:
        answer = fast.Answer()
        for line in "depth 1 40 22 10 11 0.5 120", "part 2 7 1 3 14 0.6 130", "class 3 no rest: out\tcalm 1; take 0/1", "stopped time":
            answer.take(line)
        self.assertEqual((answer.whole, answer.is_all, answer.stopped, len(answer.levels)), (1, False, "time", 2))
        self.assertEqual((answer.classes[0].count, answer.classes[0].label, len(answer.classes[0].script)), (3, "no rest: out", 2))

    def test_its_input_has_four_parts(self) -> None:
        asked = Asked(PLAIN, read("in A B N .."), (), (read_event("take 0/1"), Calm(1)), 3, 1.0)
        self.assertEqual(fast.input_of(asked).decode().split("\n%\n")[1:], ["", "take 0/1\ncalm 1", "sequel\npart in A B N ..\n"])


class Without(unittest.TestCase):
    def test_a_raw_network_is_judged_by_its_boxes(self) -> None:
        rule = "a message is given up only when nothing of it is alive"
        lacking = without.Lacking(rule, without.sought_for(rule))
        script = [*map(read_event, ("calm 2", "out 0/1 0/2 0 0 -", "giveup 0/1 0/2 0", "calm 1"))]
        self.assertEqual(lacking.breaks(script), "run")
        self.assertIsNone(without.Lacking(None, without.sought_for(rule)).breaks(script))

    def test_events_of_the_model_alone(self) -> None:
        self.assertEqual([str(without.event_of(it)) for it in ("hold 0/2 0/1 2", "free 0/2 0/1 2", "take 0/1")], ["hold 0/2 0/1 2", "free 0/2 0/1 2", "take 0/1"])

    def test_a_plan_says_what_crosses_and_what_is_left(self) -> None:
        plan = without.COMES_ROUND
        place = without.Lacking(None, without.sought_for("a window"))
        for script, is_followed in {
            ("calm 1", "out 0/1 0/2 0 0 -", "deliver 0 + 0"): True,
            ("calm 1", "out 0/1 0/2 0 0 -", "calm 2"): True,
            # nothing of the first message is alive
            ("calm 1", "out 0/1 0/2 0 0 -", "calm 4", "out 0/1 0/2 0 0 -"): False,
            ("out 0/1 0/2 0 0 -", "take 0/1"): False,  # its answer is Dead
        }.items():
            after = place.after(map(read_event, script))
            assert isinstance(after, Subnet)
            self.assertEqual(plan.is_followed(after), is_followed, script)

    def test_each_stored_script_names_a_rule(self) -> None:
        for rule in without.rules():
            lesson = without.stored_for(rule)
            self.assertEqual(lesson is None, rule in HARMLESS, rule)


if __name__ == "__main__":
    unittest.main()

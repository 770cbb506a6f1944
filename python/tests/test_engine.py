"""How events of a live network happen: line by line, or round by round."""

from __future__ import annotations

import sys
import tempfile
import unittest
from pathlib import Path
from unittest import mock

from dorydate.live.engine import LIVE, Ended, Lines, Rounds, engine_of
from dorydate.network import Network
from dorydate.program import Program
from dorydate.script import read_event
from dorydate.where import found

TWO = """[[imp]]
id = 1
hosts = 1
[[imp]]
id = 2
hosts = 1
foreign = [0]
[[line]]
a = 1
b = 2
"""
NETWORK = Network.read(TWO)
STEPS = "calm 2", "contact 0/1 0/2", "calm 9", "take 0/2", "hostup 0/2", "hostdown 0/2", "offer 0/1", "calm 9"
EVENTS = [read_event(it) for it in STEPS]
# answers each line of a script by itself, but ends at `calm 3`, and never answers `calm 4`
ECHO = """#!{python}
import sys, time
head = iter(sys.stdin.readline, "%\\n")
"".join(head)
for line in iter(sys.stdin.readline, ""):
    if line == "calm 3\\n":
        sys.exit("arpasim: stopped")
    time.sleep(60 if line == "calm 4\\n" else 0)
    print(line, flush=True)
print("end")
"""


class Engines(unittest.TestCase):
    def setUp(self) -> None:
        room = tempfile.TemporaryDirectory()
        self.addCleanup(room.cleanup)
        echo = Path(room.name, "echo")
        echo.write_text(ECHO.format(python=sys.executable))
        echo.chmod(0o755)
        self.echo = Program(str(echo))

    def test_each_line_is_answered_by_itself(self) -> None:
        lines = Lines(self.echo, TWO)
        self.assertEqual(lines.hear(EVENTS[:2]), [["calm 2"], ["contact 0/1 0/2"]])
        many = [f"calm {it}" for it in range(10, 10_000)]
        self.assertEqual(lines.resumed([it.encode() for it in many]), many)
        lines.end()
        self.assertEqual(lines.process.returncode, 0)
        lines.end()

    def test_a_program_that_ends_says_why(self) -> None:
        lines = Lines(self.echo, TWO)
        with self.assertRaisesRegex(Ended, r"the program says: arpasim: stopped \(status 1\)"):
            lines.hear([read_event("calm 3")])
        with self.assertRaisesRegex(Ended, "the program has ended"):
            lines.hear([read_event("calm 2")])

    def test_one_that_never_answers_is_stopped(self) -> None:
        lines = Lines(self.echo, TWO)
        with mock.patch("dorydate.live.engine.SECONDS", 0.2), self.assertRaisesRegex(Ended, "longer than 0.2 seconds"):
            lines.hear([read_event("calm 4")])
        self.assertNotEqual(lines.process.returncode, 0)

    def test_by_rounds_it_is_the_same(self) -> None:
        program = found()
        engine, rounds = engine_of(program, TWO, NETWORK), Rounds(program, TWO, NETWORK)
        self.assertEqual(isinstance(engine, Lines), LIVE in program.run(b"", "--help").output)
        self.assertEqual(engine.hear(EVENTS), rounds.hear(EVENTS))
        self.assertEqual(engine.hear(EVENTS[:2]), rounds.hear(EVENTS[:2]))
        engine.end()

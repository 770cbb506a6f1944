"""Runs that may take a number of seconds of the processor."""

from __future__ import annotations

import sys
import unittest

from workshop.limited import NotEnded, run_within

PYTHON = (sys.executable, "-S", "-c")


class Limited(unittest.TestCase):
    """What comes of a run."""

    def test_how_it_ends(self) -> None:
        program = "import sys; print(sys.stdin.read() + sys.argv[1]); print('no', file=sys.stderr); sys.exit(4)"
        ran = run_within([*PYTHON, program, "a 'b' $0"], b"given: ", 60)
        self.assertEqual((ran.returncode, ran.stdout, ran.stderr), (4, b"given: a 'b' $0\n", b"no\n"))

    def test_time_that_it_waits_is_none(self) -> None:
        ran = run_within([*PYTHON, "import time; time.sleep(1.5)"], b"", 1)
        self.assertEqual(ran.returncode, 0)

    def test_a_run_without_an_end(self) -> None:
        with self.assertRaisesRegex(NotEnded, "after 1 seconds of the processor"):
            run_within([*PYTHON, "while True: pass"], b"", 1)

    def test_what_it_inherits(self) -> None:
        program = "import os; print(os.environ['SOME'], *os.environ.get('HOME', '-'))"
        self.assertEqual(run_within([*PYTHON, program], b"", 60, {"SOME": "one"}).stdout, b"one -\n")


if __name__ == "__main__":
    unittest.main()

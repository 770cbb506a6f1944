"""What checks leave out is said and noted, and the gate's yardstick compares like with like."""

from __future__ import annotations

import io
import os
import tempfile
import unittest
from contextlib import redirect_stdout
from pathlib import Path
from unittest import mock

from workshop.builds import one
from workshop.checks.edits import status_of, words_of
from workshop.measure import gate
from workshop.tools import NOTED, TOOLS, lacking, left_out

ROWS = {"imp_node": (8_366, 500), "icp": (2_000, 100), "subnet": (9_000, 600)}
PAGE = "\n".join(
    [
        gate.MARKERS[0],
        "| Crate | Lines | Library | Tests | Planted bugs |",
        *(f"| `{crate}` | {lines:,} | {seconds} |  |  |" for crate, (lines, seconds) in ROWS.items()),
        "| yardstick 1.20 | | 600 | | |",
        gate.MARKERS[1],
    ]
)


class LeftOut(unittest.TestCase):
    def test_what_is_left_out_is_said_and_noted(self) -> None:
        with tempfile.TemporaryDirectory() as folder, redirect_stdout(io.StringIO()) as said:
            noted = Path(folder, "noted")
            with mock.patch.dict(os.environ, {NOTED: str(noted)}):
                left_out("seen", "half of it", "it is late")
                lacking("python", "types", "mypy")
            lines = noted.read_text(encoding="utf-8")
        self.assertEqual(
            lines.splitlines(),
            [
                "check seen: DID NOT RUN: half of it: it is late",
                "check python: DID NOT RUN: types: mypy is not installed (apt-get install mypy)",
            ],
        )
        self.assertEqual(said.getvalue(), lines)

    def test_nothing_is_noted_outside_of_the_gate(self) -> None:
        with mock.patch.dict(os.environ), redirect_stdout(io.StringIO()) as said:
            os.environ.pop(NOTED, None)
            left_out("seen", "half of it", "it is late")
        self.assertIn("DID NOT RUN", said.getvalue())

    def test_no_tool_is_there_without_a_path(self) -> None:
        with mock.patch("shutil.which", lambda name: None):
            self.assertFalse(any(it.is_there() for it in TOOLS if it.commands))


class Yardstick(unittest.TestCase):
    def test_only_crates_with_the_same_lines_count(self) -> None:
        crates = {"imp_node": 1_000.0, "icp": 900.0, "subnet": 1.0}
        now: dict[gate.Work | None, float] = {(crate, "library"): seconds for crate, seconds in crates.items()}
        lines = {"imp_node": 8_366, "icp": 2_001, "subnet": 9_000}
        with mock.patch.object(gate, "lines_of", lines.__getitem__):
            self.assertEqual(gate.yardstick(now, PAGE), 2.4)

    def test_a_page_without_one_begins_at_one(self) -> None:
        rows, measure = gate.stored(PAGE.replace("yardstick", "other"))
        self.assertEqual((rows["icp"], measure), (gate.Row(2_000, (100, 0, 0)), 1.0))
        self.assertIsNone(gate.yardstick({}, PAGE))


class EditsOfTheGate(unittest.TestCase):
    def test_a_number_of_jobs_is_no_crate(self) -> None:
        asked = words_of().parse_intermixed_args(["--gate", "--jobs", "2"])
        self.assertEqual((asked.whole, asked.jobs, asked.edit), (False, 2, []))

    def test_none_tried_is_no_success(self) -> None:
        with redirect_stdout(io.StringIO()):
            self.assertEqual([status_of(it) for it in ([(2, 0)], [(2, 1)], [(0, 0)])], [0, 1, 1])


class CheckOne(unittest.TestCase):
    def test_what_stands_on_sources_is_read_from_sources(self) -> None:
        lines: dict[str, list[str]] = {"a": [], "b": ["a"], "c": ["b"], "d": ["a", "std"]}
        kept = mock.Mock(is_of_sources=lambda: True)
        with mock.patch.object(one, "store", lambda: "/"), mock.patch.object(
            one, "libraries_of", lambda crate: [] if crate == "b" else [kept]
        ):
            self.assertEqual([*one.chosen(lines, ["a", "b", "c", "d"], set())], ["a", "d"])
            self.assertEqual([*one.chosen(lines, ["a", "b", "c", "d"], {"d"})], ["a"])

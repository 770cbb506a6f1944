"""Stored rows: how they are spelled and read, and what is wrong with them."""

from __future__ import annotations

import unittest

from workshop.checks.imp_rows import open_imp
from workshop.checks.readings import Compared
from workshop.checks.rows import unanswered
from workshop.rows import BadRow, blocks_of, files, packed, plain, spelled

TEXT = """# a name
imp 1 2 1
route
= ok
= 0 F2020000,3F*62

server 7 100
= listen 7 32
repeat 3
refused
= nothing
end
refused
"""


class Spelled(unittest.TestCase):
    """Octets in rows."""

    def test_runs(self) -> None:
        for digits, row in (
            ("A5", "A5"),
            ("3F" * 7, "3F" * 7),
            ("3F" * 8, "3F*8"),
            ("F3" + "3F" * 9 + "33", "F3,3F*9,33"),
            ("00" * 126 + "01" * 126 + "06", "00*126,01*126,06"),
        ):
            self.assertEqual(packed(f"takes 0 {digits}"), f"takes 0 {row}")
            self.assertEqual(plain(f"takes 0 {row}"), f"takes 0 {digits}")

    def test_what_is_no_octets(self) -> None:
        for row in ("grant 1/2 16 65535 4294967295", "RTS 16 33 5 (01), end", "opened 33 0/2 16 5 7"):
            self.assertEqual((packed(row), plain(row)), (row, row))

    def test_a_call_and_its_answers(self) -> None:
        self.assertEqual(spelled("route", ["ok", "0 " + "3F" * 8]), ["route", "= ok", "= 0 3F*8"])


class Read(unittest.TestCase):
    """The blocks of a file."""

    def test_blocks(self) -> None:
        first, second = blocks_of(TEXT)
        self.assertEqual([row.call for row in first.rows()], ["route"])
        self.assertEqual(second.opening.answers, ["listen 7 32"])
        lines = [(times, [row.line for row in rows]) for times, rows in second.parts]
        self.assertEqual(lines, [(1, []), (3, [10]), (1, [13])])

    def test_a_call_without_an_answer_is_refused(self) -> None:
        self.assertEqual(unanswered("some", TEXT), ["some.rows, line 13: nothing is said of refused"])

    def test_an_answer_to_nothing(self) -> None:
        with self.assertRaises(BadRow):
            blocks_of("= ok\n")

    def test_all_calls_of_stored_files_are_answered(self) -> None:
        for name, path in files().items():
            with self.subTest(name), open(path, encoding="utf-8") as file:
                self.assertEqual(unanswered(name, file.read()), [])


class Answered(unittest.TestCase):
    """What a model says of stored rows."""

    def test_a_wrong_answer_is_noticed(self) -> None:
        block, _ = blocks_of(TEXT)
        right, wrong = Compared(), Compared()
        right.read("some", block, open_imp)
        next(block.rows()).answers[1] = "0 F2020000,3F*61,3E"
        wrong.read("some", block, open_imp)
        self.assertEqual((right.wrong, len(wrong.wrong)), ([], 3))


if __name__ == "__main__":
    unittest.main()

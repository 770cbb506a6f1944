"""Sheets for a class: a worksheet says nothing after its first question, its answers say all, and the hour is there."""

from __future__ import annotations

import unittest

from dorydate.explain.runs import kept_program, replay
from dorydate.explain.sheets import HOUR, sheet, slides
from dorydate.given import Input
from workshop.parts import ROOT, read_octets

ASKED = b"#? Who has it now?\n#! Host 0/2 takes it.\n"


class Sheets(unittest.TestCase):
    def of(self, octets: bytes, with_answers: bool) -> str:
        given = Input(octets)
        return sheet(given, replay(given, kept_program()).events, "first-message", with_answers)

    def test_a_worksheet_keeps_what_happens_after_its_question(self) -> None:
        plain = read_octets(f"{ROOT}/examples/first-message")
        octets = plain.replace(b"\ntake 0/2", b"\n" + ASKED + b"take 0/2", 1)
        self.assertNotEqual(octets, plain)
        worksheet, answers = self.of(octets, False), self.of(octets, True)
        for words in ("Who has it now?", "<code>take 0/2</code>", "0/1"):
            self.assertIn(words, worksheet)
            self.assertIn(words, answers)
        self.assertNotIn("takes it.", worksheet)
        self.assertIn("takes it.", answers)
        self.assertLess(len(worksheet), len(answers))

    def test_a_worksheet_without_a_question_says_nothing_of_what_happens(self) -> None:
        octets = read_octets(f"{ROOT}/examples/first-message")
        self.assertNotIn("RFNM", self.of(octets, False))
        self.assertIn("RFNM", self.of(octets, True))

    def test_the_slides_have_each_question_and_answer_of_the_hour(self) -> None:
        made = slides()
        for _, _, question, answer in HOUR:
            self.assertEqual(made.count(question), 2)
            self.assertIn(answer, made)


if __name__ == "__main__":
    unittest.main()

"""The contract of a host: rules by name, logs with deeds and without, and linear time."""

from __future__ import annotations

import contextlib
import io
import time
import unittest
from collections.abc import Iterable
from unittest import mock

from dorydate.contract import RULES, BadLog, judge, judged, read_log
from dorydate.contract.command import main
from dorydate.contract.texts import Command, commands_of, data_of, text_of
from dorydate.contract.worlds.stored import Script, wrong_with
from dorydate.model.bits import spell_bits
from dorydate.model.commands import ALL, CLS, RET, RRP, RST, RTS, STR, header
from workshop.parts import ROOT, text_of as file

X = "01011000"


def out(one: str, other: str, *commands: tuple[int, ...]) -> str:
    return f"out {one} {other} 0 {spell_bits(text_of(*(Command(it[0], it[1:]) for it in commands)))}"


def passes(line: str) -> list[str]:
    """A message that goes out is taken and answered."""
    _, one, other, link, *text = line.split(" ")
    return [line, f"in {one} {other} {link} {' '.join(text)}", f"answer rfnm {one} {other} {link}"]


def said(one: str, other: str, *commands: tuple[int, ...]) -> list[str]:
    return passes(out(one, other, *commands))


def data(bits: str, size: int = 8, link: int = 2, pad: int = 0) -> list[str]:
    return passes(f"out 0/2 0/1 {link} {spell_bits(header(size, len(bits) // size) + bits + '0' * pad)}")


A, B = ("0/1", "0/2"), ("0/2", "0/1")
RESET = [*said(*A, (RST,)), *said(*B, (RRP,))]
OPEN = [*said(*A, (RTS, 16, 33, 2)), *said(*B, (STR, 33, 16, 8))]
TOLD = ["opened 0/1 16 0/2 33", "opened 0/2 33 0/1 16"]
GRANT = ["grant 0/1 16 2 100", *said(*A, (ALL, 2, 2, 100))]
BEGUN = [*RESET, *OPEN, *TOLD, *GRANT]


def verdicts(lines: Iterable[str], whole: bool = True) -> dict[str, str]:
    """Of each host that breaks a rule, its name and the line."""
    found = judged(read_log(lines), whole=whole)
    return {it.host: f"{it.rule.name} {it.line}" for it in found if it.rule is not None}


class Rules(unittest.TestCase):
    def test_each_rule_is_needed(self) -> None:
        for rule in RULES.values():
            if rule.is_needed:
                with self.subTest(rule.name):
                    script = Script.read(file(f"{ROOT}/{rule.script}"))
                    self.assertEqual(script.lacks, rule.name)
                    self.assertIsNone(wrong_with(script))

    def test_a_script_that_shows_something_else_is_found(self) -> None:
        text = file(f"{ROOT}/without/contract/idle")
        rows = [
            ("# lacks: idle", "# lacks: nosuch", "no rule"), ("# lacks: idle", "# lacks: alone", "still breaks"),
            ("# host: 0/2", "# host: 0/1", "still breaks"),
            ("# breaks: bits same", "# breaks: same", "it breaks bits same, not same"),
            ("answer rfnm 0/1 0/2 0\n", "", "no run"),
        ]
        for old, new, words in rows:
            with self.subTest(new):
                self.assertIn(words, str(wrong_with(Script.read(text.replace(old, new, 1)))))

    def test_beside(self) -> None:
        owed = [*said(*A, (RST,)), out(*B, (STR, 33, 16, 8))]
        self.assertEqual(verdicts(owed), {"0/2": "reply 4"})
        self.assertEqual(verdicts([*RESET, *said(*B, (RRP,))]), {"0/2": "reply 7"})
        self.assertEqual(verdicts([*RESET, *said(*A, (RTS, 16, 33, 40))]), {"0/1": "links 7"})
        beside = [*RESET, *said(*A, (RTS, 16, 33, 2), (ALL, 2, 1, 8))]
        self.assertEqual(verdicts(beside), {"0/1": "waits 7"})


class Logs(unittest.TestCase):
    def test_what_is_right(self) -> None:
        padded = [*BEGUN, f"send 0/2 33 8 {'58'}", *data(X, pad=28)]
        at = padded.index("answer rfnm 0/2 0/1 2")
        padded.insert(at, "arrived 0/1 16 8 58")
        self.assertEqual(verdicts(padded), {})
        close = ["close 0/2 33", *said(*B, (CLS, 33, 16)), *said(*A, (CLS, 16, 33))]
        self.assertEqual(verdicts([*padded, *close, "ended 0/1 16 0/2 33", "ended 0/2 33 0/1 16"]), {})
        asked = [*RESET, "openrecv 0/1 0/2 16 33", "refused NoLink", *OPEN, *TOLD]
        self.assertEqual(verdicts(asked), {})
        returned = [*BEGUN, *said(*B, (RET, 2, 1, 50)), "returned 0/1 16 1 50"]
        self.assertEqual(verdicts(returned), {})

    def test_notices_before_their_message(self) -> None:
        held = [*RESET, *said(*A, (RTS, 16, 33, 2)), "opened 0/2 33 0/1 16", *said(*B, (STR, 33, 16, 8)), TOLD[0]]
        self.assertEqual(verdicts(held), {})

    def test_what_users_are_told(self) -> None:
        taken = [*BEGUN, "send 0/2 33 8 58", *data(X)[:2]]
        rows = [
            ("arrived 0/1 16 16 5858", "takes"),
            ("arrived 0/1 16 16", "takes"),
            ("arrived 0/1 16 8 59", "takes"),
            ("opened 0/1 16 0/2 33", "opens"),
            ("returned 0/1 16 1 8", "returned"),
            ("ended 0/1 16 0/2 33", "ended"),
            ("contact 0/1 0/2", "all"),
        ]
        for line, rule in rows:
            with self.subTest(line):
                self.assertEqual(verdicts([*taken, line]), {"0/1": f"{rule} {len(taken) + 1}"})
        self.assertEqual(verdicts([*taken, "arrived 0/1 16 8 58"]), {})
        self.assertEqual(verdicts([*taken, "arrived 0/1 16 8"]), {})

    def test_a_log_that_begins_amid(self) -> None:
        amid = [*OPEN, *TOLD]
        self.assertEqual(verdicts(amid), {"0/1": "through 1", "0/2": "through 4"})
        found = judge(read_log(amid), "0/1")
        self.assertIsNone(found.rule)
        self.assertIn("no reset with 0/2", found.how_far[0])
        self.assertEqual(verdicts([*RESET[:3], *OPEN], whole=False), {"0/1": "through 4", "0/2": "reply 7"})

    def test_crossings_alone(self) -> None:
        crossings = [it for it in [*BEGUN, *data(X)] if it.split(" ")[0] in ("out", "in", "answer")]
        found = judged(read_log(crossings), whole=True)
        self.assertEqual([it.rule for it in found], [None, None])
        self.assertIn("says nothing of users", found[0].how_far[0])
        self.assertEqual(verdicts([*crossings, *data(X * 20)]), {"0/2": f"within {len(crossings) + 1}"})
        self.assertEqual(verdicts([*crossings, *data(X, size=4)])["0/2"], f"size {len(crossings) + 1}")

    def test_one_host_alone(self) -> None:
        of_other = "out 0/1", "in 0/2", "answer rfnm 0/1", "opened 0/1", "grant 0/1"
        mine = [it for it in BEGUN if not it.startswith(of_other)]
        log = read_log(mine)
        self.assertEqual([*log.hosts], ["0/2"])
        self.assertIsNone(judge(log, "0/2", whole=True).rule)

    def test_bad_lines(self) -> None:
        rows = ["out 0/1 0/2 0 48 1", "grant 0/1 16", "life 0/1", "arrived 0/1", "%", "ignored 0/1 0"]
        for line in rows:
            with self.subTest(line), self.assertRaisesRegex(BadLog, "line 1"):
                read_log([line])

    def test_lives_without_deeds(self) -> None:
        """What `arpasim --log` writes: a close is taken where a life may have been closed."""
        head = [it for it in [*RESET, *OPEN, *GRANT[1:], *data(X)]]
        own, partner, sender = head.index(OPEN[0]), head.index(OPEN[4]), head.index(OPEN[3])
        life = f"life 0/1 16 0/2 33 {own} {partner} receive"
        other = f"life 0/2 33 0/1 16 {sender} {head.index(OPEN[1])} send 1 8 0 0 0 0 open 58"
        rows: list[tuple[str, dict[str, str]]] = [
            ("1 8 2 100 0 0 open 58", {}),
            ("0 0 2 100 0 0 open -", {}),
            ("0 0 2 100 0 0 ended -", {"0/1": "all"}),
            ("2 16 2 100 0 0 open 5858", {"0/1": "takes"}),
        ]
        for words, broken in rows:
            with self.subTest(words):
                log = read_log([*head, f"{life} {words}", other, "handed 0 -", "handed 8 58", "end"])
                found = {it.host: it.rule.name for it in judged(log) if it.rule}
                self.assertEqual(found, broken)
                self.assertIn("doesn't say when", judge(log, "0/1").how_far[0])

    def test_linear(self) -> None:
        """Ten times the messages take at most some fifteen times as long."""
        def seconds(count: int) -> float:
            grant = ["grant 0/1 16 1 8", *said(*A, (ALL, 2, 1, 8)), "send 0/2 33 8 58", *data(X)]
            grant.insert(-1, "arrived 0/1 16 8 58")
            log = read_log([*RESET, *OPEN, *TOLD, *(grant * count)])
            start = time.process_time()
            self.assertEqual([it.rule for it in judged(log, whole=True)], [None, None])
            return time.process_time() - start
        few = min(seconds(200) for _ in range(3))
        self.assertLess(seconds(2000), 20 * few)


class Texts(unittest.TestCase):
    def test_commands(self) -> None:
        several = text_of(Command(RTS, (16, 33, 2)), Command(ALL, (2, 1, 8)), Command(CLS, (16, 33)))
        self.assertEqual([*map(str, commands_of(several))], ["RTS 16 33 2", "ALL 2 1 8", "CLS 16 33"])
        malformed = "", header(8, 1), header(7, 0), header(8, 121) + "0" * 968
        self.assertEqual([commands_of(it) for it in malformed], [[]] * 4)
        self.assertEqual([*map(str, commands_of(header(8, 2) + "00001100" + "00001110"))], ["RST"])
        self.assertEqual(data_of(header(8, 1) + X + "111"), (8, X))
        self.assertIsNone(data_of(header(8, 1) + X[:7]))


class Words(unittest.TestCase):
    def said(self, *words: str) -> tuple[int, str]:
        with mock.patch("sys.argv", ["keeps", *words]), contextlib.redirect_stdout(io.StringIO()) as said:
            return main(), said.getvalue()

    def test_the_command(self) -> None:
        status, words = self.said(f"{ROOT}/without/contract/drained", "--whole")
        self.assertEqual(status, 1)
        self.assertIn("0/2 breaks `drained` in line 32: CLS 33 16 goes, and its data of line 29 have no answer", words)
        self.assertIn("(without/contract/drained)", words)
        self.assertIn("0/1 keeps the contract\n", words)
        one = self.said(f"{ROOT}/without/contract/drained", "--host", "0/1", "--whole")
        self.assertEqual(one, (0, "0/1 keeps the contract\n"))
        self.assertEqual(self.said("--rules")[1].count("the rule: "), len(RULES))
        for path, host in (("examples/first-message", None), ("without/contract/drained", "0/9")):
            with contextlib.redirect_stderr(io.StringIO()) as said_of:
                self.assertEqual(self.said(f"{ROOT}/{path}", *(["--host", host] if host else []))[0], 1)
            self.assertTrue(said_of.getvalue().startswith("keeps: "))


if __name__ == "__main__":
    unittest.main()

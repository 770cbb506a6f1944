"""Dialogues with programs that others wrote: the small one of examples/ is right, and planted faults are found."""

from __future__ import annotations

import sys
import tempfile
import types
import unittest
from collections.abc import Callable, Sequence
from dataclasses import dataclass
from pathlib import Path
from typing import Any
from unittest.mock import patch

from dorydate.conformance import DIALOGUES, UNDERWAY, Dialogue, Finding, Trial, tried, tried_underway
from dorydate.conformance.command import had
from dorydate.conformance.worlds import found_in as found_in_world
from dorydate.conformance.steps import fits, in_words, joined
from dorydate.contract import judge, read_log
from dorydate.coupling import Mute, Process, shown
from dorydate.model.commands import ECO, NOP, RRP, RST, alone, control_message, header
from dorydate.script import Script
from tests.fast import NeedsFastProgram
from workshop.parts import ROOT, text_of

NCP = f"{ROOT}/examples/ncp.py"
NAMED = {it.name: it for it in (*DIALOGUES, *UNDERWAY)}

# what is written in place of what, and the dialogue that finds it by these words
PLANTED = [
    ("was, peer.owes = peer.phase, True", "was = peer.phase", "reset", "says nothing, and right is `RRP`"),
    ("peer.owes = False", "peer.owes = True", "reset", "the network had not come to rest"),
    ("end.bits, MOST_BITS) //", "MOST_BITS) //", "sends", "`data 2 8 4C4F47494E21`"),
    ("count and end.link not in peer.busy", "count", "sends much", "refused: Blocked"),
    ("Code.ERP, parts[0])", "Code.ERP, parts[0] ^ 1)", "echo", "says `ERP 171`"),
    (
        "for it in peer.ends if (it.own, it.foreign) == (own, foreign)):",
        "for any_peer in self.peers.values() for it in any_peer.ends if it.own == own):",
        *("stolen socket", "to 0/1, who said nothing"),
    ),
    ("end.mine:", "end.mine and sys.exit():", "is closed", "ended when it heard"),
]  # fmt: skip


# the same of dialogues with things under way: where the answer breaks a rule of the contract, by its name
FORGETS = "            peer.forget(\"closed\")\n            self.notice(\"pairreset\", name)\n"
LISTENED = "            del self.listening[own]\n        if not end:"
COUNTER = "min(end.messages + messages, MOST_MESSAGES)"
OPENED = "self.notice(\"opened\""
OWES = "was, peer.owes = peer.phase, True"
PLANTED_UNDERWAY = [
    (FORGETS, "            pass\n", "fails", "`failed`"),
    ("if peer.phase == \"heard\":\n", "if peer.phase in (\"gone\", \"heard\"):\n", "early reply", "`early`"),
    ("return not peer.busy and", "return 0 not in peer.busy and", "reset while data are out", "`idle`"),
    ("return not peer.busy and", "return 0 not in peer.busy and", "is reset while data are out", "`idle`"),
    ("not end.data and end.link not in peer.busy", "not end.data", "closes before the answer", "`drained`"),
    ("not end.data and end.link not in peer.busy", "not end.data", "is closed while data are out", "`drained`"),
    ("end.receives() or not end.data and end.link not in peer.busy", "True", "closes with data waiting", "`drained`"),
    ("or peer.owes:", "or peer.owes and not peer.queue:", "talk before the reply", "`reply`"),
    ("next((it for it in LINKS if not peer.on(it, True)), 0)", "2", "two ends at once", "`link`"),
    (LISTENED, "        if not end:", "listens once", "right is `CLS 33 18`"),
    (COUNTER, "(end.messages + messages) % 65536", "a grant past the counter", "says nothing"),
    ("            peer.ends.remove(end)\n", "            end.own += 1 << 33\n", "thirty-one connections", "`ended`"),
    ("\"arrived\", end.own, len(bits)", "\"arrived\", end.own, 2 * len(bits)", "what came", "`takes`"),
    (OPENED, f"{OPENED}, end.own, name, end.foreign)\n            {OPENED}", "fails", "`opens`"),
    (OWES, "was, peer.owes = peer.phase, peer.phase == \"closed\"", "one reset after another", "says nothing"),
]  # fmt: skip


def program_of(text: str) -> Callable[[], Any]:
    """What starts a small program with this text in this process."""
    module = types.ModuleType("planted")
    sys.modules["planted"] = module
    exec(compile(text, "planted", "exec"), module.__dict__)
    make: Callable[[str], Any] = module.__dict__["Ncp"]
    return lambda: make("0/2")


@dataclass(frozen=True)
class Only:
    """A program that answers each message, or whatever begins so, by a line."""

    said: str
    to: tuple[str, ...] = ("in ",)

    def hear(self, line: str) -> Sequence[str]:
        return [self.said] if line.startswith(self.to) else []


def found_in(text: str, dialogue: Dialogue) -> Finding | None:
    """What a dialogue finds in a program with this text."""
    with tempfile.TemporaryDirectory() as room:
        Path(f"{room}/ncp.py").write_text(text, encoding="utf-8")
        return had([sys.executable, f"{room}/ncp.py"], dialogue)[0]


class Words(unittest.TestCase):
    def test_what_a_message_says(self) -> None:
        self.assertEqual(in_words(0, control_message([alone(NOP), bytes([ECO, 7])])), ["ECO 7"])
        both = control_message([alone(RST), alone(RRP)])
        self.assertEqual(in_words(0, both), ["beside others: RST", "beside others: RRP"])
        self.assertEqual(in_words(0, control_message([bytes([ECO])])), ["no command: Short 1"])
        self.assertEqual(in_words(0, control_message([b"\x01" + bytes(9)])), [f"erroneous: 01{'00' * 9}"])
        self.assertEqual([in_words(0, header(7, 0)), in_words(0, "1")], [["malformed 0"]] * 2)
        self.assertEqual(joined(in_words(2, header(8, 0)) + in_words(2, header(8, 1) + "0" * 8)), ["data 2 8 00"])

    def test_answers(self) -> None:
        self.assertEqual(fits(["RTS 32 17 5"], "RTS 32 17 L", ()), (("L", "5"),))
        self.assertEqual(fits(["ALL 5 1 8"], "ALL L 1 _", (("L", "5"),)), (("L", "5"),))
        rows: list[tuple[list[str], str]] = [(["ALL 6 1 8"], "ALL L 1 8"), (["RRP"] * 2, "RRP"), (["RRP"], "")]
        rows += [([], "RRP"), (["RST"], "RRP")]
        for said, right in rows:
            self.assertIsNone(fits(said, right, (("L", "5"),)))


class Programs(unittest.TestCase):
    def test_a_program_that_can_not_be_heard(self) -> None:
        rows = [
            (["/nowhere/ncp"], "doesn't start"),
            (["true"], "has ended|ended when"),
            (["sleep", "9"], "ended no answer"),
        ]
        for command, words in rows:
            with self.subTest(command), self.assertRaisesRegex(Mute, words):
                program = Process(command, seconds=0.2)
                try:
                    program.hear("contact 0/2 0/1")
                finally:
                    program.end()

    def test_a_program_that_never_ends_is_given_up(self) -> None:
        heard = "import sys; sys.stdin.readline()\n"
        rows = [
            ("import time\nwhile True: print('x', flush=True); time.sleep(0.1)", "by an empty line in 1 seconds"),
            ("while True: print('hello' * 20)", "by more than 1,000 lines"),
            ("while True: sys.stdout.write('x' * 65536)", "a line of more than 20,000 octets"),
        ]
        for text, words in rows:
            with self.subTest(text), self.assertRaisesRegex(Mute, words):
                program = Process([sys.executable, "-c", heard + text], seconds=1 if "sleep" in text else 20)
                try:
                    program.hear("contact 0/2 0/1")
                finally:
                    program.end()

    def test_a_program_that_talks_to_itself_is_given_up(self) -> None:
        with patch("dorydate.coupling.MOST_TAKEN", 20):
            found = tried(Only("out 0/2 0/2 5 8 41", ("in ", "answer ")), NAMED["reset"])
        self.assertIn("more than 20 things one after the other", str(found))

    def test_what_it_says_obeys_no_terminal(self) -> None:
        self.assertEqual(shown("out \x1b[31mRED\x07"), "out \\x1b[31mRED\\x07")
        self.assertEqual(len(shown("x" * 999)), 203)
        found = str(tried(Only("out \x1b[31mRED\x07 0/1 0 8 41", ("in ",)), NAMED["reset"]))
        self.assertIn("RED", found)
        self.assertEqual([it for it in found if not it.isprintable()], [])

    def test_what_no_right_program_says(self) -> None:
        rows = [
            ("out 0/1 0/2 0 0 -", "and its host is 0/2"),
            ("out 0/2 0/1 0 1 FF", "no line of a script"),
            ("out 0/2 0/1 0 48 00080001000C", "had not come to rest"),
            ("out 0/2 0/1 0 56 00080002000707", "right is `RRP`"),
        ]
        for line, words in rows:
            self.assertIn(words, str(tried(Only(line), NAMED["reset"])))


class Dialogues(NeedsFastProgram):
    def test_the_small_program_is_right(self) -> None:
        for dialogue in DIALOGUES:
            with self.subTest(dialogue.name):
                wrong, script = had([sys.executable, NCP], dialogue)
                self.assertIsNone(wrong)
                self.assertEqual(Script.read(script).text(), script)

    def test_with_things_under_way(self) -> None:
        start = program_of(text_of(NCP))
        self.assertEqual(len(NAMED), len(DIALOGUES) + len(UNDERWAY))
        for dialogue in UNDERWAY:
            with self.subTest(dialogue.name):
                self.assertIsNone(tried_underway(start(), dialogue))
        padded = text_of(NCP).replace('{0:08b}{bits}"\n', '{0:08b}{bits}"\n        text += "0" * (-len(text) % 36)\n')
        self.assertNotEqual(padded, text_of(NCP))
        self.assertEqual([it.name for it in UNDERWAY if tried_underway(program_of(padded)(), it)], [])

    def test_planted_faults_under_way_are_found(self) -> None:
        for old, new, name, words in PLANTED_UNDERWAY:
            with self.subTest(f"{name}: {new}"):
                self.assertEqual(text_of(NCP).count(old), 1)
                planted = program_of(text_of(NCP).replace(old, new))
                self.assertIn(words, str(tried_underway(planted(), NAMED[name])))

    def test_a_message_that_is_refused_or_none(self) -> None:
        rows = [
            ("out 0/2 0/1 0 1 FF", "no message"),
            ("out 0/1 0/2 0 0 -", "another host, 0/1"),
            ("out 0/2 0/1 2 0 -", "`reply`"),
        ]
        for line, words in rows:
            self.assertIn(words, str(tried_underway(Only(line), NAMED["two ends at once"])))

    def test_random_worlds(self) -> None:
        for seed in range(30):
            self.assertIsNone(found_in_world(seed, program_of(text_of(NCP))))
        early = program_of(text_of(NCP).replace('if peer.phase == "heard":\n', 'if peer.phase in ("gone", "heard"):\n'))
        found = [it for seed in range(30) if (it := found_in_world(seed, early))]
        self.assertTrue(found)
        verdict = judge(read_log(found[0].log), "0/2", whole=True)
        self.assertIn(f"`{verdict.rule.name if verdict.rule else ''}`", found[0].why)

    def test_lives_of_notices(self) -> None:
        """The audit judges a program by what it says, as it judges the proved one."""
        text = text_of(NCP)
        arrived = '"arrived", end.own, '
        twice = text.replace(f"{arrived}len(bits), octets(bits)", f"{arrived}2 * len(bits), octets(bits + bits)")
        silent = text.replace('self.notice("ended"', 'self.notice("over"')
        rows = [
            ("takes", text, "kept"), ("sends", text, "kept"), ("closes", text, "kept"), ("is closed", text, "kept"),
            ("reset in mid-stream", text, "kept"), ("gives back", text, "kept"), ("takes", twice, "broken lives"),
            ("is closed", silent, "broken fates"),
        ]  # fmt: skip
        for name, program, words in rows:
            with self.subTest(f"{name} {words}"):
                trial = Trial(program_of(program)(), NAMED[name])
                trial.finding()
                log = trial.mine.log()
                said = trial.net.program.run(log.encode("ascii"), "--audit").output
                self.assertTrue(said.startswith(words), f"{said}\n{log}")
                self.assertEqual(len(trial.mine.lives()), log.count("life 0/2"))

    def test_planted_faults_are_found(self) -> None:
        for old, new, name, words in PLANTED:
            with self.subTest(old):
                self.assertEqual(text_of(NCP).count(old), 1)
                self.assertIn(words, str(found_in(text_of(NCP).replace(old, new), NAMED[name])))


if __name__ == "__main__":
    unittest.main()

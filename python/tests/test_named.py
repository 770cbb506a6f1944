"""Tests of how arpasim takes an input that is named, in a clone, in the wheel and by Node, by one table."""

from __future__ import annotations

import os
import shutil
import subprocess
import tempfile
import unittest
from dataclasses import dataclass
from pathlib import Path

from dorydate.where import ROOT, found

FIRST = f"{ROOT}/examples/first-message"
PACKAGE = ROOT / "python" / "dorydate"
BAD = "[[imp]]\nid = 1\nhosts = 2\n%\ncalm 3\njump\n"
HELP = "arpasim: {called} --help has the options"
IS_AN_EXAMPLE = "arpasim: there is no file first-message; the example is {called} {examples}/first-message"
ALONE = "arpasim: --trace is the only option where it is given"
MARKED = "arpasim: that is line 6 of the file, since lines of the script are counted from the `%`"


@dataclass(frozen=True)
class Way:
    """A way to call the program: its words, how it calls itself, and what explains a fault there."""

    words: tuple[str, ...]
    called: str
    how: str
    env: dict[str, str]


def ways() -> dict[str, Way]:
    """Those that can be tried here: without a native program and without Node there is less."""
    sh = Way(("sh", f"{PACKAGE}/arpasim.sh", found().path, f"{ROOT}/examples"), "arpasim", "dorydate explain", {})
    made = {"clone": Way((f"{ROOT}/arpasim",), "./arpasim", "./explain", {}), "wheel": sh}
    if shutil.which("node") and (ROOT / "released" / "dorydate.html").exists():
        env = {"DORYDATE_EXPLAIN": "1", "DORYDATE_EXAMPLES": f"{ROOT}/examples"}
        made["node"] = Way(("node", f"{ROOT}/web/run/named.mjs"), "arpasim", "dorydate explain", env)
    return made


# words, standard input, status, how the output begins, and the lines of standard error
ROWS: list[tuple[list[str], str, int, str, list[str]]] = [
    ([FIRST], "", 0, "out 0/1 0/2 5 24\n", []),
    (["--texts", FIRST], "", 0, "out 0/1 0/2 5 24 414243\n", []),
    ([FIRST, "--texts"], "", 0, "out 0/1 0/2 5 24 414243\n", []),
    (["-", "--texts"], FIRST, 0, "out 0/1 0/2 5 24 414243\n", []),
    ([], FIRST, 0, "out 0/1 0/2 5 24\n", []),
    (["-h"], "", 0, "Replays a script", []),
    (["bad"], "", 2, "", ["arpasim: bad script line 2", MARKED, "arpasim: {how} < bad tells why"]),
    ([], "bad", 2, "", ["arpasim: bad script line 2", MARKED, "arpasim: {how} < FILE tells why"]),
    (["--audit", "bad"], "", 2, "", ["arpasim: bad log line 1", "arpasim: {how} --audit < bad tells why"]),
    (["--log", "bad"], "", 2, "", ["arpasim: bad script line 2", MARKED, "arpasim: {how} < bad tells why"]),
    (["none"], "", 1, "", ["arpasim: bad topology", "arpasim: {how} < none tells why"]),
    (["nosuch"], "", 1, "", ["arpasim: there is no file nosuch; {called} --help says how it is called"]),
    (["help"], "", 1, "", ["arpasim: there is no file help; is {called} --help meant?"]),
    (["first-message"], "", 1, "", [IS_AN_EXAMPLE]),
    (["folder"], "", 1, "", ["arpasim: folder is a folder; an input is a file"]),
    (["explain"], "", 1, "", ["arpasim: explain is a command of its own: {how}"]),
    (["bad", "none"], "", 1, "", ["arpasim: one input at a time, and these are two: bad, none"]),
    (["--chart"], FIRST, 1, "", ["arpasim: bad arguments", "arpasim: --chart is an option of {how}", HELP]),
    (["--trace", "--texts"], FIRST, 1, "", ["arpasim: bad arguments", ALONE, HELP]),
    (["--texts", ""], FIRST, 1, "", ["arpasim: bad arguments", HELP]),
]


# the same of the program itself, which gives no cure: words, standard input, status, how the output begins, and standard error
OF_THE_PROGRAM: list[tuple[list[str], str, int, str, str]] = [
    ([FIRST], "", 0, "out 0/1 0/2 5 24\n", ""),
    (["--texts", FIRST], "bad", 0, "out 0/1 0/2 5 24 414243\n", ""),
    ([FIRST, "--texts"], "", 0, "out 0/1 0/2 5 24 414243\n", ""),
    (["-", "--texts"], FIRST, 0, "out 0/1 0/2 5 24 414243\n", ""),
    (["/dev/stdin"], FIRST, 0, "out 0/1 0/2 5 24\n", ""),
    (["--log", FIRST], "", 0, "out 0/1 0/2 5 24 414243\n", ""),
    (["--audit", "bad"], FIRST, 2, "", "arpasim: bad log line 1"),
    (["bad"], FIRST, 2, "", "arpasim: bad script line 2"),
    (["nosuch"], FIRST, 1, "", "arpasim: cannot read"),
    (["--check", "folder"], FIRST, 1, "", "arpasim: cannot read"),
    (["nosuch", "--quiet"], FIRST, 1, "", "arpasim: bad arguments"),
    (["bad", "none"], FIRST, 1, "", "arpasim: bad arguments"),
    ([FIRST, "-"], FIRST, 1, "", "arpasim: bad arguments"),
    (["", FIRST], FIRST, 1, "", "arpasim: bad arguments"),
    (["--help", "nosuch"], "", 0, "Replays a script", ""),
]


class Named(unittest.TestCase):
    def test_each_way_says_what_the_table_has(self) -> None:
        with tempfile.TemporaryDirectory() as room:
            for name, text in {"bad": BAD, "none": "no line\n"}.items():
                Path(f"{room}/{name}").write_text(text, encoding="utf-8")
            os.mkdir(f"{room}/folder")
            for name, way in ways().items():
                for row in ROWS:
                    with self.subTest(way=name, words=row[0]):
                        self.said(way, room, row)

    def test_the_program_itself_takes_a_name(self) -> None:
        with tempfile.TemporaryDirectory() as room:
            Path(f"{room}/bad").write_text(BAD, encoding="utf-8")
            os.mkdir(f"{room}/folder")
            for words, given, status, begins, said in OF_THE_PROGRAM:
                with self.subTest(words=words), open(os.path.join(room, given) if given else os.devnull, "rb") as file:
                    ran = subprocess.run([found().path, *words], stdin=file, capture_output=True, text=True, cwd=room, check=False)
                    self.assertEqual((ran.returncode, ran.stderr.removesuffix("\n")), (status, said))
                    self.assertTrue(ran.stdout.startswith(begins))

    def said(self, way: Way, room: str, row: tuple[list[str], str, int, str, list[str]]) -> None:
        """One row, tried one way."""
        words, given, status, begins, lines = row
        with open(os.path.join(room, given) if given else os.devnull, "rb") as file:
            env = {**os.environ, **way.env}
            called = [*way.words, *words]
            ran = subprocess.run(called, stdin=file, capture_output=True, text=True, cwd=room, env=env, check=False)
        told = [it for it in ran.stderr.splitlines() if not it.startswith("arpasim: taking ")]
        self.assertEqual(told, [it.format(how=way.how, called=way.called, examples=f"{ROOT}/examples") for it in lines])
        self.assertEqual(ran.returncode, status)
        self.assertTrue(ran.stdout.startswith(begins))

    def test_what_was_piped_can_not_be_read_once_more(self) -> None:
        ran = subprocess.run([f"{ROOT}/arpasim"], input=BAD, capture_output=True, text=True, check=False)
        said = ["arpasim: bad script line 2", "arpasim: ./explain < FILE tells why"]
        self.assertEqual(ran.stderr.splitlines()[-2:], said)


if __name__ == "__main__":
    unittest.main()

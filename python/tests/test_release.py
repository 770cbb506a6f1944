"""Tests of what a release is made of, and of the program where pip installed it."""

from __future__ import annotations

import gzip
import hashlib
import io
import json
import os
import shutil
import subprocess
import tarfile
import tempfile
import unittest
from pathlib import Path
from unittest import mock

from dorydate import released, where
from dorydate.by_node import SERVED, ByNode
from dorydate.program import NoProgram, PrintedTooMuch, Program, TookTooLong
from workshop.builds.manual import as_roff, manual, worded
from workshop.builds.packages import archive
from workshop.parts import ROOT
from workshop.tools import absence

BY_NODE = f"{ROOT}/web/run/arpasim.mjs"
NOTHING = "[[imp]]\nid = 1\nhosts = 0\n%\n"
COMMANDS = "bash cat cmp cp dirname find grep ln mkdir mktemp mv readlink realpath rm sed sha256sum sort stat tail xargs"
INPUT = b"carrier = \"plain\"\nraw = true\n[[imp]]\nid = 1\nhosts = 2\n%\nout 0/1 1/1 0 8 41\n"


class Manual(unittest.TestCase):
    def test_markdown_becomes_roff(self) -> None:
        self.assertEqual(worded("see [the page](a.md): `--log` of **all** .x"), "see the page: \\fB\\-\\-log\\fR of \\fBall\\fR .x")
        self.assertEqual(worded(".x"), "\\&.x")
        self.assertEqual(as_roff("| A | B | C |\n|---|---|---|\n| 1 | x | y |\n| 2 | | z |"), ".TP\n1\nx; y\n.TP\n2\nz")
        self.assertEqual(as_roff("### A title"), ".SS A title")

    def test_the_page_has_each_option_and_names_no_command_of_a_clone(self) -> None:
        page = manual("7.8.9")
        for option in ("check", "book", "texts", "log", "trace", "audit"):
            self.assertIn(f"\n.TP\n\\fB\\-\\-{option}\\fR\n", page)
        self.assertIn("Dorydate 7.8.9", page)
        self.assertNotIn("./", page)


class Archives(unittest.TestCase):
    def test_an_archive_depends_on_what_is_in_it_only(self) -> None:
        one = archive({"b": (b"2", 0o755), "a": (b"1", 0o644)})
        self.assertEqual(one, archive({"a": (b"1", 0o644), "b": (b"2", 0o755)}))
        with tarfile.open(fileobj=io.BytesIO(gzip.decompress(one))) as read:
            self.assertEqual([(it.name, it.mode) for it in read], [("a", 0o644), ("b", 0o755)])


class Installed(unittest.TestCase):
    """The folder of a release, as a package has it."""

    def setUp(self) -> None:
        room = tempfile.TemporaryDirectory()
        self.addCleanup(room.cleanup)
        self.folder = Path(room.name)
        changed = mock.patch.object(released, "FOLDER", self.folder)
        changed.start()
        self.addCleanup(changed.stop)

    def put(self, name: str, text: str) -> None:
        (self.folder / name).write_text(text, encoding="utf-8")
        (self.folder / name).chmod(0o755)

    def note(self, **files: str) -> None:
        hashes = {name.replace("_", "."): {"sha256": hashlib.sha256(text.encode()).hexdigest()} for name, text in files.items()}
        (self.folder / "note.json").write_text(json.dumps({"files": hashes}), encoding="utf-8")

    def test_a_package_without_a_release_is_seen(self) -> None:
        self.assertFalse(released.is_released())
        self.note()
        self.assertTrue(released.is_released())

    def test_a_native_program_is_taken_if_it_runs_here(self) -> None:
        text = "#!/bin/sh\necho ok\n"
        self.put("arpasim", text)
        self.note(arpasim=text)
        with mock.patch("platform.system", lambda: "Linux"), mock.patch("platform.machine", lambda: "x86_64"):
            self.assertEqual(released.released_program(), str(self.folder / "arpasim"))

    def test_a_changed_program_is_refused_by_its_hash(self) -> None:
        self.put("arpasim", "#!/bin/sh\necho ok \n")
        self.note(arpasim="#!/bin/sh\necho ok\n")
        with mock.patch("platform.system", lambda: "Linux"), mock.patch("platform.machine", lambda: "x86_64"):
            with self.assertRaisesRegex(NoProgram, "was changed: its hash is"):
                released.released_program()

    def test_another_machine_has_the_program_by_node_or_is_told_the_way(self) -> None:
        self.put("arpasim", "#!/bin/sh\necho ok\n")
        self.put("dorydate.html", "page")
        self.note(arpasim="#!/bin/sh\necho ok\n", dorydate_html="page")
        with mock.patch("platform.machine", lambda: "riscv64"):
            with mock.patch("shutil.which", lambda name: f"/bin/{name}"):
                self.assertEqual(released.released_program(), str(self.folder / "run/arpasim.mjs"))
            with mock.patch("shutil.which", lambda name: None), self.assertRaisesRegex(NoProgram, "riscv64.*Node 18 or later"):
                released.released_program()

    def test_words_name_the_commands_that_are_here(self) -> None:
        self.assertEqual(where.here("./explain < F; ./arpasim --log"), "./explain < F; ./arpasim --log")
        with mock.patch.object(where, "repository", lambda: None):
            self.assertEqual(where.here("./explain < F; ./arpasim --log"), "dorydate explain < F; arpasim --log")


class Clones(unittest.TestCase):
    """The program that tools/program takes, in a clone with one source and a release of it, on several machines."""

    def setUp(self) -> None:
        room = tempfile.TemporaryDirectory()
        self.addCleanup(room.cleanup)
        self.clone, self.commands = Path(room.name) / "clone", Path(room.name) / "commands"
        for name in ("tools", "crates", "released", "examples", "web/run"):
            (self.clone / name).mkdir(parents=True)
        for name in ("program", "kept-program", "kept-key"):
            shutil.copy2(f"{ROOT}/tools/{name}", self.clone / "tools" / name)
        self.put("crates.txt", "one:\n")
        self.put("crates/main.rt", "fn main() {}\n")
        self.put("examples/first-message", NOTHING)
        self.put("released/arpasim", "#!/bin/sh\necho ok\n")
        self.put("released/dorydate.html", "a page\n")
        self.put("web/run/arpasim.mjs", "#!/bin/sh\nexec node\n")
        sources = self.run_tool("kept-program").stdout.split("/")[-2]
        found = {it: (self.clone / "released" / it).read_bytes() for it in ("arpasim", "dorydate.html")}
        files = {name: {"sha256": hashlib.sha256(octets).hexdigest()} for name, octets in found.items()}
        self.put("released/note.json", json.dumps({"files": files, "sources": sources}, indent=4))

    def put(self, path: str, text: str) -> None:
        (self.clone / path).write_text(text, encoding="utf-8")
        (self.clone / path).chmod(0o755)

    def run_tool(self, name: str) -> subprocess.CompletedProcess[str]:
        env = {"PATH": str(self.commands)} if self.commands.is_dir() else None
        words = ["/bin/bash", str(self.clone / "tools" / name)]
        return subprocess.run(words, env=env, capture_output=True, text=True, check=False)

    def machine(self, kind: str, **more: str) -> None:
        """A path of commands on a machine of this kind, with these programs besides."""
        self.commands.mkdir()
        for name in COMMANDS.split():
            (self.commands / name).symlink_to(shutil.which(name) or "")
        for name, text in {"uname": f'[ "$1" = -s ] && echo Linux || echo {kind}', **more}.items():
            (self.commands / name).write_text(f"#!/bin/sh\n{text}\n", encoding="utf-8")
            (self.commands / name).chmod(0o755)

    def taken(self) -> str:
        """The path of the program that is taken, in the clone."""
        ran = self.run_tool("program")
        self.assertEqual(ran.returncode, 0, ran.stderr)
        return str(Path(ran.stdout.strip()).relative_to(self.clone))

    def refused(self) -> list[str]:
        """What is said where nothing runs."""
        ran = self.run_tool("program")
        self.assertEqual((ran.returncode, ran.stdout), (1, ""))
        return ran.stderr.splitlines()

    def test_the_native_program_is_taken(self) -> None:
        self.machine("x86_64")
        self.assertEqual(self.taken(), "released/arpasim")

    def test_another_machine_has_it_by_node(self) -> None:
        self.machine("riscv64", node="echo ok")
        self.assertEqual(self.taken(), "web/run/arpasim.mjs")

    def test_no_node_and_one_that_is_too_old_are_told_the_way(self) -> None:
        old = {"node": '[ "$1" = --version ] || exit 1; echo v16.20.0'}
        rows: list[tuple[dict[str, str], str]] = [({}, "Node none"), (old, "Node v16.20.0")]
        for more, words in rows:
            with self.subTest(words):
                shutil.rmtree(self.commands, ignore_errors=True)
                self.machine("riscv64", **more)
                (line,) = self.refused()
                self.assertIn(f"(riscv64, {words}); Node 18 or later runs the proved one", line)
                self.assertIn("so does a browser that opens released/dorydate.html", line)

    def test_a_changed_file_is_refused_by_its_hash(self) -> None:
        self.machine("x86_64", node="echo ok")
        self.put("released/arpasim", "#!/bin/sh\necho ok \n")
        ran = self.run_tool("program")
        self.assertEqual(Path(ran.stdout.strip()).name, "arpasim.mjs")
        self.assertIn("released/arpasim is refused: its hash is ", ran.stderr.splitlines()[0])
        self.put("released/dorydate.html", "another page\n")
        for line, name in zip(self.refused(), ("arpasim", "dorydate.html")):
            self.assertIn(f"released/{name} is refused: its hash is ", line)

    def test_a_changed_source_has_no_released_program(self) -> None:
        self.machine("x86_64", node="echo ok")
        self.put("crates/main.rt", "fn main() { }\n")
        (line,) = self.refused()
        self.assertIn("nothing is released of these sources", line)


@unittest.skipUnless(shutil.which("node"), absence("Node"))
class ByNodeTests(unittest.TestCase):
    """Runs of the released module, whatever sources it is of."""

    def test_one_process_runs_many_inputs(self) -> None:
        program = where.program_at(BY_NODE)
        self.assertIsInstance(program, ByNode)
        first = program.run(INPUT, "--texts")
        process = SERVED[BY_NODE].process.pid
        self.assertEqual((first.status, first.output, first.said), (0, "out 0/1 1/1 0 8 41\nend\n", ""))
        self.assertEqual(program.run(b"no input").said, "arpasim: bad topology\n")
        self.assertEqual([program.run(INPUT, "--texts") for _ in range(20)], [first] * 20)
        self.assertEqual(SERVED[BY_NODE].process.pid, process)

    def test_a_run_that_takes_too_long_is_stopped_and_the_next_one_runs(self) -> None:
        program = ByNode(BY_NODE)
        with self.assertRaises(TookTooLong):
            program.run(INPUT, seconds=0.0)
        self.assertEqual(program.run(INPUT).status, 0)

    def test_a_run_that_prints_too_much_is_stopped_and_the_next_one_runs(self) -> None:
        program = ByNode(BY_NODE)
        with mock.patch("dorydate.by_node.MOST_PRINTED", 20), self.assertRaises(PrintedTooMuch):
            program.run(INPUT, "--texts")
        self.assertEqual(program.run(INPUT).status, 0)

    def test_the_same_as_a_program_of_its_own(self) -> None:
        alone = Program(BY_NODE)
        some: list[list[str]] = [[], ["--log"], ["--no-such"]]
        for words in some:
            self.assertEqual(ByNode(BY_NODE).run(INPUT, *words), alone.run(INPUT, *words))

    def test_a_node_that_is_too_old_is_told_the_way(self) -> None:
        with tempfile.NamedTemporaryFile("w", suffix=".cjs") as file:
            file.write('const value = { ...process.versions, node: "16.20.0" };\n')
            file.write('Object.defineProperty(process, "versions", { value });\n')
            file.flush()
            with mock.patch.dict(os.environ, NODE_OPTIONS=f"--require {file.name}"):
                with self.assertRaisesRegex(NoProgram, "^Node 16.20.0 is too old: Node 18 or later runs .*html$"):
                    ByNode(BY_NODE).run(INPUT)
                ran = Program(BY_NODE).run(INPUT)
        self.assertEqual((ran.status, ran.output, len(ran.said.splitlines())), (1, "", 1))

    def test_a_changed_page_is_refused_in_one_line(self) -> None:
        with tempfile.TemporaryDirectory() as room:
            shutil.copytree(f"{ROOT}/web/run", f"{room}/run")
            shutil.copyfile(f"{ROOT}/web/package.json", f"{room}/package.json")
            shutil.copyfile(f"{ROOT}/released/note.json", f"{room}/note.json")
            page = Path(f"{ROOT}/released/dorydate.html").read_text(encoding="utf-8")
            begun = page.index('id="program">') + 100_000
            at = next(it for it in range(begun, len(page)) if page[it].isalnum())  # no end of a line
            other = page[:at] + chr(ord(page[at]) ^ 1) + page[at + 1 :]
            Path(f"{room}/dorydate.html").write_text(other, encoding="utf-8")
            ran = Program(f"{room}/run/arpasim.mjs").run(INPUT)
            self.assertEqual((ran.status, ran.output, ran.said.count("\n")), (1, "", 1))
            self.assertTrue(ran.said.startswith("arpasim: dorydate.html was changed: "), ran.said)
            with self.assertRaisesRegex(NoProgram, "^dorydate.html was changed: "):
                ByNode(f"{room}/run/arpasim.mjs").run(INPUT)

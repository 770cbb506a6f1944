"""Copies of crates, in which planted bugs are tried: with what earlier checks kept, or over the libraries that `rt ci` built."""

from __future__ import annotations

import os
import re
import shutil
import signal
import subprocess
from collections.abc import Sequence

from workshop.builds.drivers import crates_below
from workshop.parts import ROOT, text_of


def linked(path: str, to: str) -> None:
    """A second name for a file, or a copy of it where there can't be one."""
    try:
        os.link(path, to)
    except OSError:
        shutil.copy2(path, to)


def lines_of_crates() -> dict[str, str]:
    """What crates.txt says that each crate uses."""
    return dict(re.findall(r"^(\w+)[^:\n]*:(.*)$", text_of(f"{ROOT}/crates.txt"), re.MULTILINE))


class Copy:
    """A copy of a crate in a folder of its own."""

    def __init__(self, crate: str, folder: str, own: str) -> None:
        self.crate, self.folder, self.own = crate, folder, own

    def command(self) -> list[str]:
        """What checks the crate."""
        raise NotImplementedError

    def put_back(self) -> None:
        """Puts back what an earlier check kept."""
        raise NotImplementedError

    def check(self, functions: Sequence[str]) -> tuple[int, str]:
        """How a check of these functions ends, or of the crate where there are none: its status and what it said."""
        words = [*self.command(), *(word for it in functions for word in ("--only", it))]
        ran = self.run(words)
        if ran.returncode == -signal.SIGKILL:  # most likely for memory
            ran = self.run(words)
        return ran.returncode, ran.stdout

    def run(self, words: Sequence[str]) -> subprocess.CompletedProcess[str]:
        return subprocess.run(words, cwd=self.own, stdin=subprocess.DEVNULL, stdout=subprocess.PIPE, stderr=subprocess.STDOUT, text=True, errors="replace")

    def check_with(self, texts: dict[str, str], functions: Sequence[str]) -> str:
        """What a check says with these texts in the place of the crate's own, over what was noted."""
        self.put_back()
        shutil.copytree(f"{self.own}/src", f"{self.folder}/src")
        for path, text in texts.items():
            with open(f"{self.own}/{path}", "w", encoding="utf-8") as file:
                file.write(text)
        try:
            return self.check(functions)[1]
        finally:
            shutil.rmtree(f"{self.own}/src")
            os.rename(f"{self.folder}/src", f"{self.own}/src")


class CopyOfCrate(Copy):
    """A copy of a crate, of those below it and of what their checks kept."""

    def __init__(self, crate: str, folder: str, words: Sequence[str]) -> None:
        super().__init__(crate, folder, f"{folder}/crates/{crate}")
        self.words, self.is_kept = words, False
        lines = lines_of_crates()
        needed = crates_below({name: below.split() for name, below in lines.items()}, crate)
        for name in needed:
            # of its own what earlier checks kept; of those below what is built, which nothing writes to
            if name == crate:
                shutil.copytree(f"{ROOT}/crates/{name}", f"{folder}/crates/{name}", symlinks=True, ignore=shutil.ignore_patterns("rlib"))
            else:
                shutil.copytree(f"{ROOT}/crates/{name}", f"{folder}/crates/{name}", symlinks=True, ignore=shutil.ignore_patterns("incremental"), copy_function=linked)
        with open(f"{folder}/crates.txt", "w", encoding="utf-8") as file:
            file.writelines(f"{name}:{lines[name]}\n" for name in needed)

    def command(self) -> list[str]:
        return ["rt", "check", *self.words]

    def keep(self, functions: Sequence[str]) -> tuple[int, str]:
        """Checks the functions, or the crate, as they are, and notes what that kept, so that `check_with` can begin with it."""
        shutil.rmtree(f"{self.folder}/kept", ignore_errors=True)
        status, said = self.check(functions)
        if status == 0:
            self.is_kept = True
            shutil.copytree(f"{self.own}/out", f"{self.folder}/kept", symlinks=True)
        return status, said

    def put_back(self) -> None:
        if not self.is_kept:
            shutil.rmtree(f"{self.own}/out")
            shutil.copytree(f"{self.folder}/kept", f"{self.own}/out", symlinks=True)
        self.is_kept = False


class CopyOverGate(Copy):
    """A copy of a crate over the libraries that `rt ci` has just built in this clone."""

    def __init__(self, crate: str, folder: str) -> None:
        super().__init__(crate, folder, f"{folder}/{crate}")
        for part in ("src", "specs", "proofs"):
            if os.path.isdir(f"{ROOT}/crates/{crate}/{part}"):
                shutil.copytree(f"{ROOT}/crates/{crate}/{part}", f"{self.own}/{part}")
        self.below = {name: below.split() for name, below in lines_of_crates().items()}

    def command(self) -> list[str]:
        """The check that `rt ci` itself makes of a planted bug, with a place where what it finds is kept for the next one."""
        kit = os.path.dirname(os.path.dirname(os.path.realpath(shutil.which("rt") or "rt")))
        built = {it: f"{ROOT}/crates/{it}/out/rlib" for it in crates_below(self.below, self.crate) if it != self.crate}
        direct = {it: f"{built[it]}/{it}.rlib" if it in built else f"{kit}/rlibs/{it}.rlib" for it in [*self.below[self.crate], "std"]}
        words = [f"{kit}/bin/rattle", "check", "--crate-name", self.crate, "src/lib.rt"]
        words += [word for it, path in direct.items() for word in ("--extern", f"{it}={path}")]
        words += [word for it in [f"{kit}/rlibs", *built.values()] for word in ("-L", f"dependency={it}")]
        words += ["--antt-project", f"{kit}/rattle/logic/antt-project.json", "--logic-built", f"{kit}/logic_built"]
        return [*words, "--links", f"{self.crate}=", "--jobs", "1", "--incremental", f"{self.folder}/kept"]

    def put_back(self) -> None:
        """Leaves what earlier checks kept: the checker takes of it only what the texts don't change."""

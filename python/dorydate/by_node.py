"""Runs of the released module by Node: one process, which stays, takes one input after another (web/run/many.js)."""

from __future__ import annotations

import atexit
import json
import os
import select
import shutil
import subprocess
import threading
import time
from collections.abc import Sequence
from contextlib import suppress
from dataclasses import dataclass
from pathlib import Path
from typing import IO

from dorydate.program import MOST_PRINTED, SECONDS, NoProgram, PrintedTooMuch, Program, Ran, TookTooLong

PIECE = 1 << 20  # octets of an answer that are read at once


class Served:
    """A process of Node that runs the module on inputs that are written to it."""

    def __init__(self, path: str) -> None:
        node = shutil.which("node")
        if node is None:
            raise NoProgram("there is no Node to run the released module: apt-get install nodejs, or nodejs.org")
        pipe = subprocess.PIPE
        self.process = subprocess.Popen([node, path, "--many"], stdin=pipe, stdout=pipe, stderr=pipe)
        self.of = os.getpid()
        self.left = b""
        atexit.register(self.end)

    def pipes(self) -> tuple[IO[bytes], IO[bytes]]:
        """Where requests go, and where answers come from."""
        assert self.process.stdin and self.process.stdout
        return self.process.stdin, self.process.stdout

    def ended(self) -> NoProgram:
        """Why the process has ended by itself: what it has said."""
        assert self.process.stderr
        said = self.process.stderr.read().decode(errors="replace").strip()
        own = [it for it in said.splitlines() if it.startswith("arpasim: ")]
        return NoProgram(own[0].removeprefix("arpasim: ") if own else f"Node has ended: {said}")

    def read(self, last: float) -> None:
        """Reads more of the answer, until a time."""
        _, answers = self.pipes()
        left = last - time.monotonic()
        if left <= 0.0 or not select.select([answers], [], [], left)[0]:
            raise TookTooLong("the program ran longer than it may")
        piece = os.read(answers.fileno(), PIECE)
        if not piece:
            raise self.ended()
        self.left += piece

    def octets(self, count: int, last: float) -> bytes:
        """The next octets of the answer."""
        while len(self.left) < count:
            self.read(last)
        octets, self.left = self.left[:count], self.left[count:]
        return octets

    def line(self, last: float) -> bytes:
        """The next line of the answer."""
        while b"\n" not in self.left:
            self.read(last)
        return self.octets(self.left.index(b"\n") + 1, last)

    def run(self, octets: bytes, options: Sequence[str], seconds: float) -> Ran:
        """One run."""
        last = time.monotonic() + seconds
        requests, _ = self.pipes()
        try:
            asked = {"words": [*options], "octets": len(octets), "most": MOST_PRINTED}
            requests.write(json.dumps(asked).encode() + b"\n" + octets)
            requests.flush()
        except BrokenPipeError:
            raise self.ended() from None
        told = json.loads(self.line(last))
        if told["status"] < 0:
            raise PrintedTooMuch
        output, said = self.octets(told["stdout"], last), self.octets(told["stderr"], last)
        return Ran(told["status"], output.decode("latin-1"), said.decode("latin-1"))

    def end(self) -> None:
        """Ends the process, unless it is one of the process that this one was forked from."""
        atexit.unregister(self.end)
        if self.of == os.getpid():
            self.process.kill()
            self.process.wait()
        assert self.process.stderr
        for pipe in (*self.pipes(), self.process.stderr):
            with suppress(BrokenPipeError):  # (what was not read any more)
                pipe.close()


SERVED: dict[str, Served] = {}  # by the path of what Node runs
ONE_AT_A_TIME = threading.Lock()


def served(path: str) -> Served:
    """The process of this one that runs a module."""
    there = SERVED.get(path)
    if there is None or there.of != os.getpid():
        there = SERVED[path] = Served(path)
    return there


@dataclass(frozen=True)
class ByNode(Program):
    """The module of a release, which Node runs."""

    @property
    def file(self) -> str:
        """The page that has the module: in a package, or in a clone."""
        folder = Path(self.path).resolve().parent.parent
        return str(next(it for it in (folder / "dorydate.html", folder.parent / "released" / "dorydate.html") if it.is_file()))

    def run(self, octets: bytes, *options: str, seconds: float = SECONDS) -> Ran:
        with ONE_AT_A_TIME:
            process = served(self.path)
            try:
                return process.run(octets, options, seconds)
            except BaseException:
                del SERVED[self.path]
                process.end()
                raise

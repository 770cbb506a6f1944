"""The program `arpasim`, and runs of it with limits. Where it is, dorydate.where knows."""

from __future__ import annotations

import os
import select
import signal
import subprocess
import time
from collections.abc import Sequence
from dataclasses import dataclass

SECONDS = 60.0  # so long may a run take where nothing else is said
UNLIMITED = 1e7  # seconds, which no run takes
MOST_OCTETS = 268_435_456  # of an input
MOST_PRINTED = 268_435_456  # octets that a run prints
LOOKED = 0.25  # seconds between two looks at how much a run has printed


class NoProgram(Exception):
    """Why there is no program to run.

    >>> try:
    ...     net = Replay(two)
    ... except NoProgram as why:
    ...     print(why)
    """


class TookTooLong(Exception):
    """A run was stopped at its limit of time."""


class PrintedTooMuch(TookTooLong):
    """A run was stopped at its limit of octets."""

    def __init__(self) -> None:
        super().__init__(f"the program prints more than {MOST_PRINTED} octets")


@dataclass(frozen=True)
class Ran:
    """How a run ended: its status, its output, and what it said on standard error."""

    status: int
    output: str
    said: str


@dataclass(frozen=True)
class Program:
    """A program that replays inputs.

    >>> Program(net.program.path).run(b"nothing").said
    'arpasim: bad topology\\n'
    """

    path: str

    @property
    def file(self) -> str:
        """The file whose octets are the program.

        >>> net.program.file != ""
        True
        """
        return self.path

    def run(self, octets: bytes, *options: str, seconds: float = SECONDS) -> Ran:
        """Runs it on an input.

        >>> ran = net.program.run(net.script.octets(), "--check")
        >>> ran.status, ran.output
        (0, 'ok\\n')
        """
        if not hasattr(os, "memfd_create") or not hasattr(os, "pidfd_open"):
            return self.run_by_pipes(octets, options, seconds)
        files = [os.memfd_create(name) for name in ("input", "output", "errors")]
        try:
            with open(files[0], "wb", closefd=False) as file:
                file.write(octets)
            os.lseek(files[0], 0, os.SEEK_SET)
            status = self._spawned(files, options, seconds)
            return Ran(status, read_back(files[1]), read_back(files[2]))
        finally:
            for file_number in files:
                os.close(file_number)

    def _spawned(self, files: Sequence[int], options: Sequence[str], seconds: float) -> int:
        """The status of a run whose three streams are these files."""
        actions = [(os.POSIX_SPAWN_DUP2, file, number) for number, file in enumerate(files)]
        pid = os.posix_spawn(self.path, [self.path, *options], os.environ, file_actions=actions)
        try:
            process = os.pidfd_open(pid)
            try:
                last = time.monotonic() + seconds
                while not select.select([process], [], [], max(0.0, min(LOOKED, last - time.monotonic())))[0]:
                    if os.fstat(files[1]).st_size > MOST_PRINTED:
                        raise PrintedTooMuch
                    if time.monotonic() >= last:
                        raise TookTooLong(f"the program ran longer than {seconds} seconds")
            finally:
                os.close(process)
        except BaseException:
            os.kill(pid, signal.SIGKILL)
            os.waitpid(pid, 0)
            raise
        status = os.waitstatus_to_exitcode(os.waitpid(pid, 0)[1])
        if os.fstat(files[1]).st_size > MOST_PRINTED:
            raise PrintedTooMuch
        return status

    def run_by_pipes(self, octets: bytes, options: Sequence[str], seconds: float) -> Ran:
        """The same where there are no files in memory.

        >>> net.program.run_by_pipes(b"nothing", [], 5.0).status
        1
        """
        try:
            ran = subprocess.run([self.path, *options], input=octets, capture_output=True, timeout=seconds, check=False)
        except subprocess.TimeoutExpired:
            raise TookTooLong(f"the program ran longer than {seconds} seconds") from None
        if len(ran.stdout) > MOST_PRINTED:
            raise PrintedTooMuch
        return Ran(ran.returncode, ran.stdout.decode("latin-1"), ran.stderr.decode("latin-1"))


def read_back(file: int) -> str:
    """What was written into a file."""
    return os.pread(file, os.fstat(file).st_size, 0).decode("latin-1")

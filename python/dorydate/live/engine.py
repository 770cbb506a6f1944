"""How events of a live network happen: what the program prints for each, one after the other."""

from __future__ import annotations

import os
import select
import subprocess
import time
from collections.abc import Iterator, Sequence
from typing import Protocol

from dorydate.marks import LAST, NO_SUCH_LINE, Part, Unmarked, printed_in
from dorydate.network import Network
from dorydate.printed import refusal
from dorydate.program import MOST_OCTETS, MOST_PRINTED, SECONDS, PrintedTooMuch, Program, TookTooLong
from dorydate.script import Event, Offer, Take

Heard = list[list[str]]  # what each event prints, with the octets of messages


LIVE = "--live"
AT_ONCE = 1 << 16  # octets of answers that are read at once
MOST_SAID = 1 << 15  # octets of lines that are said before their answers are heard: a pipe holds more


class Ended(Exception):
    """Why a session can't continue."""


class Engine(Protocol):
    """What lets events happen."""

    def hear(self, events: Sequence[Event]) -> Heard:
        """What each of these events prints."""

    def resumed(self, lines: Sequence[bytes]) -> list[str]:
        """Lets all lines of an earlier session happen, and answers what they print."""

    def end(self) -> None:
        """Lets nothing happen any more."""


def engine_of(program: Program, topology: str, network: Network) -> Engine:
    """What lets events happen: the program as it stays, where it does (`--live`), else one run of it for each round."""
    if LIVE in program.run(b"", "--help").output:
        return Lines(program, topology)
    return Rounds(program, topology, network)


def changes(event: Event, said: Sequence[str]) -> bool:
    """Whether an event may have changed something: one that is refused didn't, nor one that takes or offers nothing."""
    return refusal(said) is None and (bool(said) or not isinstance(event, (Take, Offer)))


class Rounds:
    """The program as it is released, which reads its input to the end: each round replays all that happened.

    A mark between two events (dorydate.marks) shows what each printed. Its second event is an offer of a stranger,
    which has no program.
    """

    def __init__(self, program: Program, topology: str, network: Network) -> None:
        self.program = program
        self.mark = NO_SUCH_LINE + f"\noffer {network.strangers()[0]}".encode()
        self.happened = topology.encode("utf-8", "surrogateescape") + b"%\n"
        self.printed = ""

    def hear(self, events: Sequence[Event]) -> Heard:
        lines = [str(it).encode("latin-1") for it in events]
        tried = self.happened + (b"\n" + self.mark + b"\n").join(lines) + b"\n"
        if len(tried) > MOST_OCTETS:
            raise Ended(f"an input has at most {MOST_OCTETS:,} octets, and this session has come to them")
        try:
            ran = self.program.run(tried, "--texts")
            if ran.status:
                raise Ended(f"the program says: {ran.said.strip()} (status {ran.status})")
            if not ran.output.startswith(self.printed):
                raise Ended("the program printed something else for what had happened than before")
            each = printed_in(Part(0, len(lines)), ran.output[len(self.printed) :].splitlines())
        except (TookTooLong, Unmarked) as why:
            raise Ended(str(why)) from None
        for line, event, said in zip(lines, events, each):
            if changes(event, said):
                self.happened += line + b"\n"
                self.printed += "".join(f"{it}\n" for it in said)
        return each

    def resumed(self, lines: Sequence[bytes]) -> list[str]:
        """Lets all lines of an earlier session happen, and answers what they print."""
        happened = self.happened + b"".join(it + b"\n" for it in lines)
        ran = self.program.run(happened, "--texts")
        if ran.status or not ran.output.endswith(f"{LAST}\n"):
            raise Ended(f"the program says of the earlier session: {ran.said.strip()} (status {ran.status})")
        self.happened, self.printed = happened, ran.output.removesuffix(f"{LAST}\n")
        return self.printed.splitlines()

    def end(self) -> None:
        """Nothing runs between two rounds."""


class Lines:
    """The program as it stays: it answers each line as it comes, by what it prints of it and an empty line."""

    def __init__(self, program: Program, topology: str) -> None:
        # in a group of its own, so that an interrupt at a terminal doesn't end the program before the session
        self.process = subprocess.Popen(
            [program.path, LIVE],
            stdin=subprocess.PIPE,
            stdout=subprocess.PIPE,
            stderr=subprocess.PIPE,
            bufsize=0,
            start_new_session=True,
        )
        self._say(topology.encode("utf-8", "surrogateescape") + b"%\n")

    def hear(self, events: Sequence[Event]) -> Heard:
        return [*self._answers([str(it).encode("latin-1") + b"\n" for it in events])]

    def resumed(self, lines: Sequence[bytes]) -> list[str]:
        """Lets all lines of an earlier session happen, and answers what they print."""
        return [said for answer in self._answers([it + b"\n" for it in lines]) for said in answer]

    def end(self) -> None:
        """Ends the input, after which the program prints its last line and ends."""
        if self.process.poll() is None and (last := self._ended()) != f"{LAST}\n".encode():
            raise Ended(f"the program ends with {last!r}")

    def _say(self, octets: bytes) -> None:
        stdin = self.process.stdin
        assert stdin is not None
        if stdin.closed:
            raise Ended("the program has ended")
        try:
            while octets:
                octets = octets[stdin.write(octets) :]
        except BrokenPipeError:
            self._ended()

    def _answers(self, lines: Sequence[bytes]) -> Iterator[list[str]]:
        """What the program prints of each line. Several are said at once: fewer waits, and the same answers."""
        said: list[bytes] = []
        room = MOST_SAID
        for line in lines:
            room -= len(line)
            if said and room < 0:
                yield from self._said_to(said)
                said, room = [], MOST_SAID - len(line)
            said.append(line)
        if said:
            yield from self._said_to(said)

    def _said_to(self, lines: Sequence[bytes]) -> Heard:
        """Says lines, and hears what the program prints of each, up to its empty line."""
        self._say(b"".join(lines))
        answers: Heard = [[]]
        octets, left, last = 0, b"", time.monotonic() + SECONDS
        while len(answers) <= len(lines):
            piece = self._read(last)
            octets += len(piece)
            if octets > MOST_PRINTED:
                raise self._stopped(PrintedTooMuch())
            *ended, left = (left + piece).split(b"\n")
            for it in ended:
                if it:
                    answers[-1].append(it.decode("latin-1"))
                else:
                    answers.append([])
                    octets, last = 0, time.monotonic() + SECONDS
        return answers[:-1]

    def _read(self, last: float) -> bytes:
        """Some octets that the program prints, until a moment."""
        stdout = self.process.stdout
        assert stdout is not None
        if not select.select([stdout], [], [], max(0.0, last - time.monotonic()))[0]:
            raise self._stopped(TookTooLong(f"the program ran longer than {SECONDS} seconds"))
        if not (piece := os.read(stdout.fileno(), AT_ONCE)):
            self._ended()
            raise Ended("the program has ended")
        return piece

    def _ended(self) -> bytes:
        """What the program still prints at the end of its input. It says why, if it ended with a fault."""
        try:
            output, said = self.process.communicate(timeout=SECONDS)
        except subprocess.TimeoutExpired:
            raise self._stopped(TookTooLong(f"the program ran longer than {SECONDS} seconds")) from None
        if status := self.process.returncode:
            raise Ended(f"the program says: {said.decode('utf-8', 'replace').strip()} (status {status})")
        return bytes(output)

    def _stopped(self, why: TookTooLong) -> Ended:
        """Stops the program, and says why."""
        self.process.kill()
        self.process.communicate()
        return Ended(str(why))

"""A program of one's own on a stranger's host: it hears lines and answers by lines, over the proved subnet.

What it hears is what its IMP hands it, as `arpasim --texts` prints that (`in S D N BITS OCTETS`, `answer KIND S D N`),
what its user asks for, as a script has it, and `refused NAME` where a message of its own was refused. It answers with
`out S D N BITS OCTETS` for each message, and with what else it likes, which is for people.
"""

from __future__ import annotations

import queue
import subprocess
import threading
import time
from collections.abc import Sequence
from contextlib import suppress
from typing import Protocol

from dorydate.contract.coupled import log_with_lives
from dorydate.deeds import Deed, Stopped, together
from dorydate.replay import MOST_ROUNDS, Replay, Stranger
from dorydate.script import BadLine, Out, read_event

SECONDS = 10.0  # so long may a program take to answer a line, whatever it says meanwhile
MOST_LINES = 100  # messages that it answers to one thing that it hears, and to refusals of these
MOST_ANSWERS = 1_000  # lines of an answer
MOST_OCTETS = 20_000  # of a line: the longest message has some 2,050
MOST_TAKEN = 200  # things that it takes one after the other


class Speaks(Protocol):
    """What hears a line and answers by lines."""

    def hear(self, line: str) -> Sequence[str]:
        """What it answers to a line."""


class Silent:
    """What answers nothing."""

    def hear(self, line: str) -> Sequence[str]:
        return []


class Mute(Exception):
    """Why a program can't be heard."""


class Process:
    """A program in a process of its own. It answers a line on its input by lines on its output, the last one empty."""

    def __init__(self, command: Sequence[str], seconds: float = SECONDS) -> None:
        self.name, self.seconds = " ".join(command), seconds
        try:
            self.process = subprocess.Popen(command, stdin=subprocess.PIPE, stdout=subprocess.PIPE)
        except OSError as why:
            raise Mute(f"`{self.name}` doesn't start: {why.strerror or why}") from None
        self.answers: queue.Queue[bytes] = queue.Queue(MOST_ANSWERS)  # no more of it is read before these are heard
        threading.Thread(target=self._read, daemon=True).start()

    def _read(self) -> None:
        """Keeps what it says, line by line, and nothing at its end. Of a line that is too long only the beginning."""
        assert self.process.stdout is not None
        with suppress(ValueError, OSError):  # it was ended
            while line := self.process.stdout.readline(MOST_OCTETS):
                self.answers.put(line)
                if not line.endswith(b"\n") and len(line) == MOST_OCTETS:
                    return
        self.answers.put(b"")

    def hear(self, line: str) -> list[str]:
        assert self.process.stdin is not None
        try:
            self.process.stdin.write(f"{line}\n".encode())
            self.process.stdin.flush()
        except OSError:
            raise Mute(f"`{self.name}` has ended before it heard `{line}`") from None
        said: list[str] = []
        until = time.monotonic() + self.seconds
        while (answer := self._next(line, until)) != "":
            said.append(answer)
            if len(said) > MOST_ANSWERS:
                raise Mute(f"`{self.name}` answers `{line}` by more than {MOST_ANSWERS:,} lines")
        return said

    def _next(self, line: str, until: float) -> str:
        """The next line that it says."""
        try:
            answer = self.answers.get(timeout=max(0.001, until - time.monotonic()))
        except queue.Empty:
            limit = f"in {self.seconds:g} seconds"
            raise Mute(f"`{self.name}` ended no answer to `{line}` by an empty line {limit}") from None
        if not answer:
            raise Mute(f"`{self.name}` ended when it heard `{line}`")
        if len(answer) == MOST_OCTETS:
            raise Mute(f"`{self.name}` says a line of more than {MOST_OCTETS:,} octets to `{line}`")
        return answer.decode("ascii", "backslashreplace").rstrip("\r\n")

    def end(self) -> None:
        """Ends it."""
        self.process.kill()
        self.process.wait()
        for stream in (self.process.stdin, self.process.stdout):
            assert stream is not None
            try:
                stream.close()
            except OSError:
                pass  # it had ended already, and something was still to be written


def shown(line: str) -> str:
    """What a program says, as it may be printed: at most 200 characters, and none that a terminal obeys."""
    words = "".join(it if it.isprintable() else repr(it)[1:-1] for it in line[:200])
    return words + "..." * (len(line) > 200)


class Coupled:
    """A stranger's host in a replay with the program that runs there."""

    def __init__(self, stranger: Stranger, program: Speaks) -> None:
        self.stranger, self.program = stranger, program
        self.notices: list[str] = []  # what it says to its user
        self.happened: list[tuple[int, str]] = []  # what its user asks for and hears, after how many events
        self.refused: list[str] = []  # why messages of its own were refused

    def ask(self, line: str) -> Deed:
        """Its user asks for something, as a line of a script; what it says in answer goes out."""
        done: list[Deed] = []
        heard = [line]
        while heard:
            self.happened.append((len(self.stranger.net.steps), heard[0]))
            for answer in self.program.hear(heard.pop(0)):
                if not answer.startswith("out "):
                    self.notices.append(answer)
                    self.happened.append((len(self.stranger.net.steps), answer))
                    continue
                done.append(self._out(answer))
                if len(done) > MOST_LINES:
                    raise Mute(f"it says more than {MOST_LINES} messages to `{line}`")
                if (name := done[-1].refused) is not None:
                    self.refused.append(name)
                    heard.append(f"refused {name}")
        return together(done)

    def _out(self, line: str) -> Deed:
        """A message of its own goes out."""
        try:
            event = read_event(line)
        except BadLine as why:
            raise Mute(f"it says `{shown(line)}`, which is no line of a script: {shown(str(why))}") from None
        if not isinstance(event, Out) or event.flow.source != self.stranger.host:
            raise Mute(f"it says `{shown(line)}`, and its host is {self.stranger.host}")
        return self.stranger.net.do(event)

    def log(self) -> str:
        """The log of the replay in which this host has the lives that its program reports, for the audit."""
        return log_with_lives(self.stranger.net, str(self.stranger.host), self.happened)

    def lives(self) -> list[str]:
        """The lives that its program reports, as lines of a log."""
        return [it for it in self.log().splitlines() if it.startswith(f"life {self.stranger.host} ")]

    def turn(self) -> Deed:
        """It takes all that waits for it, and says what it has to say."""
        done: list[Deed] = []
        while (taken := self.stranger.take()).printed:
            done.append(taken)
            done += [self.ask(it) for step in taken.steps for it in step.texts]
            if taken.refused:
                break
            if len(done) > MOST_TAKEN:
                raise Mute(f"it takes and says more than {MOST_TAKEN:,} things one after the other")
        self.stranger.net.back()  # the taking at which nothing waited
        return together(done)


def settle(net: Replay, hosts: Sequence[Coupled], limit: int = MOST_ROUNDS) -> Deed:
    """Rounds pass, and these hosts take and say what they have, until nothing more is printed, or `limit` times."""
    done: list[Deed] = []
    for _ in range(limit):
        done += [net.calm(len(net.network.imps)), *(it.turn() for it in hosts)]
        if not any(it.printed for it in done[-1 - len(hosts) :]):
            return together(done)
    raise Stopped(f"after {limit} times {len(net.network.imps)} rounds the network had not come to rest")

"""A host on the wire as a program that hears lines and answers by lines, so that `dorydate.conformance` may try it.

    python3 -m dorydate.live.heard ./host -q 0/2 PORT echo 1

Here this end of the wire is its IMP: what the host is handed goes to it in frames, and what it says until it is silent
is its answer. Nobody can ask its user for something, so of the dialogues those remain in which nobody does, and those
with a server on socket 1, in which answers are held back or say that a message was lost. By the contract its own log is
judged as far as one without deeds can be.
"""

from __future__ import annotations

import argparse
import socket
import subprocess
import sys
from collections.abc import Iterator, Sequence
from contextlib import contextmanager, suppress

from dorydate import ending
from dorydate.conformance.dialogues import DIALOGUES
from dorydate.conformance.served import SERVED
from dorydate.conformance.steps import MINE, Dialogue
from dorydate.conformance.trial import Finding, Trial
from dorydate.conformance.underway import UnderWay
from dorydate.contract import Known
from dorydate.coupling import Mute
from dorydate.export.leaders import crossing_of
from dorydate.live.frames import LAST, READY, Assembly, Frame, WireFault
from dorydate.live.messages import nop, read
from dorydate.network import Host
from dorydate.program import NoProgram, Program

SILENCE = 0.2  # seconds after which a host has said what it has to say
COMES = 10.0  # seconds in which a host has to say that it is ready
MOST_HEARD = 1_000  # messages in answer to one


class Heard:
    """A host of which this socket is the IMP."""

    def __init__(self, imp: socket.socket, silence: float = SILENCE) -> None:
        self.imp, self.silence, self.own = imp, silence, Host.read(MINE)
        self.sequence, self.assembly = 0, Assembly()
        imp.settimeout(COMES)
        try:
            octets, self.peer = imp.recvfrom(4096)
        except TimeoutError:
            raise Mute(f"the host said nothing in {COMES:g} seconds") from None
        self.note(octets)
        for _ in range(3):
            self.send(nop(self.own))
        self.answers()

    def send(self, words: bytes) -> None:
        self.imp.sendto(Frame(self.sequence, LAST | READY, words).octets(), self.peer)
        self.sequence += 1

    def note(self, octets: bytes) -> str | None:
        """The line of a message that comes in a frame, if it ends one."""
        try:
            words = self.assembly.add(Frame.read(octets))
            event = read(self.own, words, marked=False).event if words else None
        except WireFault as why:
            raise Mute(f"it sends a frame that is refused: {why}") from None
        return str(event) if event else None

    def answers(self) -> list[str]:
        """The lines of all that it says until it is silent."""
        said: list[str] = []
        self.imp.settimeout(self.silence)
        with suppress(TimeoutError):
            for _ in range(MOST_HEARD):
                if line := self.note(self.imp.recv(4096)):
                    said.append(line)
            raise Mute(f"it says more than {MOST_HEARD} messages")
        return said

    def hear(self, line: str) -> Sequence[str]:
        crossing = crossing_of(tuple(line.split(" ")))
        if crossing is None or not crossing.octets:
            return []  # what a user asks for, or why a message was refused
        self.send(crossing.octets)
        return self.answers()


@contextmanager
def started(command: Sequence[str], port: int) -> Iterator[socket.socket]:
    """The IMP's socket, with a host that was started for it; the word `PORT` of its command is the port."""
    with socket.socket(socket.AF_INET, socket.SOCK_DGRAM) as imp:
        imp.bind(("127.0.0.1", port))
        words = [str(imp.getsockname()[1]) if it == "PORT" else it for it in command]
        try:
            process = subprocess.Popen(words, stdout=subprocess.DEVNULL, stderr=subprocess.DEVNULL)
        except OSError as why:
            raise Mute(f"`{words[0]}` doesn't start: {why.strerror or why}") from None
        try:
            yield imp
        finally:
            process.kill()
            process.wait()


def on_the_wire() -> list[Dialogue]:
    """The dialogues in which nothing is asked of the host's user."""
    return [it for it in (*DIALOGUES, *SERVED) if all(step.who != "user" for step in it.steps)]


def had(command: Sequence[str], dialogue: Dialogue, port: int = 0, simulator: Program | None = None) -> Finding | None:
    """A dialogue with a host that is started for it: what is wrong, None where nothing is."""
    with started(command, port) as imp:
        heard = Heard(imp)
        if dialogue in SERVED:
            return UnderWay(heard, dialogue, Known(deeds=False)).finding()
        return Trial(heard, dialogue, simulator).finding()


def main() -> int:
    """The status: 0 if all is right, else 1."""
    words = argparse.ArgumentParser("heard", description=(__doc__ or "").split("\n\n")[0])
    words.add_argument("command", nargs=argparse.REMAINDER, help="the host, with the word PORT where its IMP's port goes")
    if not (command := words.parse_args().command):
        said = f"which host? It is {MINE}, and the word PORT is that of its IMP: ./host {MINE} PORT echo 1"
        print(f"heard: {said}", file=sys.stderr)
        return 1
    chosen, wrong = on_the_wire(), 0
    try:
        for dialogue in chosen:
            found = had(command, dialogue)
            wrong += found is not None
            print(f"wrong  {dialogue.name}: {found}" if found else f"right  {dialogue.name}", flush=True)
    except (Mute, NoProgram) as why:
        print(f"heard: {why}", file=sys.stderr)
        return 1
    others = len(DIALOGUES) + len(SERVED) - len(chosen)
    print(f"{len(chosen)} dialogues, {wrong} wrong; {others} need the user of the host")
    return 1 if wrong else 0


if __name__ == "__main__":
    sys.exit(ending.run("heard", main))

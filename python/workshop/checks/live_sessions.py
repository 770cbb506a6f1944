"""Sessions of `dorydate live` for `./check live`, each in a process of its own, and what is judged of its record."""

from __future__ import annotations

import os
import signal
import socket
import subprocess
import sys
import time
from collections.abc import Iterator, Sequence
from contextlib import contextmanager
from dataclasses import dataclass
from pathlib import Path
from typing import TypeAlias

from dorydate.network import Host, Imp, Line, Network
from dorydate.program import Program
from workshop.parts import ROOT

LISTENS = 300.0  # seconds in which a session has to listen, on a machine that has much else to do
ENDS = 60.0  # and in which it has to end when it is asked to
LIMIT = "60"  # seconds for a host's dialogue
LINES = ("HELLO", "A SECOND LINE")
Process: TypeAlias = "subprocess.Popen[str]"


def free_ports(count: int) -> list[int]:
    """Ports that nothing uses now."""
    bound = [socket.socket(socket.AF_INET, socket.SOCK_DGRAM) for _ in range(count)]
    for it in bound:
        it.bind(("127.0.0.1", 0))
    ports = [int(it.getsockname()[1]) for it in bound]
    for it in bound:
        it.close()
    return ports


@dataclass
class Room:
    """Where sessions are kept, with the program and the host in C that they run."""

    folder: Path
    program: str
    host: str

    def env(self) -> dict[str, str]:
        return {**os.environ, "DORYDATE_PROGRAM": self.program, "PYTHONPATH": f"{ROOT}/python"}

    def replay(self, octets: bytes, *options: str) -> str:
        return Program(self.program).run(octets, *options).output

    def talk(self, own: Host, port: int, peer: Host, lines: Sequence[str] = LINES, *options: str) -> Process:
        """A host in C that types lines at socket 1 of another host."""
        words = [self.host, "-q", "-l", LIMIT, "-p", "3", *options, str(own), str(port), "talk", str(peer), "1", *lines]
        return subprocess.Popen(words, stdout=subprocess.PIPE, text=True)

    def echo(self, own: Host, port: int) -> Process:
        """A host in C whose socket 1 echoes."""
        words = [self.host, "-q", str(own), str(port), "echo", "1"]
        return subprocess.Popen(words, stdout=subprocess.DEVNULL, text=True)


class Running:
    """A session that runs. Its record is in `folder`."""

    def __init__(self, room: Room, name: str, network: Network, words: Sequence[str], given: bool) -> None:
        self.room, self.folder, self.network = room, room.folder / name, network
        topology = room.folder / f"{name}.toml"
        topology.write_text(network.toml())
        self.ports = dict(zip(network.strangers(), free_ports(len(network.strangers()) if given else 0)))
        bound = [str(topology), "--bind", *(f"{it}={port}" for it, port in self.ports.items())] if given else []
        self.asked = [*bound, *words]
        self.process = self.begun("--record", str(self.folder))

    def begun(self, *words: str) -> Process:
        """A process with the session, once it listens. TimeoutError where it never does."""
        said = self.folder.with_suffix(".said")
        with open(said, "a", encoding="utf-8") as errors:
            at = errors.tell()
            command = [sys.executable, "-B", "-m", "dorydate", "live", *self.asked, *words]
            process = subprocess.Popen(command, stderr=errors, env=self.room.env(), text=True)
        ends = time.monotonic() + LISTENS
        while "listens at" not in said.read_text()[at:] and process.poll() is None:
            if time.monotonic() > ends:
                process.kill()  # an interrupt may be ignored until it listens
                raise TimeoutError(f"{self.folder.name}: the session doesn't listen after {LISTENS:g} seconds")
            time.sleep(0.02)
        return process

    def kill(self) -> None:
        """Kills it, and continues its session."""
        self.process.send_signal(signal.SIGKILL)
        self.process.wait()
        self.process = self.begun("--resume", str(self.folder))

    def end(self) -> None:
        if self.process.poll() is None:
            self.process.send_signal(signal.SIGINT)
        self.process.wait(timeout=ENDS)

    def faults(self) -> Iterator[str]:
        """What is wrong with its record."""
        name = self.folder.name
        if self.process.returncode:
            said = self.folder.with_suffix(".said").read_text().splitlines()
            yield f"{name}: the session ended with status {self.process.returncode}: {said[-1:]}"
        script, printed = (self.folder / "script").read_bytes(), (self.folder / "printed").read_text()
        if self.room.replay(script, "--texts") != printed:
            yield f"{name}: the replay isn't what was printed"
        log = self.room.replay(script, "--log")
        if (verdict := self.room.replay(log.encode("latin-1"), "--audit")) != "kept\n":
            yield f"{name}: the audit says {verdict!r}"

    def events(self) -> list[str]:
        """The events of its script."""
        lines = (self.folder / "script").read_text().split("\n%\n")[1].splitlines()
        return [it for it in lines if not it.startswith("#")]


@contextmanager
def session(room: Room, name: str, network: Network, *words: str, given: bool = True) -> Iterator[Running]:
    """A session that ends with the block; one that makes its network itself isn't given it."""
    running = Running(room, name, network, words, given)
    try:
        yield running
    finally:
        running.end()


@contextmanager
def ended(*hosts: Process) -> Iterator[None]:
    """Ends these hosts with the block."""
    try:
        yield
    finally:
        for it in hosts:
            it.kill()
            it.wait()


def outcome(host: Process) -> tuple[int, str]:
    """The status of a host that has talked, and its last line."""
    said, _ = host.communicate()
    return host.returncode, said.strip().splitlines()[-1] if said.strip() else "it said nothing"


def with_strangers(network: Network, strangers: Sequence[int]) -> Network:
    """A network of the same IMPs and lines with host programs, but for those at these IMPs."""
    imps = tuple(Imp(it.number, 1, it.name, it.more, (0,) if it.number in strangers else ()) for it in network.imps)
    return Network(imps, network.lines)


TRIANGLE = Network(
    (Imp(1, 1, "UCLA"), Imp(2, 1, "SRI", "", (0,)), Imp(3, 1, "MINE", "", (0,))), (Line(1, 2), Line(2, 3), Line(1, 3))
)
HERE, SRI, MINE = Host(0, 1), Host(0, 2), Host(0, 3)

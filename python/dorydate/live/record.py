"""The record of a session, a folder: what happened as a script, what it printed, and what crossed the wire."""

from __future__ import annotations

import os
import re
import time
from collections.abc import Callable, Sequence
from pathlib import Path

from dorydate.ending import in_words
from dorydate.given import Input
from dorydate.live.engine import Ended
from dorydate.marks import LAST
from dorydate.network import Host
from dorydate.program import MOST_OCTETS
from dorydate.script import Event

MOST_WIRE = 1 << 28  # octets of the file of frames; what crosses after these is not kept
SCRIPT, PRINTED, WIRE = "script", "printed", "wire"
FROM_HOST, TO_HOST = "from", "to"
UDP, TCP = "udp", "tcp"
Address = tuple[str, int]
CALLS = re.compile(r"# [0-9.]+ s: calls \S+ from port ([0-9]+)")
READY = re.compile(rf"# [0-9.]+ s: (\S+) is ready, {UDP} ([0-9.]+):([0-9]+)")


class Whole:
    """A file that grows by whole pieces, each handed on at once: what can't be written leaves it as it was."""

    def __init__(self, path: Path, content: bytes) -> None:
        self.path, self.length = path, 0
        try:
            self.file = os.open(path, os.O_WRONLY | os.O_CREAT, 0o666)
            if not self._is(content):
                os.ftruncate(self.file, 0)
                self.add(content)
        except OSError as why:
            raise Ended(in_words(why)) from None
        self.length = len(content)

    def _is(self, content: bytes) -> bool:
        """Whether the file has this content already; what follows it is cut off."""
        if self.path.read_bytes()[: len(content)] != content:
            return False
        os.ftruncate(self.file, len(content))
        os.lseek(self.file, 0, os.SEEK_END)
        return True

    def add(self, piece: bytes) -> None:
        try:
            left = piece
            while left:
                left = left[os.write(self.file, left) :]
        except OSError as why:
            os.ftruncate(self.file, self.length)
            raise Ended(f"the record can't be written: {in_words(why)}") from None
        self.length += len(piece)


class Record:
    """The files of a session. A piece is in `script` before it is in `printed`, and there before a host hears of it."""

    def __init__(
        self, folder: Path, topology: str, events: Sequence[bytes] = (), printed: Sequence[str] = ()
    ) -> None:
        try:
            folder.mkdir(parents=True, exist_ok=True)
        except OSError as why:
            raise Ended(in_words(why)) from None
        self.folder = folder
        self.began = time.monotonic()
        head = topology.encode("utf-8", "surrogateescape") + b"%\n"
        self.script = Whole(folder / SCRIPT, head + b"".join(it + b"\n" for it in events))
        self.printed = Whole(folder / PRINTED, "".join(f"{it}\n" for it in printed).encode("latin-1"))
        self.wire = Whole(folder / WIRE, b"")
        self.grows: list[Callable[[bytes], None]] = []  # who hears each piece of the script

    def seconds(self) -> float:
        return time.monotonic() - self.began

    def add(self, happened: Sequence[tuple[Event, Sequence[str]]]) -> None:
        """Writes events, and what they printed."""
        lines = b"".join(str(event).encode("latin-1") + b"\n" for event, _ in happened)
        if self.script.length + len(lines) > MOST_OCTETS:
            raise Ended(f"the record has come to the {MOST_OCTETS:,} octets that an input may have")
        self._add(lines)
        if printed := "".join(f"{line}\n" for _, said in happened for line in said):
            self.printed.add(printed.encode("latin-1"))

    def say(self, words: str) -> None:
        """Writes a comment with the second at which it was said, while there is room."""
        comment = f"# {self.seconds():.3f} s: {words}\n".encode()
        if self.script.length + len(comment) <= MOST_OCTETS - 1024:
            self._add(comment)

    def _add(self, piece: bytes) -> None:
        if piece:
            self.script.add(piece)
            for grown in self.grows:
                grown(piece)

    def crossed(self, kind: str, direction: str, host: Host, octets: bytes) -> None:
        """Writes what crossed the wire from a host, or to it."""
        line = f"{self.seconds():.6f} {kind} {direction} {host} {octets.hex().upper() or '-'}\n".encode()
        if self.wire.length + len(line) <= MOST_WIRE:
            self.wire.add(line)

    def end(self) -> None:
        """Writes the last line of a replay. The script needs none."""
        self.printed.add(f"{LAST}\n".encode())


def read(folder: Path) -> tuple[str, list[bytes]]:
    """The topology and the lines of an earlier session. A last line without its line feed is left out."""
    try:
        octets = (folder / SCRIPT).read_bytes()
    except OSError as why:
        raise Ended(in_words(why)) from None
    given = Input(octets[: octets.rfind(b"\n") + 1])
    if given.marker is None:
        raise Ended(f"{folder / SCRIPT}: it has no line `%`, so it is no session")
    return given.topology().decode("utf-8", "surrogateescape") + "\n", [line for _, line in given.script]


def highest(lines: Sequence[bytes], pattern: str, least: int) -> int:
    """The highest number that a pattern finds in the events of an earlier session, and not below the least."""
    found = (re.fullmatch(pattern, it.decode("latin-1")) for it in lines if not it.startswith(b"#"))
    return max([least, *(int(it[1]) for it in found if it)])


def calling_port(lines: Sequence[bytes]) -> int:
    """The port from which another network's IMP was called last, 0 if none was."""
    found = (CALLS.fullmatch(it.decode("utf-8", "replace")) for it in lines if it.startswith(b"#"))
    return max([0, *(int(it[1]) for it in found if it)])


def peers(lines: Sequence[bytes]) -> dict[Host, Address]:
    """From where hosts spoke last over UDP, as the comments of a session say."""
    found = (READY.fullmatch(it.decode("utf-8", "replace")) for it in lines if it.startswith(b"#"))
    return {Host.read(it[1]): (it[2], int(it[3])) for it in found if it}

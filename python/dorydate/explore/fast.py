"""`./explore --fast`: all states by the plain program in Rust (tools/plain), a hundred times faster than by the proved one.

It finds; the proved program confirms what it finds before that is shown. That it finds nothing is said to be the plain program's: nothing is
proved of it. `./check shortest` compares its states with those of the proved program's trace.
"""

from __future__ import annotations

import hashlib
import os
import shutil
import subprocess
import sys
import tempfile
from collections.abc import Iterator, Sequence
from dataclasses import dataclass, field
from pathlib import Path

from dorydate.explore.breadth import Asked, Count
from dorydate.explore.many import CannotRun
from dorydate.explore.pattern import Part, Pattern
from dorydate.explore.shrink import Script as Events
from dorydate.script import read_event
from dorydate.where import repository

MEGABYTES = 1024  # of states, where nothing else is said


# ---- the program


def finder() -> str:
    """The plain program of the present sources, which the first call builds."""
    root = repository()
    if root is None:
        raise CannotRun("--fast needs the sources of tools/plain, which are only in the repository")
    sources = sorted((root / "tools" / "plain").glob("*.rs"))
    name = hashlib.sha256(b"\0".join(it.name.encode() + b"\0" + it.read_bytes() for it in sources)).hexdigest()[:16]
    kept = root / "out" / f"plain-{name}"
    if not kept.is_file():
        print("explore: building the plain program, which takes a minute, once for these sources", file=sys.stderr, flush=True)
        build(root / "tools" / "plain", kept)
    return str(kept)


def build(sources: Path, file: Path, *options: str) -> None:
    """Builds the plain program of some sources. What was built of others is removed."""
    if not shutil.which("rustc"):
        raise CannotRun("--fast needs the compiler rustc, which isn't on the path (Debian's package rustc has one)")
    file.parent.mkdir(exist_ok=True)
    with tempfile.TemporaryDirectory(dir=file.parent) as room:
        made = Path(room) / "plain"
        ran = subprocess.run(["rustc", *(options or ("-O",)), "--edition", "2021", str(sources / "main.rs"), "-o", str(made)], capture_output=True, text=True)
        if ran.returncode:
            raise CannotRun(f"rustc can't build tools/plain: {ran.stderr.strip()[:400]}")
        for other in file.parent.glob("plain-*"):
            other.unlink(missing_ok=True)
        os.replace(made, file)


# ---- what is asked


def words_of(part: Part) -> str:
    return " ".join([*part.words, *([".."] if part.has_rest else []), *part.ending])


def spelled(pattern: Pattern) -> str:
    """A pattern in the form that the plain program reads."""
    lines = []
    for sequel in pattern.sequels:
        lines.append("sequel")
        for barred, part in sequel.parts:
            lines += [*(f"bar {words_of(it)}" for it in barred), f"part {words_of(part)}"]
        lines += [f"bar {words_of(it)}" for it in sequel.never_after]
    lines += [f"where {it.left} {it.sign} {it.right}" for it in pattern.conditions]
    if calm := pattern.calm.rounds:
        lines.append(f"calm {calm}")
        lines += ["nothing"] if pattern.calm.nothing else []
        lines += [f"least {pattern.calm.least}", *(f"none {words_of(it)}" for it in pattern.calm.barred)]
    return "".join(f"{it}\n" for it in lines)


def input_of(asked: Asked) -> bytes:
    """The input of a search: topology, opening, events and pattern."""
    if asked.network.strangers():
        raise CannotRun("the plain program knows no strangers: leave out --fast")
    if "slots" in asked.pattern.heads():
        raise CannotRun("the plain program doesn't print `slots`: leave out --fast")
    head = "\n".join(asked.network.toml().splitlines())
    parts = [head, "\n".join(map(str, asked.opening)), "\n".join(map(str, asked.events)), spelled(asked.pattern)]
    return "\n%\n".join(parts).encode("ascii")


# ---- what comes of it


@dataclass(frozen=True)
class Level(Count):
    """What was looked at at a depth."""

    octets: int  # of the longest spelling of a state so far


@dataclass(frozen=True)
class Class:
    """What a long calm makes of states: how many there are, what is to be said, and the shortest script of one."""

    count: int
    label: str
    script: Events


@dataclass
class Answer:
    """What a search came to: its levels, what it found, whether all was looked at, and classes of states."""

    levels: list[Level] = field(default_factory=list)
    found: Events | None = None
    stopped: str = ""  # why it wasn't looked at everything
    whole: int = 0  # up to which length every list was looked at
    is_all: bool = False  # whether there are no further states
    classes: list[Class] = field(default_factory=list)

    def take(self, line: str) -> Level | None:
        """Takes a line of the plain program; a level if it says one."""
        kind, _, rest = line.partition(" ")
        if kind in ("depth", "part"):
            depth, steps, refused, new, states, seconds, octets = rest.split(" ")
            level = Level(int(depth), int(steps), int(refused), int(new), int(states), float(seconds), int(octets))
            self.levels.append(level)
            if kind == "depth":
                self.whole, self.is_all = level.depth, not level.new
            return level
        if kind == "class":
            count, _, rest = rest.partition(" ")
            label, _, script = rest.partition("\t")
            self.classes.append(Class(int(count), label, events_of(script)))
        elif kind == "found":
            self.found = events_of(rest)
        elif kind == "stopped":
            self.stopped = rest
        return None


def events_of(script: str) -> Events:
    """The events of a script in one line."""
    return tuple(map(read_event, filter(None, script.split("; "))))


def lines_of(program: str, asked: Asked, options: Sequence[str]) -> Iterator[str]:
    """The lines that the plain program prints, as they come."""
    words = [program, "--search", "--depth", str(asked.depth), "--seconds", str(asked.seconds), *options]
    with tempfile.TemporaryFile() as given:
        given.write(input_of(asked))
        given.seek(0)
        running = subprocess.Popen(words, stdin=given, stdout=subprocess.PIPE, stderr=subprocess.PIPE, text=True)
        try:
            assert running.stdout is not None and running.stderr is not None
            for line in running.stdout:
                yield line.rstrip("\n")
            if running.wait():
                raise CannotRun(f"the plain program says: {running.stderr.read().strip()}")
        finally:
            running.kill()
            running.wait()


def searched(asked: Asked, shows: bool = False, options: Sequence[str] = ("--megabytes", str(MEGABYTES)), program: str | None = None) -> Answer:
    """What the plain program finds."""
    answer = Answer()
    for line in lines_of(program or finder(), asked, options):
        level = answer.take(line)
        if level and shows:
            print(f"explore: {level.line()}", file=sys.stderr, flush=True)
    return answer


def scripts(asked: Asked, program: str) -> Iterator[Events]:
    """Of each state that isn't the first the shortest script."""
    for line in lines_of(program, asked, ["--scripts"]):
        kind, _, rest = line.partition(" ")
        if kind == "state" and rest:
            yield events_of(rest)


def last_words(asked: Asked, answer: Answer) -> str:
    """What is said where nothing was found, or how short it is."""
    if answer.found is not None:
        return f"{len(answer.found)} events, and no fewer of {asked.words()} do it, by the plain program; the script is confirmed"
    if answer.is_all:
        return f"no list of {asked.words()} does it, of any length: these are all states (by the plain program, of which nothing is proved)"
    return f"none of up to {answer.whole} of {asked.words()}, by the plain program, of which nothing is proved"

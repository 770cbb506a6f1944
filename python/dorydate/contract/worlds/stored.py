"""Stored scripts in which one host lacks one rule and the promise breaks: the files of `without/contract`.

The first three lines of a file say which rule is lacking, at which host, and which clauses break. The others are an own
log of all its hosts in one order (`lines`), with comments.
"""

from __future__ import annotations

from collections.abc import Sequence
from dataclasses import dataclass

from dorydate.contract.acts import Act, Comes
from dorydate.contract.keeps import judged
from dorydate.contract.lines import CROSSES, DEEDS, Hearing
from dorydate.contract.logs import Line, Log, read_log
from dorydate.contract.rules import RULES
from dorydate.contract.state import Broken
from dorydate.contract.worlds.mailboxes import Network
from dorydate.contract.worlds.promise import Life, broken
from dorydate.model.names import HostName, NoRun, Refused, read_host

HEADING = "# lacks: ", "# host: ", "# breaks: "


@dataclass
class Script:
    """A rule that a host lacks, what breaks, and what happens."""

    lacks: str
    host: str
    breaks: set[str]
    lines: Sequence[str]

    @staticmethod
    def read(text: str) -> Script:
        lines = text.splitlines()
        lacks, host, breaks = (line.removeprefix(it) for line, it in zip(lines, HEADING))
        return Script(lacks, host, set(breaks.split(" ")), lines)

    def log(self) -> Log:
        return read_log(self.lines)

    def hosts(self) -> list[HostName]:
        return [read_host(it) for it in self.log().hosts]


def in_order(log: Log) -> list[tuple[str, Line]]:
    """The lines of all hosts, each with its host."""
    return sorted(((host, it) for host, lines in log.hosts.items() for it in lines), key=lambda it: it[1].number)


class Recorded(Hearing):
    """A host's own log whose acts are written down beside those of others."""

    acts: list[tuple[HostName, Act]]

    def step(self, place: int, act: Act) -> None:
        self.acts.append((read_host(self.own.host), act))
        super().step(place, act)


class Run:
    """A script as it happens: over the mailboxes, each host its own log's fold."""

    def __init__(self, script: Script) -> None:
        log = script.log()
        self.net = Network([read_host(it) for it in log.hosts])
        lacking = {script.host: (script.lacks,)}
        self.hearing = {it: Recorded(it, lacking.get(it, ())) for it in log.hosts}
        self.acts: list[tuple[HostName, Act]] = []
        for it in self.hearing.values():
            it.acts = self.acts
        for host, line in in_order(log):
            self.line(host, line)
        for it in self.hearing.values():
            it.release(True)
            it.own.settle()

    def line(self, host: str, line: Line) -> None:
        """A line of a host."""
        hearing = self.hearing[host]
        if line.words[0] in CROSSES and line.crosses is not None:
            act = self.net.cross(read_host(host), line.crosses)
            if isinstance(act, Comes) and isinstance(line.crosses, Comes) and act.text != line.crosses.text:
                raise NoRun
            hearing.crosses(len(self.net.log) - 1, act)
        elif line.words[0] in DEEDS:
            hearing.does(len(self.net.log) - 1, line.words)
        else:
            hearing.tells(len(self.net.log) - 1, line.words)

    def broken(self) -> set[str]:
        """The clauses of the promise that don't hold."""
        lives = [Life(host, end) for host, it in self.hearing.items() for end in it.own.lives]
        return broken(self.net.log, lives, set(self.hearing))


def wrong_with(script: Script) -> str | None:
    """What is wrong with a stored script, None where it shows what it says."""
    if script.lacks not in RULES:
        return f"there is no rule `{script.lacks}`"
    try:
        found = Run(script).broken()
    except Broken as why:
        return f"without `{script.lacks}` a host still breaks a rule: {why}"
    except Refused:
        return "its crossings are no run of the mailboxes"
    if found != script.breaks:
        return f"it breaks {' '.join(sorted(found)) or 'nothing'}, not {' '.join(sorted(script.breaks))}"
    verdicts = [(it.host, it.rule.name) for it in judged(script.log(), whole=True) if it.rule is not None]
    return None if verdicts == [(script.host, script.lacks)] else f"by their own logs {verdicts} break rules"

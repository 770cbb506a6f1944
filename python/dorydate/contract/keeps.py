"""Whether the hosts of a log keep the contract, each by its own lines only."""

from __future__ import annotations

from collections.abc import Collection
from dataclasses import dataclass, field

from dorydate.contract.fold import Broken, Known
from dorydate.contract.lines import DEEDS, Hearing
from dorydate.contract.lived import Lives
from dorydate.contract.logs import Line, Log
from dorydate.contract.rules import Rule


@dataclass
class Verdict:
    """What a host's own log says: how far it could be judged, and the first rule that it breaks."""

    host: str
    line: int = 0  # where the rule is broken
    rule: Rule | None = None
    why: str = ""
    words: list[str] = field(default_factory=list)  # of that line
    how_far: list[str] = field(default_factory=list)  # what the log doesn't say, in sentences

    @property
    def is_kept(self) -> bool:
        return self.rule is None


def judged(log: Log, without: Collection[str] = (), whole: bool = False) -> list[Verdict]:
    """The verdict of each host that isn't a stranger, in order of their first lines."""
    return [judge(log, host, without, whole) for host in log.hosts if host not in log.strangers]


def judge(log: Log, host: str, without: Collection[str] = (), whole: bool = False) -> Verdict:
    """The verdict of one host. `whole` is a log that begins when the host starts."""
    has_deeds = log.has_deeds(host)
    hearing = Hearing(host, without, Known(has_deeds or log.is_ended, whole))
    lives = Lives(log, host, hearing) if log.is_ended and not has_deeds else None
    verdict = Verdict(host)
    line = None
    try:
        for line in log.hosts[host]:
            take(hearing, lives, line)
        line = None
        hearing.release(True)
        if lives:
            lives.end()
        hearing.own.settle()
    except Broken as broken:
        verdict.rule, verdict.why = broken.rule, broken.why
        last = line or log.hosts[host][-1]
        verdict.line, verdict.words = last.number, last.words
    verdict.how_far = how_far(hearing, lives, has_deeds)
    return verdict


def take(hearing: Hearing, lives: Lives | None, line: Line) -> None:
    """The next line."""
    if line.crosses is not None and lives:
        lives.crosses(line.number, line.crosses)
    elif line.crosses is not None:
        hearing.crosses(line.number, line.crosses)
    elif line.words[0] not in DEEDS:
        hearing.tells(line.number, line.words)
    elif not line.is_refused:
        hearing.does(line.number, line.words)


def how_far(hearing: Hearing, lives: Lives | None, has_deeds: bool) -> list[str]:
    """What a log doesn't say, and what was taken for it."""
    through = "is in it; they are taken as through one when it began"
    found = [f"no reset with {it} {through}" for it in sorted(hearing.own.assumed)]
    if lives:
        found.append("it doesn't say when its users grant, hand over and close; its lives say how much")
        return found + lives.notes
    if not has_deeds:
        found.append("it says nothing of users: what they grant, hand over and close, and what they hear, isn't judged")
    return found

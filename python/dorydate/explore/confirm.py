"""What a search found, once more: the plain replay of the script that is printed, by itself."""

from __future__ import annotations

from collections.abc import Sequence

from dorydate.explore.many import Result
from dorydate.explore.pattern import Pattern
from dorydate.explore.seen import Seen
from dorydate.network import Network
from dorydate.program import Program
from dorydate.script import Calm, Event, Script
from dorydate.trace import records


class NotConfirmed(Exception):
    """A script that was found, and doesn't print what was looked for."""


def plain(network: Network, pattern: Pattern, script: Sequence[Event], program: Program) -> Result:
    """What a script and then the pattern's last calm print by themselves, with what a trace shows if that is asked."""

    def printed(events: Sequence[Event], *options: str) -> list[str]:
        ran = program.run(Script.of(network, events).octets(), *options)
        if ran.status:
            raise NotConfirmed(f"the program says of what was found: {ran.said.strip()} (status {ran.status})")
        return ran.output.splitlines()

    if pattern.needs_trace():
        trace = "\n".join(printed(script, "--trace")) + "\n"
        return Result(tuple(it for _, lines in Seen(network).lines(records(trace)) for it in lines), ())
    rounds = pattern.calm.rounds
    options = ["--book"] if pattern.needs_lives() else []
    whole = printed((*script, Calm(rounds)) if rounds else script, *options)[:-1]
    lives = len([it for it in whole if it.startswith("life ")])
    before = len(printed(script)) - 1
    return Result(tuple(whole), tuple(whole[before : len(whole) - lives]) if rounds else ())


def confirm(network: Network, pattern: Pattern, script: Sequence[Event], program: Program) -> None:
    """Raises NotConfirmed unless the plain replay of a script prints what was looked for."""
    result = plain(network, pattern, script, program)
    if pattern.match(result.lines, result.last) is None:
        what = "; ".join(map(str, script))
        raise NotConfirmed(f"its plain replay doesn't print what was looked for, so this is no finding: {what}")

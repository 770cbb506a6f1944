"""A program that hears lines over mailboxes, with its own log, which is judged as it grows."""

from __future__ import annotations

from typing import Protocol

from collections.abc import Sequence

from dorydate.contract.acts import Goes, Starts, Stops
from dorydate.contract.fold import Broken, Known
from dorydate.contract.lines import CROSSES, DEEDS, Hearing, crossed, crossing_of
from dorydate.contract.logs import FORMS
from dorydate.model.bits import Bits
from dorydate.model.script import BadLine

MOST_SAID = 100  # messages in answer to one line


class Speaks(Protocol):
    """What hears a line and answers by lines."""

    def hear(self, line: str) -> Sequence[str]:
        """What it answers to a line."""


class Wrong(Exception):
    """What a program did wrong, in words."""

    def __init__(self, why: str, rule: str = "") -> None:
        super().__init__(why)
        self.rule = rule


class Hears:
    """A program, its own log as lines, and the fold of it."""

    def __init__(self, program: Speaks, host: str, known: Known = Known()) -> None:
        self.program, self.host = program, host
        self.hearing = Hearing(host, known=known)
        self.log: list[str] = []
        self.busy: set[tuple[str, int]] = set()  # peers and links with a message that has no answer
        self.sent: list[Goes] = []

    def hears(self, line: str) -> list[tuple[int, Bits]]:
        """It hears a line, and what it says goes out: links and texts. Raises Wrong, and what the program raises."""
        answers = [*self.program.hear(line)]
        self.sent = []
        try:
            self.heard(line, bool(answers) and answers[0].startswith("refused "))
            for it in answers:
                self.says(it)
            self.hearing.release(True)
        except Broken as why:
            raise Wrong(f"it breaks the rule `{why.rule.name}`: {why.why}", why.rule.name) from None
        return [(it.link, it.text) for it in self.sent]

    def heard(self, line: str, is_refused: bool) -> None:
        """What it hears is in its log."""
        self.log.append(line)
        words = line.split(" ")
        if words[0] in CROSSES:
            _, act = crossed(crossing_of(line))
            if words[0] == "answer":
                self.busy.discard((words[3], int(words[4])))
            self.hearing.crosses(len(self.log), act)
        elif words[0] in DEEDS and not is_refused:
            self.hearing.does(len(self.log), words)

    def says(self, line: str) -> None:
        """A line of its answer."""
        self.log.append(line)
        words = line.split(" ")
        if words[0] == "out":
            self.goes(line)
        elif words[0] in FORMS and FORMS[words[0]].fullmatch(line) and words[1] == self.host:
            self.hearing.tells(len(self.log), words)

    def goes(self, line: str) -> None:
        try:
            host, act = crossed(crossing_of(line))
        except (BadLine, ValueError):
            raise Wrong("it says what is no message") from None
        if host != self.host or not isinstance(act, Goes):
            raise Wrong(f"it says a message of another host, {host}")
        if (act.peer, act.link) in self.busy:
            raise Wrong(f"a message of its own is refused: link {act.link} has one that isn't answered")
        self.busy.add((act.peer, act.link))
        self.sent.append(act)
        if len(self.sent) > MOST_SAID:
            raise Wrong(f"it says more than {MOST_SAID} messages to one line")
        self.hearing.crosses(len(self.log), act)

    def turns(self, program: Speaks | None) -> None:
        """Its host stops, or starts with a new program."""
        self.log.append(f"{'up' if program else 'down'} {self.host}")
        self.hearing.crosses(len(self.log), Starts() if program else Stops())
        self.busy = set()
        if program:
            self.program = program

    def at_its_end(self) -> str | None:
        """What is wrong with its log when no more comes."""
        try:
            self.hearing.own.settle()
        except Broken as why:
            return f"it breaks the rule `{why.rule.name}`: {why.why}"
        return None

"""The lines that a replay prints: what kind each is, and the message, answer or notice in it."""

from __future__ import annotations

import re
from collections.abc import Iterable

from dorydate.script import Flow
from dorydate.sentences import LINES

CROSSINGS = ("out", "in", "answer", "down", "up")
REPORTS = ("done", "failed", "line")
LIFE, REFUSED = "life", "refused"
ANSWERS = ("rfnm", "dead", "incomplete", "nottaken", "unknown")  # the second words of lines about answers
FIRST_WORDS = {*CROSSINGS, REFUSED, *LINES} - {*ANSWERS}


def kind_of(line: str) -> str:
    """`crossing`, `notice`, `report`, `life` or `refused`."""
    word = line.split(" ", 1)[0]
    if word in CROSSINGS:
        return "crossing"
    return "report" if word in REPORTS else word if word in (LIFE, REFUSED) else "notice"


def refusal(printed: Iterable[str]) -> str | None:
    """The name of the refusal among what an event printed."""
    return next((it.split(" ")[1] for it in printed if it.startswith("refused ")), None)


def flow_of(line: str) -> Flow | None:
    """The flow of a message or an answer that crosses."""
    word, *words = line.split(" ")
    if word in ("out", "in"):
        return Flow.read(*words[:3])
    return Flow.read(*words[1:4]) if word == "answer" else None


def without_text(line: str) -> str:
    """The line as it is printed without the option for texts."""
    return " ".join(line.split(" ")[:5]) if line.startswith(("out ", "in ")) else line


def matches(line: str, wanted: str) -> bool:
    """Whether a line begins with these words."""
    return line == wanted or line.startswith(f"{wanted} ")


def may_match(wanted: str) -> bool:
    """Whether a line can begin with these words."""
    return wanted.split(" ")[0] in FIRST_WORDS and re.fullmatch(r"line .*|\w+( [\w/]+)*", wanted) is not None

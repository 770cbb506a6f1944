"""Says what ./arpasim prints on an input, line by line, and why: ./explain FILE

For each line of the script it prints the line's number in the file, what the program printed for it, and what that
means: also what a message says, and what an event does inside the network. For a refused event it names the cause.
For an input that the program refuses it says what is probably wrong. Its exit status is that of the program.

Which script line printed what the program itself says, in a run with refused events between those of the script.
Only the sentences rest on the rules in docs/. What messages say, and what happens inside the network, comes from the
independent model in Python, which replays the script beside the program and has to print the same lines.
"""

from __future__ import annotations

import argparse
import os
import re
import sys
from collections.abc import Callable
from typing import Any

from dorydate import named
from dorydate.expect import command as expect
from dorydate.explain import book, faults, page, promised, sheets
from dorydate.explain.charts import chart, short_chart
from dorydate.given import Input
from dorydate.explain.logs import explained
from dorydate.explain.runs import CannotTell, Replayed, kept_program, lives, ran, replay
from dorydate.explain.telling import said_beside, telling
from dorydate.explain.topology import is_raw, names_of, network_by
from dorydate.model.log import BadLog, Book, read_log
from dorydate.program import MOST_OCTETS, NoProgram, Program
from dorydate.where import ROOT, here

MOST_OF_LOG = 268_435_456  # octets of a log that is read here
def standard_input(most: int = MOST_OCTETS) -> bytes:
    """The octets of standard input, one more than `most` at the most: no longer input is taken by the program."""
    if sys.stdin.isatty():
        print("explain: reading from the terminal; Ctrl-D ends the input", file=sys.stderr)
    return sys.stdin.buffer.read(most + 1)


def audited(option: str) -> int:
    """Prints what the program says of a log or of an input's log, and for an audit why. The status."""
    octets = standard_input(MOST_OF_LOG)
    if len(octets) > MOST_OF_LOG:
        print(f"explain: more than {MOST_OF_LOG} octets", file=sys.stderr)
        return 1
    program = kept_program() or Program(f"{ROOT}/arpasim")
    ended = ran(program, octets, option)
    print(ended.said, end="", file=sys.stderr, flush=True)
    sys.stdout.buffer.write(ended.output.encode("latin-1"))
    if option == "--audit":
        print(explained(octets, ended.output.strip() or ended.said.strip().removeprefix("arpasim: ")))
    return ended.status


def of_log(octets: bytes, say: Callable[[Book], int]) -> int:
    """Says something of a log, or of an input's log. The status."""
    if b"%" in octets.split(b"\n"):
        ended = ran(kept_program() or Program(f"{ROOT}/arpasim"), octets, "--log")
        print(ended.said, end="", file=sys.stderr, flush=True)
        if ended.status:
            return ended.status
        octets = ended.output.encode("latin-1")
    try:
        return say(read_log(octets))
    except BadLog as line:
        print(f"bad log line {line}", file=sys.stderr)
        return 2


def say_of_book(found: Book, line: int | None) -> int:
    """Prints what the promise says of a life or a message. The status."""
    try:
        print(*book.said_of(found, line), sep="\n")
    except book.NoSuchLine as wrong:
        print(f"explain: line {wrong} of the log is no life and no message", file=sys.stderr)
        return 1
    return 0


def say_promise(found: Book) -> int:
    """Prints whether each clause of the promise holds. The status: 4 where one is broken."""
    lines, holds = promised.said_of(found)
    print(*lines, sep="\n")
    return 0 if holds else 4


def drawn(given: Input, found: Replayed, draw: Callable[..., str]) -> str:
    """The replay as a chart."""
    network = network_by(given)
    return draw(found.events, said_beside(given, found.events), is_raw(given), names_of(network) if network else {})


def diagnose(given: Input, said: str) -> str:
    """What is probably wrong with an input at which the program ended with these words."""
    return faults.diagnose(given, said, is_raw(given))


def replayed(form: str) -> int:
    """Prints what the input on standard input comes to, in a form. The status."""
    given = Input(standard_input())
    program = kept_program()
    ended = replay(given, program)
    if ended.status != 0:
        print(f"The program says: {ended.said.strip()} (status {ended.status}).\n{diagnose(given, ended.said)}")
    elif form in ("worksheet", "answers"):
        print(sheets.sheet(given, ended.events, page.name_of_input() or "script", form == "answers"))
    elif form:
        print(drawn(given, ended, short_chart if form == "short" else chart))
    else:
        print(*telling(given, ended.events, lives(given, program, is_raw(given))), sep="\n")
    return ended.status


def word(name: str) -> dict[str, Any]:
    """An option that may have a word of its own."""
    return {"nargs": "?", "const": "", "metavar": name}


FORMS = {
    "chart": "a sequence chart in Mermaid's language, which GitHub and GitLab draw",
    "worksheet": "a sheet for a class, as a page, that says nothing of what happens after its first question (`#?`)",
    "answers": "the same sheet with all that",
}
OTHERS: dict[str, tuple[str, dict[str, Any]]] = {
    "slides": ("the first hour of docs/lessons.md as slides, in one page", {"action": "store_true"}),
    "page": ("a page for a browser (docs/workbench.md), which can compare another file", word("OTHER")),
    "log": ("the log of the input's book", {"action": "store_true"}),
    "audit": ("FILE is a log: whether its book is safe, and why not", {"action": "store_true"}),
    "book": ("what the promise says of a life or a message of a log, or without LINE their lines there", word("LINE")),
    "promise": ("each clause of the promise over a log, by its definitions (docs/audit.md)", word("LOG")),
    "expect": ("whether each event printed what its file expects of it", {"nargs": "+", "metavar": "FILE"}),
}


def parser() -> argparse.ArgumentParser:
    """The words of the command line."""
    plain = argparse.RawDescriptionHelpFormatter
    about, more = map(here, (__doc__ or "").strip().split("\n\n", 1))
    made = argparse.ArgumentParser(here("./explain"), description=about, epilog=more, formatter_class=plain)
    made.add_argument("file", nargs="?", metavar="FILE", help="the input, or a log, else standard input")
    which = made.add_mutually_exclusive_group()
    for name, what in FORMS.items():
        which.add_argument(f"--{name}", action="store_const", const=name, dest="form", default="", help=what)
    for name, (what, how) in OTHERS.items():
        which.add_argument(f"--{name}", help=what, **how)
    short = "with --chart: one arrow for each message, and little of users"
    made.add_argument("--short", action="store_true", help=short)
    return made


def main() -> int:
    made = parser()
    chosen = made.parse_args()
    if chosen.short and chosen.form != "chart":
        made.error("--short is of --chart")
    try:
        named.open_input(settled(chosen))
        return asked(chosen)
    except (NoProgram, CannotTell) as why:
        print(f"explain: {why}", file=sys.stderr)
        return 4
    except BadLine as line:
        made.error(f"LINE is a number, and {line} is none")


class BadLine(Exception):
    """A word that is no line of a log."""


def settled(chosen: argparse.Namespace) -> str | None:
    """The file that is read in the place of standard input, also where it follows an option that may have a word."""
    if chosen.file is None and chosen.book and os.path.exists(chosen.book):
        chosen.file, chosen.book = chosen.book, ""
    if chosen.file is None and chosen.page and sys.stdin.isatty():
        chosen.file, chosen.page = chosen.page, ""
    if chosen.book and not re.fullmatch("[0-9]{1,19}", chosen.book):
        raise BadLine(chosen.book)
    return chosen.file or chosen.promise or None


def asked(chosen: argparse.Namespace) -> int:
    """Does what the words of the command line ask for. The status."""
    if chosen.expect:
        return expect(chosen.expect)
    if chosen.slides:
        print(sheets.slides())
        return 0
    if chosen.page is not None:
        return page.main(standard_input(), [chosen.page] if chosen.page else [])
    if chosen.log or chosen.audit:
        return audited("--log" if chosen.log else "--audit")
    if chosen.book is not None:
        line = int(chosen.book) if chosen.book else None
        return of_log(standard_input(MOST_OF_LOG), lambda found: say_of_book(found, line))
    if chosen.promise is not None:
        return of_log(standard_input(MOST_OF_LOG), say_promise)
    return replayed("short" if chosen.short else chosen.form)

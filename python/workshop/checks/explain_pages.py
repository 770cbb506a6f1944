"""What the pages in docs/ show of ./explain: tables, charts, and the changes to examples that the tour proposes."""

from __future__ import annotations

import re

from dorydate.explain.charts import chart, short_chart
from dorydate.explain.command import drawn
from dorydate.given import Input
from dorydate.explain.runs import replay
from dorydate.program import Program
from workshop.checks.explain_given import events_of, example, same
from workshop.checks.explain_rows import CHANGES, DIALOGUE
from workshop.parts import ROOT, text_of

Row = list[list[str]]  # the cells of a row, each as the words in it that are code


def table(document: str, head: str) -> list[Row]:
    """The rows of a document's table with this head."""
    rows = document.split(f"| {head} |\n", 1)[1].split("\n\n", 1)[0].splitlines()[1:]
    return [[re.findall(r"`([^`]*)`", cell) for cell in row.split("|")[1:3]] for row in rows]


def check_pages(program: Program) -> None:
    """The tour's table of the first message and the changes that it proposes, and the charts in docs/."""
    tour = text_of(f"{ROOT}/docs/tour.md")
    given = example("first-message")
    found = replay(given, program)
    rows = [(words, printed) for (words,), printed in table(tour, "Script line | Printed | What happened")]
    same(rows, [(" ".join(it.words), it.printed) for it in found.events], "the tour's table of the first message")
    picture = drawn(given, found, chart)
    same(f"```mermaid\n{picture}\n```" in text_of(f"{ROOT}/docs/program.md"), True, f"the chart in docs/program.md is not\n{picture}")
    picture = drawn(example(DIALOGUE), replay(example(DIALOGUE), program), short_chart)
    same((f"```mermaid\n{picture}\n```" in tour, f"`./explain --chart --short < examples/{DIALOGUE}`" in tour), (True, True), f"the chart in docs/tour.md is not\n{picture}")
    check_dialogue(program)
    same(re.findall(r"^- \[(.*)\]\(\.\./examples/", tour, re.MULTILINE), [*(name for name, *_ in CHANGES), DIALOGUE], "the tour's changes to the examples")
    for name, change, number, printed in CHANGES:
        events = events_of(Input(b"\n".join(change(example(name).lines[:-1]))), program)
        same([it.printed for it in events if it.number == number], [printed], f"{name}, changed as the tour says, line {number}")
    same(replay(given, None), found, "the first message without a kept program")
    print("check explain: the tour's table and changes, and the charts in docs/, are what it prints, with a kept program and without")


def check_dialogue(program: Program) -> None:
    """The tour's changes to the dialogue do as they say."""
    given = example(DIALOGUE)
    script = given.lines[:-1]
    events = events_of(Input(b"\n".join([*script, b"type 0/1 ", b"calm 40"])), program)
    same("line 0/1 " in events[-1].printed, True, "the tour's empty line at the terminal")
    events = events_of(Input(b"\n".join(it for it in script if it != b"contact 0/1 0/2")), program)
    same([it.printed for it in events if it.words[0] == "user"], [["failed user 0/1 local"]], "the tour's user without a contact")

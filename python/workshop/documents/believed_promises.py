"""What README and the tour promise of books, each with the fields that say it: a table on the page of the promise.

The words are taken from both pages. All that they promise has to be in the table, and each field in the records that
the page prints.
"""

from __future__ import annotations

import re

from workshop.documents.rules import read
from workshop.parts import ROOT

README, TOUR = "README.md", "docs/tour.md"
# what promises something of a book on a page: points 1 to 4 of README, and the tour's points on books
POINTS = {
    README: r"^[1-4]\. \*\*\w+\.\*\* (.*)$",
    TOUR: r"^- ((?:A message that was|If a receiving|What was taken, and|Once a receiver|Two hosts).*)$",
}
LINKS = re.compile(r" ?\((?:\[[^]]*\]\([^)]*\)(?:, )?)+\)")

STREAM = ("promise.safe.streams.source", "promise.safe.streams.one")
CLOSED = ("promise.arrived.closed", "promise.whole.took_sent")
PARTNERS = tuple(f"promise.safe.partners.{it}" for it in ("own_once", "partner_once", "peers", "both_ways"))
GRANTS = ("promise.safe.grants.taken", "promise.safe.grants.sent")

# in the order of each page: with which words a promise begins, which ends where the next one begins; the fields that
# say it; and what else is to be said
PROMISES = (
    (README, "If a sender", ("promise.safe.messages.answered",), ""),
    (README, "No message is taken", ("promise.safe.messages.once", "promise.safe.messages.none_before"), ""),
    (README, "What a receiver got", ("promise.formed", *STREAM, "promise.sent"), ""),
    (README, "and all of it,", CLOSED, "while the life continues, and where it ended, which `over` ties to both CLS; if it was reset or stopped, by `closes` of `lawful`"),
    (
        README,
        "An RFNM of data",
        ("promise.arrived.answered", "promise.whole.took_sent"),
        "for an open life, and for one that ended",
    ),
    (README, "Nobody receives", (*GRANTS, "promise.granted"), ""),
    (README, "No request", (*PARTNERS, "promise.joined"), ""),
    (
        README,
        "and after a reset",
        ("promise.formed", "promise.over", "promise.sent"),
        "of lives and data; of commands `lawful` says it",
    ),
    (TOUR, "A message that was", ("promise.safe.messages.answered", "promise.safe.messages.once"), ""),
    (TOUR, "If a receiving", (*STREAM, "promise.safe.streams.sent"), ""),
    (TOUR, "What was taken, and", GRANTS, ""),
    (TOUR, "Once a receiver", CLOSED, ""),
    (TOUR, "Two hosts", PARTNERS, ""),
)


def promised(page: str) -> str:
    """All that a page promises of a book, without its links."""
    return " ".join(re.findall(POINTS[page], LINKS.sub("", read(f"{ROOT}/{page}")), re.MULTILINE))


def words(page: str) -> list[str]:
    """What a page promises: what is before all rows, which has to be empty, and a part for each row of the table."""
    left, parts = promised(page), []
    for begins in (begins for its, begins, _, _ in PROMISES if its == page):
        before, found, left = left.partition(begins)
        parts.append(before.strip())
        left = f"{found}{left}"
    return [*parts, left.strip()]


def table() -> str:
    """The promises and their fields."""
    parts = {page: iter(words(page)[1:]) for page in POINTS}
    rows = ""
    for page, _, fields, further in PROMISES:
        said = ", ".join(f"`{it}`" for it in fields) + (f": {further}" if further else "")
        rows += f"| {page.removeprefix('docs/').removesuffix('.md')} | {next(parts[page])} | {said} |\n"
    return f"\n## What README and the tour promise\n\n| Page | Words | Said by |\n|---|---|---|\n{rows}"


def faults(fields: set[str]) -> list[str]:
    """Which promises of the two pages are in no row, or in none of their own, and which fields there aren't."""
    named = [it for _, _, names, _ in PROMISES for it in names]
    wrong = [f"docs/measured/promise.md: no field {it}" for it in named if it not in fields]
    for page in POINTS:
        before, *parts = words(page)
        lacking = [before, *(it for it in parts if re.search(r"[.;] [A-Z]", it))]
        wrong += [f"{page}: no row of its own in documents/believed_promises.py: {it}" for it in lacking if it]
        wrong += [f"{page}: doesn't say what a row of documents/believed_promises.py says"] if not all(parts) else []
    return wrong

"""Pages have one paragraph a line: no line is broken by hand. README has at most 900 words, each crate's claims have at
most 300, and all pages that people read together MOST_OF_ALL.

The pages of docs/measured are made by programs, and aren't counted.
"""

from __future__ import annotations

import glob
import os
import re

from workshop.parts import ROOT

MOST_WORDS = 900  # of README, which is read first
MOST_OF_CLAIMS = 300  # of each CLAIMS.md: what a crate promises, what it doesn't, and how that was attacked
# all pages that people read: what makes one longer makes another one shorter
MOST_OF_ALL = 62_000
PAGES = ("README.md", "CONTRIBUTING.md", "docs/*.md")
CLAIMS = ("crates/*/CLAIMS.md",)
# a line that begins something of its own: a heading, an item, a row, a quotation, a picture, a comment, code
OWN = re.compile(r"(?:#|[-*] |\d+\. |\||>|!\[|<|```|    |\t)")


def joined(text: str) -> str:
    """A page with each paragraph and each item on one line."""
    lines: list[str] = []
    is_code = False
    for line in text.split("\n"):
        if line.startswith("```"):
            is_code = not is_code
        before = lines[-1] if lines else ""
        continues = re.match(r"[-*] |\d+\. ", before) and re.match(r" {2,3}\S", line)
        may_join = before.strip() and not re.match(r"(?:#|\||<|```|    |\t)", before) and line.strip()
        if not is_code and may_join and (continues or not OWN.match(line)):
            lines[-1] = f"{before.rstrip()} {line.strip()}"
        else:
            lines.append(line)
    return "\n".join(lines)


def texts(*patterns: str) -> dict[str, str]:
    """The pages, by their names."""
    found = {}
    for path in sorted(it for some in patterns for it in glob.glob(f"{ROOT}/{some}")):
        with open(path, encoding="utf-8") as file:
            found[os.path.relpath(path, ROOT)] = file.read()
    return found


def claims_too_long(claims: dict[str, str]) -> list[str]:
    """The claims that are too long."""
    counts = {name: len(text.split()) for name, text in claims.items()}
    most = MOST_OF_CLAIMS
    return [f"{name}: {count} words, of at most {most}" for name, count in counts.items() if count > most]


def summary() -> str:
    """How many words there are."""
    read, claims = (sum(len(it.split()) for it in texts(*some).values()) for some in (PAGES, CLAIMS))
    return f"{read:,} words in pages that people read, of at most {MOST_OF_ALL:,}; {claims:,} in claims of crates"


def too_long(pages: dict[str, str]) -> list[str]:
    """README if it is too long, and all pages if they are."""
    words = {name: len(text.split()) for name, text in pages.items()}
    found = [f"README.md: {words['README.md']} words, of at most {MOST_WORDS}"] if words["README.md"] > MOST_WORDS else []
    count = sum(words.values())
    return found + ([f"all pages: {count:,} words, of at most {MOST_OF_ALL:,}"] if count > MOST_OF_ALL else [])


def faults() -> list[str]:
    """The pages with lines that are broken by hand, and those that are too long."""
    pages = texts(*PAGES)
    found = too_long(pages) + claims_too_long(texts(*CLAIMS))
    for name, text in pages.items():
        if count := len(text.split("\n")) - len(joined(text).split("\n")):
            found.append(f"{name}: {count} lines are broken by hand; a paragraph is one line")
    return found

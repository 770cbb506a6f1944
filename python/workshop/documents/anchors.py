"""Links of the documents that name a heading, and pictures without a text."""

from __future__ import annotations

import functools
import glob
import os
import re

from workshop.parts import ROOT

PAGES = ("README.md", "CONTRIBUTING.md", "CHANGELOG.md", "docs/*.md", "docs/measured/*.md", "crates/*/CLAIMS.md")


@functools.cache
def headings(path: str) -> set[str]:
    """The anchors of a page's headings, as they are shown on the web."""
    found: set[str] = set()
    with open(path, encoding="utf-8") as file:
        text = re.sub(r"^```[\s\S]*?^```", "", file.read(), flags=re.MULTILINE)
    for heading in re.findall(r"^#+ (.*)$", text, re.MULTILINE):
        words = re.sub(r"\[([^\]]*)\]\([^)]*\)", r"\1", heading).lower()
        slug = re.sub(r"[^\w\- ]", "", words).strip().replace(" ", "-")
        number = 0
        while (anchor := slug if not number else f"{slug}-{number}") in found:
            number += 1
        found.add(anchor)
    return found


def faults() -> list[str]:
    """Links to headings that no page has, and pictures without a text for those who don't see them."""
    wrong = []
    for path in sorted(it for some in PAGES for it in glob.glob(f"{ROOT}/{some}")):
        with open(path, encoding="utf-8") as file:
            text = file.read()
        name = os.path.relpath(path, ROOT)
        for target, anchor in re.findall(r"\]\(([^)#:\s]*)#([\w-]+)\)", text):
            full = os.path.normpath(os.path.join(os.path.dirname(path), target)) if target else path
            if full.endswith(".md") and os.path.exists(full) and anchor not in headings(full):
                wrong.append(f"{name}: {target or 'the page'} has no heading #{anchor}")
        wrong += [f"{name}: the picture {it} has no text" for it in re.findall(r"!\[\]\(([^)]+)\)", text)]
    return wrong

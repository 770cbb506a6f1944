"""Counts words of the house's dialect, for which the field has others, against limits that can only fall.

Each area has a limit for each word in limits.json. A count above its limit is a fault. `lowered` writes the counts that are lower
than their limits, and never a higher one.
"""

from __future__ import annotations

import glob
import json
import os
import re

from workshop.parts import ROOT

LIMITS = f"{ROOT}/python/workshop/documents/limits.json"

# the dialect's word, as a pattern, and what the field says
WORDS = {
    "by chance": (r"\bby chance\b", "random"),
    "a second time": (r"\b(?:read|written|wrote) a second time\b", "independent implementation"),
    "as at the opening": (r"\bas at the (?:opening|start)\b", "default, the initial state"),
    "so many": (r"\bso many\b", "a number of"),
    "goes on": (r"\b(?:goes|go|went|going) on\b", "continues"),
    "behind": (r"\bbehind\b", "after"),
    "alone": (r"\balone\b", "only"),
    "front": (r"(?<!\bin )\bfronts?\b(?! of the)|IsFront", "prefix"),
    "stands": (r"\b(?:stands?|stood|standing)\b", "is"),
    "told": (r"\b(?:told|tells?|telling)\b", "is notified of, says"),
    "held up to": (r"\b(?:held|hold|holds|holding) (?:\w+ ){0,3}up to\b", "checked against"),
    "comes to": (r"\bcomes to (?:nothing|an end|its end)\b", "ends"),
}
# the files of each area, and what of a file's text is read: all of it, or its comments
AREAS = {
    "docs": (("README.md", "CONTRIBUTING.md", "CHANGELOG.md", "docs/*.md"), r"[\s\S]+"),
    "claims": (("crates/*/CLAIMS.md",), r"[\s\S]+"),
    "tools": (("check", "measure", "explain", "build", "arpasim", "tools/**/*.py", "python/dorydate/**/*.py", "python/workshop/**/*.py", "tools/**/*.js", "tools/*"), r'"""[\s\S]*?"""|#.*|//.*|"[^"\n]*"'),
    "crates": (("crates/*/src/**/*.rt",), r"//.*"),
    "definitions": (("crates/*/specs/**/*.antt",), r"(?:^|\s)-- .*"),
    "proofs": (("crates/*/proofs/**/*.antt",), r"(?:^|\s)-- .*"),
}
# this file names the words that it counts
ITSELF = "python/workshop/documents/dialect.py"


def files_of(patterns: tuple[str, ...]) -> list[str]:
    found = {it for some in patterns for it in glob.glob(f"{ROOT}/{some}", recursive=True)}
    return sorted(it for it in found if os.path.isfile(it) and "/out/" not in it and not it.endswith(ITSELF))


def texts_of(area: str) -> list[str]:
    """What is counted of an area: the parts of its files that people read."""
    patterns, part = AREAS[area]
    found = []
    for path in files_of(patterns):
        with open(path, encoding="utf-8", errors="replace") as file:
            found += re.findall(part, file.read(), re.MULTILINE)
    return found


def counts() -> dict[str, dict[str, int]]:
    """How often each word of the dialect occurs in each area."""
    found = {}
    for area in AREAS:
        text = "\n".join(texts_of(area))
        found[area] = {word: len(re.findall(pattern, text)) for word, (pattern, _) in WORDS.items()}
    return found


def limits() -> dict[str, dict[str, int]]:
    if not os.path.exists(LIMITS):
        return {}
    with open(LIMITS, encoding="utf-8") as file:
        read: dict[str, dict[str, int]] = json.load(file)
    return read


def lowered() -> None:
    """Writes each count that is below its limit, as the new limit."""
    before = limits()
    after = {area: {word: min(count, before.get(area, {}).get(word, count)) for word, count in words.items()} for area, words in counts().items()}
    with open(LIMITS, "w", encoding="utf-8") as file:
        json.dump(after, file, indent=1, sort_keys=True)
        file.write("\n")


def faults() -> list[str]:
    """The counts above their limits."""
    most = limits()
    return [
        f"dialect: `{word}` occurs {count} times in {area}, of at most {most[area][word]}: write `{WORDS[word][1]}`"
        for area, words in counts().items()
        for word, count in words.items()
        if count > most.get(area, {}).get(word, 0)
    ]


def summary() -> str:
    """The counts in a line."""
    return "dialect: " + ", ".join(f"{sum(words.values())} in {area}" for area, words in counts().items())

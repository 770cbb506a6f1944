"""The table of sentences that the workbench says too, and their holes."""

from __future__ import annotations

import json
import re
from collections.abc import Mapping
from importlib.resources import files
from typing import Any, cast

Sentences = dict[str, str]


def read() -> dict[str, Any]:
    """The table: what follows its name in table.mjs is JSON."""
    text = files("dorydate.sentences").joinpath("table.mjs").read_text(encoding="utf-8")
    return cast("dict[str, Any]", json.loads(text.split("TABLE = ", 1)[1].rstrip().removesuffix(";")))


TABLE = read()
HOLE = re.compile(r"\{(\w+)('s| [a-z]+)?\}")


def sentences(group: str) -> Sentences:
    """The sentences of a group, by their names."""
    return cast(Sentences, TABLE[group])


def pattern(rule: str) -> re.Pattern[str]:
    """A pattern of the table, whose groups have names as in JavaScript."""
    return re.compile(rule.replace("(?<", "(?P<"))


def filled(sentence: str, holes: Mapping[str, object] | None = None, **further: object) -> str:
    """A sentence with its holes filled: `{Name}` begins with a capital, `{name's}` is possessive, and `{name bit}` is a number with its noun."""
    values = {**(holes or {}), **further}

    def value(found: re.Match[str]) -> str:
        name, ending = found[1], found[2] or ""
        key = name[0].lower() + name[1:]
        text = count(str(values[key]), ending[1:]) if ending.startswith(" ") else possessive(str(values[key])) if ending else str(values[key])
        return text if key == name else capital(text)

    return HOLE.sub(value, sentence)


# ---- small words


def count(number: str | int, noun: str) -> str:
    """A number and its noun, in the plural where it isn't 1."""
    return f"{number} {noun}" if str(number) == "1" else f"{number} {noun}s"


def capital(text: str) -> str:
    """A sentence with its first letter in upper case."""
    return text[:1].upper() + text[1:]


def possessive(name: str) -> str:
    return f"{name}'" if name[-1:] in ("s", "S") else f"{name}'s"


def listed(words: list[str], most: int = 4) -> str:
    """Words in a list, the end left out where there are many."""
    if len(words) > most:
        return f"{', '.join(words[:most])} and {len(words) - most} more"
    return " and ".join([", ".join(words[:-1]), words[-1]]) if len(words) > 1 else "".join(words)

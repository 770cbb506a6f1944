"""docs/measured/crates.md: each crate, by layers, with what it has, what it uses, and what is proved again after a change.

All of it comes from crates.txt and the folders of the crates, but for the words that say what lives in a crate: these are written by
hand in the page and kept. A new crate begins with the first sentence of its root file.
"""

from __future__ import annotations

import os
import re

from workshop.documents import pages
from workshop.parts import ROOT
from workshop.drawings.repository import Layer, layers

PAGE = f"{ROOT}/docs/measured/crates.md"
HEAD = """# The crates

`./check docs --write` makes this page from [crates.txt](../../crates.txt) and the folders of the crates; only the words in the column *What lives there* are written by hand. A crate's name leads to what is proved of it and how that was attacked. *Uses* names the nearest crates below: those that aren't used by another one that it uses. *Proved again* counts the crates above, which a change of a contract or a definition has proved again.
"""


def needs() -> dict[str, list[str]]:
    """The crates of this repository that each one names in crates.txt."""
    with open(f"{ROOT}/crates.txt", encoding="utf-8") as file:
        found = {name: words.split() for name, words in re.findall(r"^(\w+):(.*)$", file.read(), re.MULTILINE)}
    return {name: [it for it in words if it in found] for name, words in found.items()}


def below(name: str, direct: dict[str, list[str]]) -> set[str]:
    """All crates that one uses, by way of others too."""
    found: set[str] = set()
    waiting = list(direct[name])
    while waiting:
        crate = waiting.pop()
        if crate not in found:
            found.add(crate)
            waiting += direct[crate]
    return found


def nearest(name: str, direct: dict[str, list[str]]) -> list[str]:
    """The crates that one uses and that no other crate that it uses does."""
    farther = {it for crate in direct[name] for it in below(crate, direct)}
    return [it for it in direct[name] if it not in farther]


def first_sentence(crate: str) -> str:
    """The first sentence of a crate's root file."""
    for root in ("lib.rt", "main.rt"):
        path = f"{ROOT}/crates/{crate}/src/{root}"
        if os.path.exists(path):
            with open(path, encoding="utf-8") as file:
                words = " ".join(re.findall(r"^//! ?(.*)$", file.read().split("\n\n")[0], re.MULTILINE)).strip()
            sentence = re.match(r"(.*?)[.:](?:\s|$)", words)
            return (sentence[1] if sentence else words).strip()
    return ""


def written_words() -> dict[str, str]:
    """What the page says of each crate now."""
    if not os.path.exists(PAGE):
        return {}
    with open(PAGE, encoding="utf-8") as file:
        return {name: words.strip() for name, words in re.findall(r"^\| \[(\w+)\]\([^)]*\) \| [^|]* \| ([^|]*) \|", file.read(), re.MULTILINE)}


def table(layer: Layer, direct: dict[str, list[str]], words: dict[str, str]) -> list[str]:
    rows = ["| Crate | Has | What lives there | Uses | Proved again |", "|---|---|---|---|---|"]
    for crate, kind in layer.crates.items():
        claims = f"../../crates/{crate}/CLAIMS.md"
        link = f"[{crate}]({claims if os.path.exists(f'{ROOT}/crates/{crate}/CLAIMS.md') else f'../../crates/{crate}'})"
        uses = ", ".join(f"`{it}`" for it in nearest(crate, direct))
        above = sum(1 for other in direct if crate in below(other, direct))
        rows.append(f"| {link} | {kind} | {words.get(crate) or first_sentence(crate)} | {uses} | {above or ''} |")
    return rows


def page() -> str:
    """The whole page."""
    direct, words = needs(), written_words()
    parts = [HEAD]
    for layer in layers():
        parts.append(f"\n## {layer.name}\n\n{layer.purpose[0].upper()}{layer.purpose[1:]}.\n\n" + "\n".join(table(layer, direct, words)) + "\n")
    return "".join(parts)


def write() -> None:
    pages.put(PAGE, page())


def faults() -> list[str]:
    """Whether the page is as it is made."""
    return pages.unlike(PAGE, page())

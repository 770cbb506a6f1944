"""The manual page arpasim(1), made of docs/program.md."""

from __future__ import annotations

import re
from collections.abc import Iterator

from workshop.parts import ROOT, text_of

LEFT_OUT = {"Calls that fail", "Octets that are wrong"}  # sections that say how the program was tested
LINK = re.compile(r"\[([^\]]*)\]\([^)]*\)")
NAME = "arpasim \\- replays a script on a network of the ARPANET, and prints what its hosts see"


def escaped(text: str) -> str:
    """A text without what roff would take for its own."""
    text = text.replace("\\", "\\e").replace("-", "\\-")
    return f"\\&{text}" if text.startswith((".", "'")) else text


def worded(text: str) -> str:
    """A line of Markdown in roff: code and emphasis in bold, links by their words."""
    parts = re.split(r"`([^`]*)`|\*\*([^*]*)\*\*", LINK.sub(r"\1", text))
    plain, code, bold = parts[::3], parts[1::3], parts[2::3]
    marked = [f"\\fB{escaped(one or other or '')}\\fR" for one, other in zip(code, bold)]
    return escaped(plain[0]) + "".join(it + escaped(after) for it, after in zip(marked, plain[1:]))


def cells(line: str) -> list[str]:
    """The cells of a row of a table."""
    return [it.strip() for it in line.strip().strip("|").split("|")]


def entries(rows: list[str]) -> Iterator[str]:
    """A table as a list of its first cells, each with what the others say."""
    for row in rows[2:]:
        first, *others = cells(row)
        yield f".TP\n{worded(first)}\n{worded('; '.join(it for it in others if it))}"


def blocks(text: str) -> Iterator[str]:
    """The parts of a page: what is between empty lines, but code whole."""
    for part in re.split(r"(^```.*?^```$)", text, flags=re.MULTILINE | re.DOTALL):
        yield from [part] if part.startswith("```") else (it for it in part.split("\n\n") if it.strip())


def as_roff(block: str) -> str:
    """One part of a page."""
    if block.startswith("```"):
        return ""  # drawings
    block = block.strip("\n")
    if found := re.fullmatch(r"(#+) (.*)", block):
        return f".SH {escaped(found[2].upper())}" if len(found[1]) == 2 else f".SS {escaped(found[2])}"
    lines = block.splitlines()
    if block.startswith("    "):
        return ".PP\n.in +4n\n.EX\n" + "\n".join(escaped(it[4:].replace("./arpasim", "arpasim")) for it in lines) + "\n.EE\n.in"
    if block.startswith("|"):
        return "\n".join(entries(lines))
    if block.startswith("- "):
        return "\n".join(f".IP \\(bu 2\n{worded(it[2:])}" for it in lines)
    return f".PP\n{worded(block)}"


def kept(text: str) -> str:
    """The page without sections that are left out, and without what is only of a clone."""
    sections = re.split(r"(?m)^(?=##+ )", text)
    chosen = "".join(it for it in sections if it.splitlines()[0].lstrip("# ") not in LEFT_OUT)
    return "\n\n".join(it for it in chosen.split("\n\n") if it.startswith("    ") or "./" not in it and "out of a clone" not in it)


def manual(version: str) -> str:
    """The whole page."""
    _, synopsis, rest = text_of(f"{ROOT}/docs/program.md").split("\n\n", 2)
    made = [f'.TH ARPASIM 1 "" "Dorydate {version}" "Dorydate"', ".SH NAME", NAME, ".SH SYNOPSIS", as_roff(synopsis), ".SH DESCRIPTION"]
    return "\n".join(filter(None, [*made, *map(as_roff, blocks(kept(rest)))])) + "\n"

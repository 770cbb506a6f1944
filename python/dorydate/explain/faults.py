"""What is wrong with an input that the program refuses: the line of the file, and why it is refused.

The program names the first bad script line, but not the fault in it, and of a topology it says only that it is bad. Both are
looked for here, by the rules that the workbench reads too (sentences/table.mjs).
"""

from __future__ import annotations

import difflib
import re

from dorydate.given import Input, shown
from dorydate.explain.topologies import wrong_with_topology
from dorydate.explain.topology import has_strangers
from dorydate.sentences.events import EVENTS, OF_RAW, OF_WORLDS
from dorydate.sentences.table import TABLE, filled, pattern, sentences

FAULTS = sentences("faults")
GROUPS = ("lines", "events", "users", "words")
RULES = {group: [(of, pattern(it), name) for of, it, name in TABLE[f"rules of {group}"]] for group in GROUPS}
SWAPPED = pattern(TABLE["swapped"])  # a host whose two numbers change places

RAW_EVENTS = {word: EVENTS[word].operands for word in OF_RAW}
WORLD_EVENTS = {word: EVENTS[word].operands for word in OF_WORLDS}

# the numbers of script lines: what each is, the least and the greatest
RANGES: dict[str, tuple[str, int, int]] = {name: (what, least, most) for name, (what, least, most) in TABLE["ranges"].items()}


def diagnose(given: Input, said: str, raw: bool) -> str:
    """What is probably wrong with an input at which the program ended with these words."""
    if found := re.search(r"bad script line (\d+)", said):
        number = (given.marker or 0) + 1 + int(found[1])
        line = given.lines[number - 1]
        as_raw = raw or line.startswith(b"out ") and has_strangers(given)
        why = wrong_with_line(line, as_raw) or "No cause was found. docs/program.md has the forms of script lines."
        return f"Script line {found[1]} is line {number} of the file:\n  {shown(line)}\n{why}\nNothing was run: one bad line stops the whole script."
    if "bad topology" in said or "input too long" in said:
        why = wrong_with_topology(given) or "No cause was found. docs/program.md has the form of topologies."
        return f"{why}\nNothing was run."
    return "docs/program.md has a table of the program's faults."


def wrong_with_line(octets: bytes, raw: bool = True) -> str | None:
    """Why a script line is not an event, None where no cause is found."""
    line = octets.decode("latin-1")
    if why := by_rules(RULES["lines"], line, raw):
        return why
    words = line.split(" ", 2 if line.startswith("type ") and not raw else -1)
    form = (RAW_EVENTS if raw else WORLD_EVENTS).get(words[0])
    if form is None:
        return unknown_event(words[0], raw)
    if why := by_rules(RULES["events"], line, raw):
        return why
    if len(words) != 1 + len(form):
        return filled(FAULTS["words"], word=words[0], needed=len(form), form=" ".join([words[0], *form]), found=len(words) - 1)
    causes = [wrong_with_word(name, word) for name, word in zip(form, words[1:])]
    if words[0] in ("out", "send") and causes[-2] is None:
        causes[-1] = wrong_with_text(int(words[-2]), words[-1])
    return next((it for it in causes if it), None)


def by_rules(rules: list[tuple[str, re.Pattern[str], str]], line: str, raw: bool) -> str | None:
    """The first rule that a line of this kind of network breaks, in words."""
    for of, it, name in rules:
        if of in ("", "raw" if raw else "programs") and (found := it.search(line)):
            holes = found.groupdict()
            octets = holes.get("text", "").encode().hex().upper()
            spelled = f"{4 * len(octets)} {octets or '-'}"
            return filled(FAULTS[name], holes, spelled=spelled, upper=holes.get("digits", "").upper())
    return None


def unknown_event(word: str, raw: bool = True) -> str:
    """Why a word begins no event of this network, and which it may have meant."""
    if raw and word in WORLD_EVENTS:
        return filled(FAULTS["of programs"], word=word)
    events = RAW_EVENTS if raw else WORLD_EVENTS
    known = by_rules(RULES["users"], word.lower(), raw) or meant(word.lower(), [*events])
    hint = known or filled(FAULTS["events"], events=", ".join(events))
    return f"{filled(FAULTS['unknown'], word=shown(word.encode()))} {hint}"


def meant(word: str, known: list[str]) -> str:
    """A question whether a known word is meant that is near to this one; nothing where none is near."""
    near = difflib.get_close_matches(word, known, 1)
    return filled(FAULTS["meant"], meant=near[0]) if near else ""


def wrong_with_word(name: str, word: str) -> str | None:
    """Why a word cannot be in its place, None where it can. OCTETS are judged with their number of bits."""
    for names, it, fault in RULES["words"]:
        if name in names.split(" ") and not it.search(word):
            return filled(FAULTS[fault], word=word)
    if name in RANGES:
        return wrong_number(word, *RANGES[name])
    return wrong_with_host(word) if name in "SDHP" else None


def wrong_with_host(word: str) -> str | None:
    """Why a word with its slash names no host."""
    host, imp = word.split("/")
    why = wrong_number(host, "the host's number", 0, 3) or wrong_number(imp, *RANGES["I"])
    swapped = SWAPPED.search(word)
    return f"{why} {filled(FAULTS['meant'], meant=f'{swapped[2]}/{swapped[1]}')}" if why and swapped else why


def wrong_number(word: str, what: str, least: int, most: int) -> str | None:
    """Why a word is no number in this range."""
    if not re.fullmatch("0|[1-9][0-9]*", word):
        return filled(FAULTS["not a number"], word=word, what=what)
    if len(word) > 10 or not least <= int(word) <= most:
        return filled(FAULTS["range"], word=word, what=what, least=least, most=most)
    return None


def wrong_with_text(bits: int, octets: str) -> str | None:
    """Why these are not the octets of a text of this length, None where they are."""
    if (bits == 0) != (octets == "-"):
        return FAULTS["no bits"] if bits == 0 else filled(FAULTS["no octets"], bits=bits)
    if bits == 0:
        return None
    if not re.fullmatch("[0-9A-F]*", octets):
        return FAULTS["digits"]
    digits = 2 * -(-bits // 8)
    if len(octets) != digits:
        return filled(FAULTS["length"], {"bits": bits, "octets": digits // 2, "digits": digits, "found": len(octets), "for": 4 * len(octets)})
    if int(octets, 16) % (1 << -bits % 8):
        return filled(FAULTS["unused"], bits=bits, unused=-bits % 8)
    return None

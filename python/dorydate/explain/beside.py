"""The independent model beside the program: what it adds to the lines that the program prints."""

from __future__ import annotations

import sys
from collections.abc import Sequence
from dataclasses import dataclass

from dorydate.explain.inside import Inside, Told, TooLong
from dorydate.explain.runs import Happened
from dorydate.explain.waits import at_rest
from dorydate.sentences.texts import raw_text_in_words, text_in_words
from dorydate.model.script import read_event
from dorydate.model.topology import Topology


@dataclass(frozen=True)
class Said:
    """What the model adds to an event: for each printed line what its message says and the answer that crossed, and sentences
    about the inside."""

    texts: list[str]
    answers: list[str | None]
    sentences: str = ""

    @staticmethod
    def nothing(printed: Sequence[str]) -> Said:
        """What is added where the model isn't followed."""
        return Said([""] * len(printed), [None] * len(printed))

    def lines(self, printed: Sequence[str]) -> list[tuple[list[str], str]]:
        """The words of each printed line, with what its message says."""
        return [(words_of(line, answer), text) for line, answer, text in zip(printed, self.answers, self.texts)]


def words_of(line: str, answer: str | None) -> list[str]:
    """The words of a printed line. `incomplete` is printed for two answers: here it is the one that crossed, `unknown` where that isn't known."""
    words = line.split(" ")
    if words[:2] == ["answer", "incomplete"]:
        words[1] = answer or "unknown"
    return words


def said(network: Topology, events: Sequence[Happened]) -> list[Said]:
    """What the model adds to each event. From an event on for which it prints other lines it adds nothing."""
    model: Inside | None = Inside(network)
    every: list[Said] = []
    for event in events:
        found = found_of(model, event, network) if model else None
        if model is None or found is None:
            model = None
            every.append(Said.nothing(event.printed))
            continue
        sentences = found.sentences
        if event.words[0] == "calm" and event.words[1] != "0":
            sentences = [*sentences, *at_rest(model.place, model.carrier)]
        texts = [what_it_says(it, line, network.raw) for it, line in zip(found.texts(), event.printed)]
        every.append(Said(texts, found.answers(), " ".join(sentences)))
    return every


def found_of(model: Inside, event: Happened, network: Topology) -> Told | None:
    """What the model says of an event; None where it prints other lines than the program did, or can't follow."""
    try:
        found = model.happen(read_event(" ".join(event.words), network.raw, bool(network.foreign)))
    except TooLong:
        print(f"explain: from line {event.number} on there are too many rounds for the independent model; nothing is said of the inside there", file=sys.stderr)
        return None
    if found.printed != event.printed:
        print(f"explain: the independent model prints other lines at line {event.number}; nothing is said of the inside from there on", file=sys.stderr)
        return None
    return found


def what_it_says(text: tuple[bytes, int] | None, line: str, raw: bool) -> str:
    """What a message says, in words; nothing for a line without a message."""
    if text is None:
        return ""
    return (raw_text_in_words(*text) if text[1] else "") if raw else text_in_words(int(line.split(" ")[3]), *text)

"""A replay line by line: what each event printed, and what that means."""

from __future__ import annotations

from collections.abc import Iterator, Sequence

from dorydate.explain import beside
from dorydate.explain.beside import Said
from dorydate.given import Input, shown
from dorydate.explain.past import Past
from dorydate.explain.runs import Happened
from dorydate.explain.topology import network_by, of_model
from dorydate.sentences import DEEDS, crossing, silence


def said_beside(given: Input, events: Sequence[Happened]) -> list[Said]:
    """What the independent model adds to each event."""
    network = network_by(given)
    return beside.said(of_model(network), events) if network else [Said.nothing(it.printed) for it in events]


def past_of(given: Input) -> Past:
    """What is known before the first event."""
    network = network_by(given)
    return Past([*map(str, network.hosts())] if network else None, network is None or network.carrier == "plain")


def telling(given: Input, events: Sequence[Happened], book: Sequence[str] = ()) -> Iterator[str]:
    """The lines of the script, and under each event what it printed and what that means. At the end the lives of the book, if there are any."""
    past, known = past_of(given), {it.number: (it, said) for it, said in zip(events, said_beside(given, events))}
    width = len(str(len(given.lines)))
    margin = " " * (width + 2)
    for number, line in given.script:
        is_known = number in known
        yield f"{number:{width}}  {shown(line) if is_known else shown(line, None)}".rstrip()
        if is_known:
            yield from (f"{margin}{it}".rstrip() for it in telling_event(past, *known[number]))
    yield "At the end the program prints: end"
    for life in book:
        yield f"With --book it prints before that: {life}"
        yield f"{margin}{crossing(life.split(' '))}"


def telling_event(past: Past, event: Happened, said: Said) -> Iterator[str]:
    """What an event printed, and what that means."""
    for output, (words, text) in zip(event.printed, said.lines(event.printed)):
        yield f"prints: {output}"
        if words[0] == "refused":
            yield said.sentences or past.refusal(words[1], event.words)
        else:
            yield f"{crossing(words)} {says(text)}".rstrip()
        past.see(event.number, event.words, output)
    if not event.printed:
        yield f"prints nothing. {quiet(event.words, said.sentences)}"
        past.see(event.number, event.words, None)
    elif not event.printed[-1].startswith("refused ") and (more := beside_lines(event.words, said.sentences)):
        yield more


def says(text: str) -> str:
    """What a message says, as a sentence."""
    return f"It says: {text}." if text else ""


def beside_lines(words: Sequence[str], sentences: str) -> str:
    """What is said of an event below what it printed."""
    return f"{silence(words)} {sentences}".rstrip() if words[0] in DEEDS else sentences


def quiet(words: Sequence[str], sentences: str) -> str:
    """What an event that printed nothing did."""
    if words[0] == "calm" or words[0] in DEEDS:
        return f"{silence(words)} {sentences}".rstrip()
    return sentences or silence(words)

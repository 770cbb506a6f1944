"""Sequence charts of a replay in Mermaid's language, which GitHub and GitLab draw.

`said` has beside each event what its messages say, and `sites` has names of IMPs.
"""

from __future__ import annotations

from collections.abc import Iterable, Mapping, Sequence

from dorydate.explain.beside import Said
from dorydate.explain.runs import Happened
from dorydate.sentences.table import count

Crossed = tuple[int, list[str], list[str], str]  # the line of an event, its words, those of a line that it printed, and what the message says

ANSWERS = {
    "rfnm": "RFNM, {} took the message",
    "dead": "Dead, {} did not take the message",
    "incomplete": "Incomplete, the message to {} was given up",
    "nottaken": "NotTaken, the message to {} had not come",
    "unknown": "Incomplete, the message to {} was given up or had not come",
}


def chart(events: Sequence[Happened], said: Sequence[Said], raw: bool, sites: Mapping[int, str]) -> str:
    """The replay as a sequence chart: one arrow for each crossing, between a host and the network."""
    lines: list[str] = []
    hosts: set[str] = set()
    for event, beside in zip(events, said):
        for words, text in beside.lines(event.printed):
            line, host = chart_line(event.number, event.words, words, "" if raw else text)
            lines.append(line)
            hosts |= {host} if host else set()
    names = participants(hosts, sites)
    names.insert((len(names) + 1) // 2, "    participant network as Network")
    return "\n".join(["sequenceDiagram", *names, *(f"    {it}" for it in lines)])


def participants(hosts: Iterable[str], sites: Mapping[int, str], roles: Iterable[tuple[str, str]] = ()) -> list[str]:
    """The lines that name the hosts of a chart, in order of IMP and host, with the names of their sites where these are known."""
    order = sorted(hosts, key=lambda it: [int(part) for part in reversed(it.split("/"))])
    at = {it: sites.get(int(it.split("/")[1]), "") for it in order}
    return [f"    participant {identifier(it)} as Host {it}{f' at {escaped(at[it])}' if at[it] else ''}{dict(roles).get(it, '')}" for it in order]


def identifier(host: str) -> str:
    return f"h{host.replace('/', '_')}"


def escaped(text: str) -> str:
    """A text as Mermaid takes it: `;` would end a line there, and `#` begin a character's code."""
    return text.translate({ord("#"): "#35;", ord(";"): "#59;"})


def chart_line(number: int, event: Sequence[str], words: Sequence[str], text: str = "") -> tuple[str, str | None]:
    """The chart's line for a printed line, and the host that it is about."""
    match words:
        case ["out", source, destination, link, bits]:
            return f"{identifier(source)}->>network: {escaped(text) or count(int(bits), 'bit')} for {destination} on link {link}", source
        case ["in", source, destination, link, bits]:
            return f"network->>{identifier(destination)}: {escaped(text) or count(int(bits), 'bit')} from {source} on link {link}", destination
        case ["answer", kind, source, destination, link]:
            return f"network-->>{identifier(source)}: {ANSWERS[kind].format(destination)}, link {link}", source
    return chart_note(number, event, words)


def chart_note(number: int, event: Sequence[str], words: Sequence[str]) -> tuple[str, str | None]:
    """The chart's note for a printed line that is no message and no answer, and the host that it is about, None for the network."""
    match words:
        case ["down" | "up" as way, host]:
            return f"Note over {identifier(host)}: {way}", host
        case [("done" | "failed"), _, host, *_]:
            return f"Note over {identifier(host)}: {' '.join([*words[:2], *words[3:]])}", host
        case [kind, host, *_] if kind != "refused":
            return f"Note over {identifier(host)}: {escaped(' '.join([kind, *words[2:]]))}", host
    source = event[1] if "/" in event[1] else None  # a refused event of an IMP or a line is noted over the network
    return f"Note over {identifier(source) if source else 'network'}: {' '.join(words)} (line {number})", source


# what users learn that a short chart leaves out: the messages say it
LEFT_OUT = {"ready", "opened", "ended", "sent", "arrived"}


def short_chart(events: Sequence[Happened], said: Sequence[Said], raw: bool, sites: Mapping[int, str]) -> str:
    """The replay as a sequence chart with one arrow for each message, from host to host, where it is taken."""
    crossed: list[Crossed] = [(it.number, it.words, words, text) for it, beside in zip(events, said) for words, text in beside.lines(it.printed)]
    lines: list[str] = []
    hosts: set[str] = set()
    for at, (number, event, words, text) in enumerate(crossed):
        kind, *rest = words
        if kind == "in" or kind == "out" and not is_taken(rest[:3], crossed[at + 1 :]):
            source, destination, link, bits = rest
            what = escaped(text) or count(int(bits), "bit")
            on = f", on link {link}" if link != "0" or raw else ""
            lines.append(f"{identifier(source)}{'->>' if kind == 'in' else '-x'}{identifier(destination)}: {what}{on}")
            hosts |= {source, destination}
        elif kind == "answer" and rest[0] != "rfnm":
            lines.append(f"Note over {identifier(rest[1])}: {ANSWERS[rest[0]].format(rest[2])}, link {rest[3]}")
        elif kind not in ("out", "answer", *LEFT_OUT) and (kind != "refused" or "/" in event[1]):
            line, host = chart_note(number, event, words)
            lines.append(line)
            hosts |= {host} if host else set()
    roles = [(it.words[1], f", a {it.words[0]}") for it in events if it.words[0] in ("server", "user")]
    return "\n".join(["sequenceDiagram", *participants(hosts, sites, roles), *(f"    {it}" for it in lines)])


def is_taken(flow: Sequence[str], later: Iterable[Crossed]) -> bool:
    """Whether the message that went out on a flow is taken later."""
    for _, _, words, _ in later:
        if words[0] in ("out", "in") and words[1:4] == flow:
            return words[0] == "in"
    return False

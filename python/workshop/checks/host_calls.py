"""Calls on hosts' programs, on the independent model and for the driver, and what they owe."""

from __future__ import annotations

import re
from collections import Counter
from collections.abc import Sequence
from typing import Any

from dorydate.model.crossings import Message, Reply
from dorydate.model.bits import spell_bits
from dorydate.model.host import Host
from dorydate.model.names import HostName, Refused, spell_flow, spell_host
from workshop.rows import spelled


def spell_part(part: Any) -> str:
    """A part of a call: what comes in, bits, or a number."""
    match part:
        case Message() | Reply():
            return f"{part.kind} {spell_flow(part.flow)}{f' {spell_bits(part.text)}' if isinstance(part, Message) else ''}"
        case str():
            return spell_bits(part)
    return str(part)


def spell_call(name: str, parts: Sequence[Any]) -> str:
    """The words of a call."""
    match name:
        case "accept":
            inbound, stamp = parts
            return f"accept {stamp} {spell_part(inbound)}"
        case "contact" | "echo" | "open_send" | "open_receive":
            peer, *rest = parts
            return " ".join([name, spell_host(peer), *map(str, rest)])
    return " ".join([name, *map(spell_part, parts)])


def spell_next(host: Host) -> str:
    """What goes out next."""
    found = host.next_out()
    return f"next {spell_flow(found[0])} {spell_bits(found[1])}" if found else "next nothing"


def text_of_fault(name: str) -> str:
    """The text of a refusal: the words of its name."""
    return re.sub(r"(?<=.)(?=[A-Z])", " ", name).lower()


def answered(host: Host, name: str, *parts: Any) -> list[str]:
    """What a call is answered: that it is done or why it is refused, the notices, and what goes out next."""
    try:
        notices: list[str] = getattr(host, name)(*parts)
    except Refused as refused:
        return [f"refused {text_of_fault(str(refused))}", spell_next(host)]
    return ["ok", *notices, spell_next(host)]


class Calls:
    """Hosts, the calls on them and what these owe."""

    def __init__(self, names: Sequence[HostName]) -> None:
        self.hosts = [Host(name) for name in names]
        self.rows = [" ".join(["hosts", *map(spell_host, names)])]
        self.made = 0
        self.stamp = 0
        self.seen: Counter[str] = Counter()

    def call(self, place: int, name: str, *parts: Any) -> None:
        """A call on a host."""
        host = self.hosts[place]
        answers = answered(host, name, *parts)
        self.rows += spelled(f"{place} {spell_call(name, parts)}", answers)
        self.made += 1
        if answers[0] == "ok":
            self.seen[f"{name}: done"] += 1
            self.seen.update(f"told: {notice.split()[0]}" for notice in answers[1:-1])
        else:
            self.seen[f"{name}: {answers[0]}"] += 1

    def stamped(self, place: int, name: str, *parts: Any) -> None:
        """A call that takes its place in the log."""
        self.stamp += 1
        self.call(place, name, *parts, self.stamp)

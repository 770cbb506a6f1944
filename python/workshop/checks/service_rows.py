"""Calls on machines of the initial connection, terminals and echo services, answered by the independent model."""

from __future__ import annotations

import re
from collections.abc import Iterable
from typing import Any

from dorydate.model.bits import spell_bits
from dorydate.model.names import read_host, spell_host
from dorydate.model.services import Echo, Request, Running, Server, Terminal, User
from workshop.checks.readings import Reading, Unread

# why a machine failed, where the text is another than the simulator's word
TEXTS = {"badsocket": "bad socket", "local": "local: in use"}


def spell_part(part: Any) -> str:
    """A part of a request."""
    match part:
        case (_, _):
            return spell_host(part)
        case str():
            return spell_bits(part)
    return str(part)


def answers_of(machine: Running, requests: Iterable[Request]) -> list[str]:
    """The requests, and what the machine has come to since; that it is nothing where it is nothing."""
    said = [" ".join([kind, *map(spell_part, parts)]) for kind, *parts in requests]
    if isinstance(machine, Terminal):
        said += [f"line {line.hex().upper() or '-'}" for line in machine.lines]
        machine.lines = []
    for kind, *words in machine.reports():
        said.append(" ".join([kind.split(" ")[0], *(TEXTS.get(word, word) for word in words)]))
    return said or ["nothing"]


def first_answers(machine: Running) -> list[str]:
    """What the start of a machine is answered: its first requests, or why there is no such machine."""
    return [re.sub("^failed ", "refused ", it) for it in answers_of(machine, machine.start())]


class ServiceRows:
    """A machine."""

    def __init__(self, machine: Running) -> None:
        self.machine = machine

    def answers(self, call: str, wanted: list[str]) -> list[str]:
        if call.startswith("type "):
            raise Unread("type")
        if call == "spent":
            return ["false"]  # memory runs out in no model
        if call == "refused":
            self.machine.refused("InUse")
            return answers_of(self.machine, [])
        return answers_of(self.machine, self.machine.notice(*call.split(" ")))


def machine_of(call: str) -> Running:
    """The machine that a block's first row names."""
    name, *words = call.split(" ")
    match name:
        case "server":
            return Server(int(words[0]), int(words[1]))
        case "user":
            return User(read_host(words[0]), int(words[1]), int(words[2]))
    return (Echo if name == "echo" else Terminal)(int(words[0]), int(words[1]))


def open_service(call: str) -> tuple[Reading, list[str]]:
    """The machine of a block's first row, which is answered by its first requests."""
    machine = machine_of(call)
    return ServiceRows(machine), first_answers(machine)

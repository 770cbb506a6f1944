"""Calls on hosts' programs, answered by the independent model."""

from __future__ import annotations

from typing import Any, cast

from dorydate.model.bits import read_bits
from dorydate.model.crossings import Answer, Message, Reply
from dorydate.model.host import Host
from dorydate.model.names import Flow, read_host, spell_host
from workshop.checks.host_calls import answered
from workshop.checks.imp_rows import read_flow
from workshop.checks.readings import Reading

OF_PEER = "contact", "echo", "open_send", "open_receive"


def read_inbound(kind: str, flow: Flow, text: list[str]) -> Any:
    """A message, or an answer about one."""
    if kind == "message":
        return Message("message", flow, read_bits(text[0], text[1]))
    return Reply(cast(Answer, kind), flow)


def parts_of(name: str, words: list[str]) -> list[Any]:
    """The parts of a call."""
    if name == "accept":
        stamp, kind, source, destination, link, *text = words
        flow = read_flow([source, destination, link])
        return [read_inbound(kind, flow, text), int(stamp)]
    if name == "send":
        return [int(words[0]), read_bits(words[1], words[2])]
    if name in OF_PEER:
        return [read_host(words[0]), *map(int, words[1:])]
    return [*map(int, words)]


class HostRows:
    """Hosts, by their places."""

    def __init__(self, hosts: list[Host]) -> None:
        self.hosts = hosts

    def answers(self, call: str, wanted: list[str]) -> list[str]:
        place, name, *words = call.split(" ")
        host = self.hosts[int(place)]
        match name:
            case "own":
                return [spell_host(host.own)]
            case "spent":
                return ["false"]  # memory runs out in no model
        return answered(host, name, *parts_of(name, words))


def open_hosts(call: str) -> tuple[Reading, list[str]]:
    """The hosts of a block's first row, which is answered by nothing."""
    return HostRows([Host(read_host(name)) for name in call.split(" ")[1:]]), []

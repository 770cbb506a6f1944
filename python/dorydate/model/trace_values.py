"""The values in a trace, as objects: flows, texts, messages, answers and crossings, written and read.

They were written from docs/trace.md.
"""

from __future__ import annotations

from typing import Any

from dorydate.model.bits import Bits, octets, read_bits
from dorydate.model.crossings import Answered, Crossing, Passed, Reply
from dorydate.model.names import Flow, read_host, spell_host

Object = dict[str, Any]


def flow_of(flow: Flow) -> Object:
    return {"from": spell_host(flow.source), "to": spell_host(flow.destination), "link": flow.link}


def flow_in(value: Object) -> Flow:
    return Flow(read_host(value["from"]), read_host(value["to"]), value["link"])


def text_of(bits: Bits) -> Object:
    return {"bits": len(bits), "octets": octets(bits).hex().upper()}


def text_in(value: Object) -> Bits:
    return read_bits(str(value["bits"]), value["octets"])


def message_of(flow: Flow, text: Bits, number: int | None = None) -> Object:
    """A message that waits, with its number where it has one."""
    return {**flow_of(flow), **({} if number is None else {"number": number}), **text_of(text)}


def answer_of(reply: Reply) -> Object:
    return {"kind": reply.kind, **flow_of(reply.flow)}


def answer_in(value: Object) -> Reply:
    return Reply(value["kind"], flow_in(value))


def crossing_of(crossing: Crossing) -> Object:
    """What crossed an interface."""
    if isinstance(crossing, Passed):
        return {"kind": crossing.kind, **message_of(crossing.flow, crossing.text)}
    if isinstance(crossing, Answered):
        return {"kind": crossing.answer, **flow_of(crossing.flow)}
    return {"kind": crossing.kind, "host": spell_host(crossing.host)}

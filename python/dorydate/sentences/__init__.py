"""Sentences: what each printed line means, what a refusal means, and what it means that an event prints nothing."""

from __future__ import annotations

from collections.abc import Sequence

from dorydate.sentences.table import TABLE, count, filled, sentences
from dorydate.sentences.texts import shown

DEEDS: dict[str, list[str]] = TABLE["deeds"]  # of each event that a user asks for its words and its sentence
LINES: dict[str, list[str]] = TABLE["lines"]  # of each kind of line its words and its sentence
ERRORS = sentences("errors")  # what the codes of ERR mean
REASONS = sentences("reasons")  # why an initial connection fails
IN_A_HOST = sentences("programs")  # what a refusal of a host's program means
NOT_OPEN = sentences("not open")  # the same of a connection that isn't open, where more is known
IN_A_SUBNET = sentences("network")  # what a refusal means in a subnet, where more than hosts is asked for
REFUSED = sentences("refused")
SILENT = sentences("silent")
HOSTS = {"source", "destination", "host", "peer"}  # words that name hosts


def meaning(line: str) -> str:
    """What a printed line means, in a sentence."""
    words = line.split(" ")
    if words[0] == "refused":
        return {**IN_A_SUBNET, **IN_A_HOST}.get(words[1], REFUSED["other"])
    if words[:2] == ["answer", "incomplete"]:
        words[1] = "unknown"  # it is printed for two answers, and the line doesn't say which
    return crossing(words)


def crossing(words: Sequence[str]) -> str:
    """What a line about a crossing, a notice or a service says, in a sentence; nothing for a line without one."""
    kind, *rest = words[1:] if words[0] == "answer" else words
    if kind == "life":
        return life(rest)
    if kind not in LINES:
        return ""
    names, sentence = LINES[kind]
    holes = {name: f"host {word}" if name in HOSTS else word for name, word in zip(names.split(" "), rest)}
    meant = ERRORS.get(holes.get("code", ""), "a code of its own") if kind == "error" else REASONS.get(holes.get("reason", ""), holes.get("reason", ""))
    text = count(holes.get("bits", ""), "bit") if kind in ("out", "in") else " ".join(rest[1:])
    return filled(sentence, holes, meaning=meant, text=text, way=parity(holes["socket"]) if kind == "opened" else "")


def deed(event: Sequence[str]) -> str:
    """What a user asks for, in a sentence."""
    kind, *words = event
    names, sentence = DEEDS[kind]
    holes = {name: f"host {word}" if name in HOSTS else word for name, word in zip(names.split(" "), words)}
    if kind == "type":
        holes["bits"] = str(8 * (len(holes["text"]) + 2))
    if kind == "send":
        holes["text"] = shown(bytes.fromhex(holes["octets"].strip("-")), int(holes["bits"]))
    verb = "types" if holes.get("text", "").startswith("“") else "hands over"
    return filled(sentence, holes, verb=verb, way=parity(holes.get("socket", "0")))


def parity(socket: str | int) -> str:
    return "sends" if int(socket) % 2 else "receives"


def life(words: Sequence[str]) -> str:
    """What a line about a life in the book says, in a sentence."""
    host, socket, peer, foreign, own, partner, kind, messages, bits, *counts, state = words
    done = f"took {count(messages, 'message')} with {count(bits, 'bit')}" if kind == "receive" else f"sent {count(bits, 'bit')} in {count(messages, 'message')}"
    granted = f" It granted {counts[0]} and {counts[1]}, and had {counts[2]} and {counts[3]} back." if kind == "receive" else ""
    where = f"Its request went out at place {own} of the log, and its partner's was taken at {partner}."
    return f"Socket {socket} of host {host}, with socket {foreign} of {peer}: it {done}, and {'is open' if state == 'open' else 'has ended'}.{granted} {where}"


def silence(event: Sequence[str]) -> str:
    """What it means that an event printed nothing."""
    match event:
        case ["take" | "offer" as kind, host]:
            return filled(SILENT[kind], host=f"host {host}")
        case [kind, *_] if kind in DEEDS:
            return deed(event)
        case ["calm", rounds]:
            return filled(SILENT[{"0": "no round", "1": "one round"}.get(rounds, "rounds")], rounds=rounds)
        case ["giveup", source, destination, link]:
            return filled(SILENT["giveup"], message=f"the message from {source} to {destination} on link {link}", source=f"host {source}")
        case ["ask", source, destination, link]:
            return filled(SILENT["ask"], source=f"host {source}", destination=f"host {destination}", link=link)
    return SILENT["other"]

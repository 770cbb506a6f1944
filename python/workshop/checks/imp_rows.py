"""Calls on one IMP, answered by the independent model."""

from __future__ import annotations

import copy

from dorydate.model.bits import bits_of, read_bits, spell_bits
from dorydate.model.crossings import Given, Message
from dorydate.model.imp import Imp
from dorydate.model.names import Flow, HostName, Refused, read_host, spell_flow
from dorydate.model.packets import Carried, Content, Kind, Packet, Routes, spell_frame
from workshop.checks.readings import Reading, Unread

PACKET, ROUTES = 0, 2  # of a frame's second octet: what it brings


def read_flow(words: list[str]) -> Flow:
    """The flow of three words."""
    source, destination, link = words
    return Flow(read_host(source), read_host(destination), int(link))


def host_at(octet: int) -> HostName:
    """The host that an octet names."""
    return HostName(octet >> 6, octet & 0b111111)


def read_frame(digits: str) -> tuple[int, Content]:
    """The acknowledgement bits and the content of a frame that is known to be one."""
    _, kind, acknowledged, *rest = bytes.fromhex(digits)
    if kind == ROUTES:
        return acknowledged, Routes(rest)
    if kind != PACKET:
        return acknowledged, None
    place, what, source, destination, link, high, low, piece, *body = rest
    count, octets = int.from_bytes(body[:2], "big"), bytes(body[2:])
    flow = Flow(host_at(source), host_at(destination), link)
    packet = Packet(Kind(what), flow, high << 8 | low, piece & 0b1111111, piece >= 1 << 7, bits_of(octets)[:count])
    return acknowledged, Carried(place & 0b111, place >> 3, packet)


def spell_given(given: Given | None) -> str:
    """What a host takes."""
    if given is None:
        return "nothing"
    return f"{given.kind} {spell_flow(given.flow)}{f' {spell_bits(given.text)}' if isinstance(given, Message) else ''}"


def ends_of(flow: Flow) -> tuple[int, int]:
    """The IMPs of a flow's hosts."""
    return flow.source.imp, flow.destination.imp


class ImpRows:
    """One IMP."""

    def __init__(self, imp: Imp) -> None:
        self.imp = imp

    def answers(self, call: str, wanted: list[str]) -> list[str]:
        name, *words = call.split(" ")
        if name in ("takes", "answers", "has_nothing_for"):
            return self.fits(name, words, wanted)
        said = self.asked(name, words)
        return self.called(name, words) if said is None else [said]

    def asked(self, name: str, words: list[str]) -> str | None:
        """What a query says; None for other calls."""
        imp = self.imp
        match name, words:
            case "query", [*flow, number]:
                return self.said_of(read_flow(flow), int(number))
            case "kept", flow:
                return str(imp.kept.get(read_flow(flow), "-"))
            case "awaits", [other]:
                return str(imp.awaits(int(other))).lower()
            case "is_up", [host]:
                return str(int(host) < len(imp.hosts) and imp.hosts[int(host)].is_up).lower()
        return None

    def said_of(self, flow: Flow, number: int) -> str:
        """What is so of a flow and a number of it."""
        imp = self.imp
        source, destination = ends_of(flow)
        held = imp.everything()
        so = {
            "begins": imp.begins(flow),
            "holds": any(entry[:2] == (flow, number) for entry in held),
            "data": any(is_request and ends_of(it) == (source, destination) for it, _, is_request in held),
            "touches": any(destination in ends_of(it) for it, _, _ in held),
            "keeps": any(source == kept.source.imp for kept in imp.kept),
        }
        words = [word for word, is_so in so.items() if is_so]
        return " ".join([*words, f"outstanding {imp.outstanding.get(flow, '-')} last {imp.last.get(flow, '-')}"])

    def called(self, name: str, words: list[str]) -> list[str]:
        """What comes of a call that changes the IMP: what it gives, and the frames."""
        self.imp.frames = []
        try:
            word = self.made(name, words)
            self.imp.pump()
        except Refused as refused:
            return [f"refused {refused}"]
        frames = [(port, spell_frame(bits, content)) for port, bits, content in self.imp.frames]
        return [word, *(f"{port} {octets.hex().upper()}" for port, octets in frames)]

    def made(self, name: str, words: list[str]) -> str:
        """Makes a call, and says what it gives."""
        imp = self.imp
        of_flow = {"give_up": imp.give_up, "ask": imp.ask, "abandon": imp.abandon}
        of_number = {"end_down": imp.end_down, "end_up": imp.end_up, "host_down": imp.host_down, "host_up": imp.host_up}
        match name, words:
            case "from_host", [source, destination, link, count, octets]:
                imp.from_host(read_flow([source, destination, link]), read_bits(count, octets))
            case "from_line", [port, octets]:
                imp.from_line(int(port), *read_frame(octets))
            case "to_host", [host]:
                return spell_given(imp.to_host(int(host)))
            case "forget", [other]:
                imp.forget(int(other))
            case "resend", []:
                imp.resend()
            case "route", []:
                imp.tell_routes()
            case "claim", []:
                imp.claim()
            case _ if name in of_flow:
                of_flow[name](read_flow(words))
            case _ if name in of_number:
                of_number[name](int(words[0]))
            case _:
                raise Unread(name)
        return "ok"

    def fits(self, name: str, words: list[str], wanted: list[str]) -> list[str]:
        """Where a call says that another one would send nothing, or only an acknowledgement: whether it does."""
        if wanted == ["false"]:
            return wanted
        if name == "has_nothing_for":
            beside = ImpRows(copy.deepcopy(self.imp)).called("to_host", words)
            return ["true" if beside == ["nothing"] else "false"]
        if int(words[0]) >= len(self.imp.ports):
            return ["true"]
        frames = self.called("from_line", words)[1:]
        if name == "takes":
            return ["false" if frames else "true"]
        return [frame.removeprefix(f"{words[0]} ") for frame in frames]


def open_imp(call: str) -> tuple[Reading, list[str]]:
    """The IMP of a block's first row, which is answered by nothing."""
    _, number, hosts, ports = call.split(" ")
    return ImpRows(Imp(int(number), int(hosts), int(ports))), []

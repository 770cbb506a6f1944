"""The numbers that drawings name, each with the definition or the constant of the sources that has it."""

from __future__ import annotations

import os
import re
from dataclasses import dataclass

from workshop.parts import ROOT


@dataclass(frozen=True)
class Fact:
    """A number, and where the sources have it: files below crates/ with patterns whose first group is the number."""

    value: int
    places: tuple[tuple[str, str], ...]

    def faults(self, name: str) -> list[str]:
        """The places that have another number, or none."""
        found = []
        for path, pattern in self.places:
            full = f"{ROOT}/crates/{path}"
            if not os.path.exists(full):
                found.append(f"drawings/facts.py: {name}: no file crates/{path}")
                continue
            with open(full, encoding="utf-8") as file:
                there = re.search(pattern, file.read(), re.MULTILINE)
            if there is None:
                found.append(f"drawings/facts.py: {name}: crates/{path} has nothing like {pattern}")
            elif int(there[1].replace("_", ""), 0) != self.value:
                found.append(f"drawings/facts.py: {name} is {self.value}, and {there[1]} in crates/{path}")
        return found


def defined(value: int, *places: tuple[str, str]) -> Fact:
    return Fact(value, places)


def of_format(value: int, definition: str) -> Fact:
    """A number that the format of packets defines."""
    return defined(value, ("packetiser/specs/Format.antt", rf"^{definition} = (\d+)"))


# where a packet's header has what, and the octets of kinds of packets that carry no piece
PLACES = {"source_at": 1, "destination_at": 2, "link_at": 3, "number_at": 4, "place_at": 6, "count_at": 7}
KINDS = {"Rfnm": 1, "Dead": 2, "Ask": 3, "Never": 4}
FACTS = {
    # messages and their addresses
    "text_bits": defined(
        8063,
        ("bit_messages/specs/Body.antt", r"^most_text_bits = (\d+)"),
        ("bit_messages/src/bits.rt", r"MAX_TEXT_BITS: usize = ([\d_]+)"),
    ),
    "unit_bits": defined(16, ("bit_messages/src/bits.rt", r"BODY_UNIT: usize = ([\d_]+)")),
    "most_imps": defined(
        63,
        ("interface/specs/Host.antt", r"^most_imps = (\d+)"),
        ("interface/src/address.rt", r"MOST_IMPS: usize = ([\d_]+)"),
    ),
    "most_hosts": defined(4, ("interface/src/address.rt", r"MOST_HOSTS: u8 = ([\d_]+)")),
    "most_lines": defined(5, ("topology/src/network.rt", r"MOST_LINES: usize = ([\d_]+)")),
    "leader_octets": defined(4, ("leader1822/src/leader.rt", r"LEADER_OCTETS: usize = ([\d_]+)")),
    "message_numbers": defined(
        65536,
        ("interface/specs/Flow.antt", r"^message_numbers = (\d+)"),
        ("interface/src/address.rt", r"MESSAGE_NUMBERS: u32 = ([\d_]+)"),
    ),
    "window": defined(
        32767,
        ("link_table/specs/Numbers.antt", r"^window = (\d+)"),
        ("link_table/src/numbers.rt", r"WINDOW: u32 = ([\d_]+)"),
    ),
    # packets
    **{name: of_format(place, name) for name, place in PLACES.items()},
    "header_octets": defined(
        9,
        ("packetiser/specs/Limits.antt", r"^header_octets = (\d+)"),
        ("packetiser/src/format.rt", r"HEADER_OCTETS: usize = ([\d_]+)"),
    ),
    "piece_bits": defined(
        1008,
        ("packetiser/specs/Limits.antt", r"^piece_bits = (\d+)"),
        ("packetiser/src/format.rt", r"PACKET_BITS: usize = ([\d_]+)"),
    ),
    "most_pieces": defined(
        8,
        ("packetiser/specs/Limits.antt", r"^most_pieces = (\d+)"),
        ("packetiser/src/format.rt", r"MAX_PACKETS: u8 = ([\d_]+)"),
    ),
    "most_slots": defined(8, ("packetiser/src/format.rt", r"SLOTS: usize = ([\d_]+)")),
    **{f"kind_{kind.lower()}": of_format(octet, f"kind_octet kind.{kind}") for kind, octet in KINDS.items()},
    # frames and lines
    "version": defined(
        0xF2,
        ("imp_channel/specs/Format.antt", r"^version = (\d+)"),
        ("imp_channel/src/frame.rt", r"VERSION: u8 = (0x\w+)"),
    ),
    "frame_packet": defined(0, ("imp_channel/specs/Format.antt", r"^kind_octet \(content.Packet carried\) = (\d+)")),
    "frame_acks": defined(1, ("imp_channel/specs/Format.antt", r"^kind_octet content.Nothing = (\d+)")),
    "frame_routes": defined(2, ("imp_channel/specs/Format.antt", r"^kind_octet \(content.Routes distances\) = (\d+)")),
    "bit_value": defined(8, ("imp_channel/specs/Format.antt", r"carried.channel \+ (\d+) else")),
    "channels": defined(8, ("imp_channel/src/channel.rt", r"CHANNELS: usize = ([\d_]+)")),
    "line_places": defined(
        256,
        ("subnet/specs/Net.antt", r"^line_places = (\d+)"),
        ("subnet/src/wire.rt", r"LINE_PLACES: usize = ([\d_]+)"),
    ),
    "infinite": defined(63, ("routing/src/vector.rt", r"INFINITE: u8 = ([\d_]+)")),
    # one IMP
    "store_places": defined(
        32,
        ("imp_node/specs/Room.antt", r"^store_places = (\d+)"),
        ("imp_node/src/imp.rt", r"STORE_PLACES: usize = ([\d_]+)"),
    ),
    "queue_places": defined(
        16,
        ("imp_node/specs/Room.antt", r"^queue_places = (\d+)"),
        ("imp_node/src/host.rt", r"QUEUE_PLACES: usize = ([\d_]+)"),
    ),
    # hosts
    "header_bits": defined(
        40,
        ("ncp_control/src/data_header.rt", r"HEADER_BITS: usize = ([\d_]+)"),
        ("ncp_control/specs/DataHeader.antt", r"length text\) (\d+) \|\|"),
    ),
    "data_bits": defined(
        8023,
        ("ncp_control/src/allocation.rt", r"MAX_DATA_BITS: u32 = ([\d_]+)"),
        ("ncp_control/specs/Allocation.antt", r"min \(a.bits / size\) \((\d+) / size\)"),
    ),
    "control_octets": defined(
        120,
        ("ncp_control/src/packing.rt", r"MAX_CONTROL_OCTETS: usize = ([\d_]+)"),
        ("ncp_control/specs/Packing.antt", r"count_within (\d+) commands"),
    ),
}


def value(name: str) -> int:
    return FACTS[name].value


def shown(name: str) -> str:
    """A number as a drawing writes it."""
    return f"{FACTS[name].value:,}"


def command_lengths() -> list[int]:
    """How many octets each command has, by its code, as the reader has them."""
    with open(f"{ROOT}/crates/ncp_control/src/reading.rt", encoding="utf-8") as file:
        found = re.search(r"LENGTHS: \[usize; \d+\] = \[([\d, ]+)\]", file.read())
    if found is None:
        raise ValueError("crates/ncp_control/src/reading.rt has no LENGTHS")
    return [int(it) for it in found[1].split(",")]


def faults() -> list[str]:
    """The facts that the sources have otherwise."""
    return [it for name, fact in FACTS.items() for it in fact.faults(name)]

"""Random inputs of raw networks: options, networks that may break a rule, and scripts whose lines may be no events."""

from __future__ import annotations

import random

from dorydate.model.topology import Topology
from dorydate.sentences.events import EVENTS, OF_SUBNETS

Given = tuple[list[str], Topology, list[str]]  # options, a network, and the lines of a script


def some_network(chance: random.Random) -> Topology:
    """A network; up to one in three breaks a rule or cannot be run."""
    numbers = chance.sample(range(1, 64), chance.choice([1, 2, 2, 3, 3, 7]))
    imps: list[tuple[int, int]] = [(number, chance.choice([0, 1, 1, 2, 4])) for number in numbers]
    # a star, or a row that may be a ring
    lines: list[tuple[int, ...]] = [(number, numbers[0]) for number in numbers[1:6]]
    if chance.random() < 0.4:
        lines = [*zip(numbers, numbers[1:] + numbers[: chance.choice([0, 1])])]
        lines = lines[: len(lines) - (len(numbers) < 3)] if len(lines) == len(numbers) else lines
    carrier, raw = chance.choice(["plain", "plain", "subnet"]), True
    foreign: list[tuple[int, list[int]]] | None = None
    match chance.randrange(44):
        case 0:
            carrier = "boxes"
        case 1:
            raw = False
        case 2:
            imps = []
        case 3:
            others = [(number, 1) for number in range(1, 65) if number not in numbers]
            imps += others[: chance.choice([16, 17, 63, 64]) - len(imps)]
        case 4:
            imps[0] = chance.choice([0, 64, 63, 17, -1]), 1
        case 5:
            imps[0] = numbers[0], chance.choice([-1, 5, 4])
        case 6:
            imps.append(imps[0])
        case 7:
            lines.append((numbers[0], numbers[0]))
        case 8:
            lines.append((numbers[0], chance.randrange(66)))
        case 9:
            lines.append((numbers[0], numbers[-1]))
        case 10 | 11 if lines:
            lines.append(chance.choice([lines[0], lines[0][::-1]]))
        case 12 | 13 if lines:
            lines[-1] += (chance.choice([*lines[-1], 0]),)
        case 14:
            foreign = [(numbers[-1], chance.choice([[], [], [0]]))]
    return Topology(carrier, raw, imps, lines, foreign)


def some_text(chance: random.Random) -> str:
    """The bits and the octets of a text."""
    bits = chance.choice([0, 0, 1, 7, 8, 8, 9, 24, 1008, 8063, 8064])
    if bits == 0:
        return "0 -"
    size = -(-bits // 8)
    octets = chance.getrandbits(8 * size)
    if chance.random() < 0.97:
        octets = octets >> -bits % 8 << -bits % 8
    return f"{bits} {octets:0{2 * size}X}"


# what happens inside a network: plain mailboxes have no part for it
SOME = {"L": "{line}", "+|-": "{way}", "K": "{line}", "I": "{imp}", "J": "1", "S": "0/1", "D": "3/{imp}", "N": "255"}
RAW = [" ".join([word, *(SOME[it] for it in EVENTS[word].operands)]) for word in OF_SUBNETS]


def some_script(chance: random.Random, network: Topology) -> list[str]:
    """Lines of events, most of them about few flows of few hosts."""
    there = [f"{host}/{number}" for number, count in network.imps for host in range(count)]
    hosts = chance.sample(there, min(len(there), 3)) + [f"{chance.randrange(4)}/{chance.randrange(1, 64)}"]
    flows = [f"{chance.choice(hosts)} {chance.choice(hosts)} {chance.choice([0, 5, 255])}" for _ in range(4)]
    lines = []
    for _ in range(chance.choice([0, 3, 10, 40, 150])):
        match chance.choices(["out", "take", "giveup", "ask", "hostdown", "hostup", "calm", "raw", ""], [12, 16, 4, 1, 4, 6, 1, 2, 2])[0]:
            case "out":
                lines.append(f"out {chance.choice(flows)} {some_text(chance)}")
            case "giveup" | "ask" as kind:
                lines.append(f"{kind} {chance.choice(flows)}")
            case "calm":
                lines.append(f"calm {chance.choice([0, 1, 1, 2])}")
            case "raw":
                event, imp = chance.choice(RAW), chance.randrange(1, 64)
                lines.append(event.format(imp=imp, way="+-"[imp % 2], line=chance.choice([0, 4294967295])))
            case "":
                lines.append(chance.choice(["", "#", "# take 0/1\r", "#\xff\0"]))
            case kind:
                lines.append(f"{kind} {chance.choice(hosts)}")
    # at the end hosts take what still waits, so that its order is seen
    lines += [f"take {host}" for host in hosts for _ in range(chance.choice([0, 6]))]
    # a text has at most 8063 bits; most scripts have no longer one
    return lines if chance.random() < 0.2 else [it for it in lines if " 8064 " not in it]


def changed(chance: random.Random, line: str) -> str:
    """A line with one octet or one word changed; now and then it is still an event."""
    words = line.split(" ")
    place = chance.randrange(len(line) + 1)
    match chance.randrange(6):
        case 0:
            return line[:place] + chr(chance.randrange(256)).replace("\n", "%") + line[place + 1 :]
        case 1:
            return line[:place] + chance.choice(" \t\r\0%#+-_0/\xff") + line[place:]
        case 2:
            return line[:place] + line[place + 1 :]
        case 3:
            words[chance.randrange(len(words))] = chance.choice(["0", "00", "64", "256", "+1", "4294967301", "4/1", "0/0"])
        case 4:
            words.pop(chance.randrange(len(words)))
        case 5:
            octets = line.encode("latin-1")
            upper, lower = octets.upper().decode("latin-1"), octets.lower().decode("latin-1")
            return chance.choice([upper, lower, line + " 0", "calm", "calm 1", "resend 64", "drop 0 * 0", "route 1 1", "offer 0/1"])
    return " ".join(words)


def some_input(chance: random.Random) -> Given:
    """Options, a network, and the lines of a script."""
    none: list[list[str]] = [[]] * 12
    words = chance.choice(none + [["--book"], ["--check"], ["--check", "--book"], ["--book", "--book"], ["-"], ["--texts"], ["--texts"], ["--texts", "--check"], ["--texts", "--texts"]])
    network = some_network(chance)
    lines = some_script(chance, network)
    if lines and chance.random() < 0.4:
        place = chance.randrange(len(lines))
        lines[place] = changed(chance, lines[place])
    if chance.random() < 0.05:
        # the first `%` parts the input, so this one is a script line
        lines.insert(chance.choice([0, len(lines), chance.randrange(len(lines) + 1)]), "%")
    return words, network, lines

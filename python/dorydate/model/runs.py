"""Networks that are opened, and how the program ends on a network and the lines of a script: an independent implementation of the rules.

They were written from docs/program.md. `check model` compares the program with them.
"""

from __future__ import annotations

from collections import Counter
from collections.abc import Collection, Iterable, Iterator, Sequence
from typing import Union

from dorydate.model.bits import spelled_text
from dorydate.model.boxes import Boxes
from dorydate.model.crossings import Carrier, Crossing, Passed
from dorydate.model.packets import MOST_IMPS
from dorydate.model.script import EVERYTHING, BadLine, read_line
from dorydate.model.strangers import MixedWorld
from dorydate.model.subnet import Subnet
from dorydate.model.topology import Topology
from dorydate.model.world import World

Place = Union[Carrier, World]  # a raw network, or one with hosts' programs
End = tuple[int, str, str]  # how a run ends: its status, its output and its words
OF_CROSSINGS = ("out", "in", "answer", "down", "up")
BAD_ARGUMENTS: End = (1, "", "arpasim: bad arguments\n")
CANNOT_READ: End = (1, "", "arpasim: cannot read\n")


def network_is_good(network: Topology, runs: Collection[str] = ()) -> bool:
    """Whether a network keeps the rules and can be run.

    A line is its two ends, and whatever further numbers its table has. A network that isn't raw can be run where the program
    runs `worlds`."""
    carrier, raw, imps, lines, _ = network
    numbers = [number for number, _ in imps]
    if any(len(line) != 2 for line in lines):
        return False
    ends = Counter(end for line in lines for end in line)
    return (
        carrier in ("plain", "subnet")
        and (raw or "worlds" in runs)
        and 1 <= len(imps) <= MOST_IMPS
        and all(1 <= number <= MOST_IMPS and 0 <= hosts <= 4 for number, hosts in imps)
        and len({*numbers}) == len(numbers)
        and all(len({*line}) == 2 and {*line} <= {*numbers} for line in lines)
        and len({frozenset(line) for line in lines}) == len(lines)
        and all(count <= 5 for count in ends.values())
        and strangers_are_good(network)
    )


def strangers_are_good(network: Topology) -> bool:
    """Whether each IMP that names strangers names its own hosts, each once and rising. A raw network has none."""
    hosts = {imp: 0 if network.raw else count for imp, count in network.imps}
    named = network.foreign or []
    return all(numbers == sorted({*numbers} & {*range(hosts[imp])}) for imp, numbers in named)


def opened_carrier(network: Topology) -> Carrier:
    """The carrier of a network, at its opening."""
    carrier, _, imps, lines, _ = network
    return Boxes(imps) if carrier == "plain" else Subnet(imps, lines)


def opened(network: Topology) -> Place:
    """A carrier or a world at its opening, as the network names it."""
    carrier = opened_carrier(network)
    if strangers := network.strangers():
        return MixedWorld(carrier, strangers, takes=False)
    return carrier if network.raw else World(carrier)


def log_of(place: Place) -> list[Crossing]:
    """What has crossed so far."""
    return place.carrier.log if isinstance(place, World) else place.log


def names_input(word: str) -> bool:
    """Whether a word names the input: `-` is standard input, and a word that doesn't begin with it a file."""
    return word == "-" or word[:1] not in ("", "-")


def asked(words: Sequence[str]) -> tuple[str, list[str]] | None:
    """The name of the input and the other words; None where two name it."""
    names = [word for word in words if names_input(word)]
    others = [word for word in words if not names_input(word)]
    return ((names or ["-"])[0], others) if len(names) <= 1 else None


def expected(options: Sequence[str], network: Topology, lines: Iterable[str], runs: Collection[str] = EVERYTHING) -> End:
    """How the program ends on a network and the lines of a script, whichever input the options name."""
    if (named := asked(options)) is None:
        return BAD_ARGUMENTS
    words = named[1]
    if words == ["--live"]:
        return session(network, [*lines], runs)
    if any(word not in ("--book", "--check", "--texts") or words.count(word) > 1 for word in words):
        return BAD_ARGUMENTS
    if not network_is_good(network, runs):
        return 1, "", "arpasim: bad topology\n"
    events = []
    for number, line in enumerate(lines, 1):
        try:
            events.append(read_line(line, network.raw, runs, strangers=bool(network.strangers())))
        except BadLine:
            return 2, "", f"arpasim: bad script line {number}\n"
    if "--check" in words:
        return 0, "ok\n", ""
    place = opened(network)
    for event in filter(None, events):
        place.happen(*event)
    printed = with_texts(place.printed, log_of(place)) if "--texts" in words else place.printed
    lives = place.end_of_book() if "--book" in words and isinstance(place, World) else []
    return 0, "\n".join([*printed, *lives, "end\n"]), ""


def session(network: Topology, lines: Sequence[str], runs: Collection[str] = EVERYTHING) -> End:
    """How a session ends: each line is answered by what `--texts` prints of it and an empty line, up to one that is no event.

    The last of the lines is what follows the last line feed: no line, where that is nothing."""
    if not network_is_good(network, runs):
        return 1, "", "arpasim: bad topology\n"
    place, said = opened(network), ""
    for number, line in enumerate(lines if lines[-1:] != [""] else lines[:-1], 1):
        printed, crossed = len(place.printed), len(log_of(place))
        try:
            event = read_line(line, network.raw, runs, strangers=bool(network.strangers()))
        except BadLine:
            return 2, said, f"arpasim: bad script line {number}\n"
        if event:
            place.happen(*event)
        said += "\n".join([*with_texts(place.printed[printed:], log_of(place)[crossed:]), "\n"])
    return 0, f"{said}end\n", ""


def with_texts(printed: Iterable[str], crossings: Iterable[Crossing]) -> Iterator[str]:
    """Printed lines, and after each message its text. The crossings are those of all of them, in order."""
    left = iter(crossings)
    for line in printed:
        crossing = next(left) if line.split(" ")[0] in OF_CROSSINGS else None
        yield f"{line} {spelled_text(crossing.text)}" if isinstance(crossing, Passed) else line

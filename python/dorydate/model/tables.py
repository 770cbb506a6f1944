"""Route tables of a network whose IMPs exchange their distances in rounds, while its lines stay as they are.

It counts what rounds come to, and runs none: after each round an IMP knows the shortest walks of one line more, and of all else it
believes what it had heard at first, plus a line a round.
"""

from __future__ import annotations

from collections import deque
from collections.abc import Sequence

from dorydate.model.packets import INFINITE, MOST_IMPS

IMPS = range(1, MOST_IMPS + 1)


class Exchange:
    """IMPs 1 to `count` with these lines, of which every port has heard this distance to each IMP at first, or None."""

    def __init__(self, count: int, lines: Sequence[tuple[int, int]], heard: int | None) -> None:
        self.count, self.lines, self.heard = count, lines, heard
        # the IMPs at the other ends of an IMP's lines, port by port, and how many lines lead to each IMP at least
        self.near = {imp: [b if a == imp else a for a, b in lines if imp in (a, b)] for imp in range(1, count + 1)}
        self.walks = {imp: self.walks_from(imp) for imp in self.near}

    def walks_from(self, start: int) -> dict[int, int]:
        """The least number of lines to each IMP that can be reached."""
        found, waiting = {start: 0}, deque([start])
        while waiting:
            at = waiting.popleft()
            for other in self.near[at]:
                if other not in found:
                    found[other] = found[at] + 1
                    waiting.append(other)
        return found

    def distances(self, imp: int, rounds: int) -> list[int]:
        """What an IMP announces after these rounds."""
        misled = INFINITE if self.heard is None or not self.near[imp] else min(self.heard + 1 + rounds, INFINITE)
        known = {to: length for to, length in self.walks[imp].items() if length <= rounds or to == imp}
        return [min(known.get(to, INFINITE), 0 if to == imp else misled) for to in IMPS]

    def heard_of(self, neighbour: int, rounds: int) -> Sequence[int | None]:
        """What a port has heard last after these rounds."""
        if rounds == 0:
            return [self.heard] * MOST_IMPS
        return self.distances(neighbour, rounds - 1)

    def next_lines(self, imp: int, rounds: int) -> list[int | None]:
        """The lowest port to a neighbour that was nearest to each IMP when the last round began."""
        heard = [self.heard_of(it, rounds) for it in self.near[imp]]
        found: list[int | None] = []
        for to, distance in zip(IMPS, self.distances(imp, rounds)):
            ports = (port for port, told in enumerate(heard) if told[to - 1] == distance - 1)
            found.append(next(ports, None) if to != imp and distance < INFINITE else None)
        return found

    def asked(self, rounds: int) -> str:
        """The line that asks tools/calls for this."""
        heard = "-" if self.heard is None else str(self.heard)
        return " ".join([str(self.count), str(rounds), heard, *(f"{a}-{b}" for a, b in self.lines)])

    def owed(self, rounds: int) -> list[str]:
        """What tools/calls has to print for it, an IMP a line."""
        return [spell_table(self.distances(imp, rounds), self.next_lines(imp, rounds)) for imp in self.near]


def spell_table(distances: Sequence[int], ports: Sequence[int | None]) -> str:
    """The distances to all IMPs, as octets, and the ports of the next lines, those of IMPs in a row together."""
    runs: list[tuple[int, int, int | None]] = []
    for imp, port in zip(IMPS, ports):
        if runs and runs[-1][2] == port:
            runs[-1] = runs[-1][0], imp, port
        else:
            runs.append((imp, imp, port))
    lines = [f"{first}{'' if first == last else f'-{last}'}:{port}" for first, last, port in runs if port is not None]
    return " ".join([bytes(distances).hex().upper(), *lines])

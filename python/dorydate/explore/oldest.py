"""The search for what breaks where numbers wrap around: it climbs by a plan of what crosses.

A rule about numbers that wrap around matters only once a number comes again while something of its former message
is left: a packet that is alive, or what the destination's IMP keeps. Random schedules clear such things away. So a plan
names what crosses until something breaks, and the search continues only from networks in which no more crossed, in this
order, and something of the first message is left. Among them it prefers those in which the most crossed for few events.
"""

from __future__ import annotations

import json
import time
from collections.abc import Sequence
from dataclasses import dataclass
from heapq import heappop, heappush
from itertools import count

from dorydate.explore.shrink import Script
from dorydate.model.crossings import Answered, Passed
from dorydate.model.forks import forked
from dorydate.model.runs import Place
from dorydate.model.script import Event as ModelEvent
from dorydate.model.subnet import Subnet
from dorydate.model.trace import all_parts
from dorydate.model.without import broken
from dorydate.script import Event


@dataclass(frozen=True)
class Plan:
    """What crosses, in order: `out`, `in`, and the words of answers. And whether what is left of the first message is
    what the destination's IMP keeps, and not what is alive."""

    crossings: tuple[str, ...]
    is_kept: bool = False

    def is_followed(self, subnet: Subnet) -> bool:
        """Whether this crossed so far, and something of the first message is left until its number is begun again."""
        crossed = crossings_of(subnet)
        begun = crossed.count("out")
        is_left = begun > subnet.numbers.count or age(subnet, self.is_kept) >= begun - 1
        return is_left and crossed == self.crossings[: len(crossed)]


def crossings_of(subnet: Subnet) -> tuple[str, ...]:
    """What crossed, in the words of plans."""
    crossed = (it for it in subnet.log if isinstance(it, Passed | Answered))
    return tuple(it.kind if isinstance(it, Passed) else it.answer for it in crossed)


def age(subnet: Subnet, is_kept: bool) -> int:
    """How many messages ago the oldest number was begun that is kept, or that is alive, of any flow whose source's IMP is up."""
    if is_kept:
        left = [it for imp in subnet.imps.values() if imp is not None for it in imp.kept.items()]
    else:
        left = [(flow, number) for flow, number, _ in subnet.alive()]
    begun = {flow: number for imp in subnet.imps.values() if imp is not None for flow, number in imp.last.items()}
    return max(((begun[flow] - number) % subnet.numbers.count for flow, number in left if flow in begun), default=0)


def climbed(
    place: Place, events: Sequence[tuple[Event, ModelEvent]], plan: Plan, seconds: float, most: int
) -> tuple[Script | None, int]:
    """A script after which something breaks, None where time is up or `most` steps were made; and the steps."""
    assert isinstance(place, Subnet)
    begun, steps, tie = time.monotonic(), 0, count()
    edge: list[tuple[int, int, Subnet, Script]] = [(0, next(tie), place, ())]
    seen = {json.dumps(all_parts(place))}
    while edge and steps < most and time.monotonic() - begun < seconds:
        _, _, before, script = heappop(edge)
        for event, as_model in events:
            steps += 1
            after = forked(before)
            printed = len(after.printed)
            after.happen(*as_model)
            if after.printed[printed:] and after.printed[-1].startswith("refused"):
                continue
            longer = (*script, event)
            if broken(after):
                return longer, steps
            key = json.dumps(all_parts(after))
            if plan.is_followed(after) and key not in seen:
                seen.add(key)
                heappush(edge, (2 * len(longer) - 3 * len(after.log), next(tie), after, longer))
    return None, steps

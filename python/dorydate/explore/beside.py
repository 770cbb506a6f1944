"""The states of the plain program beside those of the proved program's trace: both walk through all lists of some events, level by level.

If the plain program spelled two states alike, or one in two ways, it would come to fewer or more of them at some depth.

What of a text decides nothing is made equal first: the order in which hosts went down, sockets began to listen and ends were begun, the order
of links without an answer, and the places of requests in the log, of which the plain program knows only whether there are any.
"""

from __future__ import annotations

import json
from typing import Any

from dorydate.explore.breadth import Asked, Node, Texts, Walk
from dorydate.explore.fast import scripts, searched
from dorydate.explore.shrink import Script as Events
from dorydate.program import Program


def settled(name: str, value: Any) -> Any:
    """A part's value without what decides nothing."""
    if name == "down":
        return sorted(value)
    if not name.startswith("programs ") or value is None:
        return value
    pairs = [{**pair, "busy": sorted(pair["busy"]), "ends": sorted(map(end_of, pair["ends"]), key=json.dumps)} for pair in value["pairs"]]
    return {"pairs": pairs, "listening": sorted(value["listening"], key=json.dumps)}


def end_of(end: Any) -> Any:
    """An end of which it is known whether its requests went by. (A text that no event changed is already so.)"""
    return {**end, "requests": {whose: place is not None and place is not False for whose, place in end["requests"].items()}}


class Beside(Walk):
    """A walk that knows states as the plain program should."""

    def take(self, before: Node, event: Any, node: Node, found: list[Node]) -> None:
        super().take(before, event, self.settled(node), found)

    def root(self) -> Node:
        return self.settled(super().root())

    def settled(self, node: Node) -> Node:
        texts = ((name, json.dumps(settled(name, json.loads(text)), separators=(",", ":"))) for name, text in node.texts)
        return Node(node.script, tuple(texts), node.reached, node.arrived)


def walked(asked: Asked, program: Program) -> Beside:
    """A walk through all states, by the trace."""
    walk = Beside(asked.network, asked.pattern, program, asked.events, asked.opening)
    walk.run(asked.depth, asked.seconds)
    return walk


def differences(asked: Asked, walk: Beside, finder: str) -> list[str]:
    """How the states of both differ. At each depth both make as many steps, refuse as many and come to as many new states. The plain program
    also looks whether each refused event left its state as it was."""
    levels = searched(asked, options=["--check"], program=finder).levels
    mine, theirs = [(it.steps, it.refused, it.new) for it in walk.counts], [(it.steps, it.refused, it.new) for it in levels]
    return [f"at {depth} events (steps, refused, new): {one} by the trace, {other} by the plain program" for depth, (one, other) in enumerate(zip(mine, theirs), 1) if one != other]


def spelled_apart(asked: Asked, walk: Beside, finder: str) -> list[str]:
    """The first two scripts that lead to two states by the plain program, and to one by the trace."""
    seen: dict[Texts, Events] = {}
    root = walk.root()
    for script in scripts(asked, finder):
        (told,) = walk.sides.run([(*asked.opening, *script)], is_whole=True)
        texts = walk.settled(walk.after(root, script, told)).texts
        if texts in seen:
            return [f"one state by the trace, two by the plain program: after {in_line(seen[texts])}, and after {in_line(script)}"]
        seen[texts] = script
    return []


def in_line(script: Events) -> str:
    return "; ".join(map(str, script))

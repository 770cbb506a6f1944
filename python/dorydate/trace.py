"""A trace as the program prints it (docs/trace.md): its first line, and a record for each elementary event."""

from __future__ import annotations

import json
from collections.abc import Mapping, MutableMapping
from typing import Any, TypeVar

FORMAT = 3
OF_FLOWS = "source", "kept"  # with these words the names of flows' parts begin

Part = TypeVar("Part")


class BadTrace(Exception):
    """Why something is no trace that is read here."""


def opening(trace: str) -> dict[str, Any]:
    """The first line of a trace: the network, and all its parts before the first event."""
    first = json.loads(trace[: trace.find("\n") + 1] or "{}")
    if first.get("trace") != FORMAT:
        raise BadTrace(f"the trace is not of format {FORMAT}: its program is older or newer than this package")
    return dict(first)


def records(trace: str) -> list[str]:
    """The lines of elementary events, in order."""
    opening(trace)
    return trace.splitlines()[1:]


def is_of_flow(name: str) -> bool:
    """Whether a part is of a flow. Such a part that is `null` is there no more."""
    return name.partition(" ")[0] in OF_FLOWS


def fold(parts: MutableMapping[str, Part], told: Mapping[str, Part], gone: Part) -> None:
    """Puts the parts of a line in the place of what was there. Flows whose part is `gone` are taken away."""
    for name, part in told.items():
        if part != gone or not is_of_flow(name):
            parts[name] = part
        elif name in parts:
            del parts[name]

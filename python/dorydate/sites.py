"""What the comment after an IMP's number says: its site, the machines that are its hosts, and where it is (docs/program.md).

    id = 1 # UCLA [Sigma 7] @ 34.07 -118.44
"""

from __future__ import annotations

import re
from dataclasses import dataclass

FORM = re.compile(r"([^\[@]*?)\s*(?:\[([^\]]*)\])?\s*(?:@\s*(-?\d+(?:\.\d+)?)\s+(-?\d+(?:\.\d+)?))?\s*")


@dataclass(frozen=True)
class Site:
    """A site: its name, its machines in the order of its hosts, and its degrees north and east."""

    name: str = ""
    machines: tuple[str, ...] = ()
    place: tuple[float, float] | None = None

    @staticmethod
    def read(comment: str) -> Site:
        """The site of a comment. One in another form is a name as a whole."""
        found = FORM.fullmatch(comment.strip())
        if not found:
            return Site(comment.strip())
        machines = tuple(it.strip() for it in found[2].split(",")) if found[2] else ()
        return Site(found[1], machines, (float(found[3]), float(found[4])) if found[3] else None)

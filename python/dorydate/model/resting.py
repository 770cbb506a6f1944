"""When a calm of any length has come to its end: a round that changes nothing is followed by the same round.

It holds of every network whose next round is decided by what is kept, and wants no rule of a layer.
"""

from __future__ import annotations

from typing import ClassVar

LOOKED_AT = 16  # one of this many rounds of a calm is compared with the state before it


class Kept:
    """What is equal where all of it is that decides what comes."""

    ASIDE: ClassVar[tuple[str, ...]] = ()  # what only those who report look at

    def deciding(self) -> dict[str, object]:
        """All that decides what comes, by name."""
        return {name: value for name, value in vars(self).items() if name not in self.ASIDE}

    def __eq__(self, other: object) -> bool:
        return isinstance(other, Kept) and type(self) is type(other) and self.deciding() == other.deciding()

    __hash__ = None  # type: ignore[assignment]


def is_looked_at(number: int) -> bool:
    """Whether the state is looked at before and after this round of a calm, the first being 1."""
    return number % LOOKED_AT == 0

"""An input as it is given: its lines, as octets, and where its script begins."""

from __future__ import annotations

from dataclasses import dataclass
from functools import cached_property

SHOWN = 72  # characters of a line that are shown


@dataclass(frozen=True)
class Input:
    """The octets of an input."""

    octets: bytes

    @cached_property
    def lines(self) -> list[bytes]:
        return self.octets.split(b"\n")

    @cached_property
    def marker(self) -> int | None:
        """The place of the line that ends the topology, None where there is none."""
        return self.lines.index(b"%") if b"%" in self.lines else None

    @cached_property
    def script(self) -> list[tuple[int, bytes]]:
        """Each line of the script with its number in the file."""
        script = list(enumerate(self.lines, 1))[self.marker + 1 :] if self.marker is not None else []
        return script[:-1] if script and script[-1][1] == b"" else script

    def topology(self) -> bytes:
        """What comes before the marker."""
        return b"\n".join(self.lines[: self.marker])


def is_event(line: bytes) -> bool:
    """Whether a script line asks for an event: empty lines and comments do not."""
    return line != b"" and not line.startswith(b"#")


def shown(line: bytes, most: int | None = SHOWN) -> str:
    """A line of the file as it can be printed, its middle left out where it has more than `most` characters."""
    text = line.decode("utf-8", "backslashreplace")
    text = "".join(it if it.isprintable() else it.encode("unicode_escape").decode() for it in text)
    return text if most is None else short(text, most)


def short(text: str, most: int = SHOWN) -> str:
    """A text, its middle left out where it has more than `most` characters."""
    return text if len(text) <= most else f"{text[: most - 12]} .. {text[-8:]}"

"""An input of a command that may be named: a file in the place of standard input."""

from __future__ import annotations

import os


def open_input(path: str | None) -> None:
    """Makes a file standard input, unless none is named, or `-`."""
    if path in (None, "-"):
        return
    opened = os.open(str(path), os.O_RDONLY)
    os.dup2(opened, 0)
    os.close(opened)

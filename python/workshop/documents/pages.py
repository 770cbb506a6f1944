"""Pages that are made of the sources: one is written by `./check docs --write`, and compared by `./check docs`."""

from __future__ import annotations

import os

from workshop.parts import ROOT, text_of


def put(path: str, text: str) -> None:
    """Writes a page."""
    with open(path, "w", encoding="utf-8") as file:
        file.write(text)


def unlike(path: str, text: str) -> list[str]:
    """Whether a page is as it is made."""
    is_made = os.path.exists(path) and text_of(path) == text
    return [] if is_made else [f"{os.path.relpath(path, ROOT)}: not as it is made (./check docs --write)"]

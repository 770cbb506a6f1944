"""How far a search has come, in a file: `--state FILE`. A search that was stopped or killed continues where it was.

The batches of a search depend on its seed and their numbers only. So its state is the number of the next batch, what was counted, and the
best script. A file is replaced as a whole, so one that is there is never half of one.
"""

from __future__ import annotations

import json
import os
import time
from dataclasses import asdict
from pathlib import Path
from typing import Any

from dorydate.explore.search import Job, Progress
from dorydate.script import read_event

FORMAT = 1
EVERY = 5.0  # seconds between two writings


class OtherState(Exception):
    """Why a file is not the state of this search."""


def progress_of(kept: dict[str, Any]) -> Progress:
    """How far a search has come, as a file has it."""
    counts = dict(kept)
    best, spent = counts.pop("best"), counts.pop("spent")
    progress = Progress(**counts, begun=time.monotonic() - spent)
    progress.best = None if best is None else tuple(map(read_event, best))
    return progress


class State:
    """The file of a search, or of a campaign's searches one after another."""

    def __init__(self, path: str, program: str) -> None:
        self.path, self.program = Path(path), program
        self.written = 0.0
        self.kept: dict[str, Any] = self.read()

    def read(self) -> dict[str, Any]:
        """What the file has; nothing where it isn't there."""
        try:
            read = json.loads(self.path.read_text(encoding="utf-8"))
        except FileNotFoundError:
            return {"format": FORMAT, "program": self.program, "searches": {}}
        except (ValueError, UnicodeDecodeError):
            raise OtherState(f"{self.path} is no state of a search") from None
        if not isinstance(read, dict) or read.get("format") != FORMAT or not isinstance(read.get("searches"), dict):
            raise OtherState(f"{self.path} is no state of a search")
        if read.get("program") != self.program:
            begins = str(read.get("program"))[:12]
            raise OtherState(f"{self.path} is of another program, whose hash begins with {begins}")
        return read

    def resumed(self, name: str, job: Job) -> Progress | None:
        """How far a search has come, None where it hasn't begun."""
        kept = self.kept["searches"].get(name)
        if kept is None:
            if name == "" and self.kept["searches"]:
                raise OtherState(f"{self.path} is the state of a campaign")
            return None
        try:
            for word, value in asdict(job).items():
                if kept["job"].get(word) != json.loads(json.dumps(value)):
                    raise OtherState(f"{self.path} is of a search with another {word}")
            return progress_of(kept["progress"])
        except (KeyError, TypeError, ValueError, AttributeError):
            raise OtherState(f"{self.path} is no state of a search") from None

    def keep(self, name: str, job: Job, progress: Progress, now: bool = False) -> None:
        """Notes how far a search has come, and writes that from time to time."""
        counts = asdict(progress)
        spent = progress.seconds()
        del counts["begun"]
        best = None if progress.best is None else list(map(str, progress.best))
        self.kept["searches"][name] = {"job": asdict(job), "progress": {**counts, "best": best, "spent": spent}}
        if now or time.monotonic() - self.written > EVERY:
            self.write()

    def write(self) -> None:
        beside = self.path.with_name(f"{self.path.name}.new")
        beside.write_text(json.dumps(self.kept, indent=1) + "\n", encoding="utf-8")
        os.replace(beside, self.path)
        self.written = time.monotonic()

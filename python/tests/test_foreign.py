"""Tests of dorydate.foreign: a trace of two programs becomes the log that the page has."""

from __future__ import annotations

import json
import unittest
from typing import Any

from dorydate.foreign import log_of
from dorydate.model.verdict import says
from workshop.parts import ROOT, text_of

EVENTS = [json.loads(line) for line in text_of(f"{ROOT}/python/tests/two-programs.jsonl").splitlines()]


def written(*lacking: int) -> str:
    """The log of the trace without some of its lines, counted from 1."""
    return "".join(f"{line}\n" for line in log_of(it for number, it in enumerate(EVENTS, 1) if number not in lacking))


def ended(more: list[dict[str, Any]]) -> tuple[list[str], str]:
    """The words for how the lives of the trace are, where this happens after it, and what is said of its log."""
    log = "".join(f"{line}\n" for line in log_of([*EVENTS, *more]))
    return [line.split()[-2] for line in log.splitlines() if line.startswith("life ")], says(log.encode())


class Foreign(unittest.TestCase):
    def test_the_trace_is_the_log_of_the_page(self) -> None:
        self.assertEqual(written(), text_of(f"{ROOT}/logs/two-octets"))
        self.assertEqual(says(written().encode()), "kept")

    def test_what_a_program_leaves_out_is_found(self) -> None:
        wanted = {
            3: "broken run line 6",  # an answer: the ALL goes out on this link before it
            9: "broken grants lines 13 14",
            12: "kept",  # an answer: no later message on this link wants it
            13: "broken streams line 14",
            15: "broken streams lines 13 14\nbroken sent lines 13 14",
            16: "broken run line 11\nbroken lives line 12\nbroken messages line 11",
        }
        found = {lacking: says(written(lacking).encode()) for lacking in wanted}
        self.assertEqual(found, wanted)

    def test_how_lives_end(self) -> None:
        fates = "broken fates line 13\nsafe"  # the trace has no CLS and no stop
        closes, over = [{"host": "0/2", "socket": 33, "closes": True}], [{"host": "0/1", "socket": 16, "over": "cls"}, {"host": "0/2", "socket": 33, "over": "cls"}]
        self.assertEqual(ended([*closes, *over]), (["ended", "closed"], f"broken closes lines 13 14\n{fates}"))
        self.assertEqual(ended([{"host": "0/1", "socket": 16, "closes": True}, *over]), (["closed", "ended"], fates))
        self.assertEqual(ended([{**over[0], "over": "stopped"}, {**over[1], "over": "reset"}]), (["stopped", "reset"], fates))
        self.assertEqual(ended(closes), (["open", "open"], "kept"))


if __name__ == "__main__":
    unittest.main()

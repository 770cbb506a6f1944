"""Messages that a receiving life counts: each is one of its partner's, with its number, whatever its bits. Logs by hand, and wrong readings of it."""

from __future__ import annotations

import unittest
from collections.abc import Iterable
from dataclasses import replace

from dorydate.model.audit import audit
from dorydate.model.log import Book, LogReader
from dorydate.model.misread_sent import MISREADINGS
from dorydate.model.was_sent import WasSent
from workshop.parts import ROOT, text_of

RTS, STR = "120 0008000A0001000000100000002105", "120 0008000A0002000000210000001008"
RST, RRP = "48 00080001000C", "48 00080001000D"
X, Y, NONE = "48 000800010058", "48 000800010059", "40 0008000000"


def out(text: str, link: int = 5) -> str:
    return f"out 0/2 0/1 {link} {text}"


def comes(text: str, link: int = 5, answer: str = "rfnm") -> list[str]:
    return [f"in 0/2 0/1 {link} {text}", f"answer {answer} 0/2 0/1 {link}"]


def control(one: str, other: str, text: str) -> list[str]:
    return [f"out {one} {other} 0 {text}", f"in {one} {other} 0 {text}", f"answer rfnm {one} {other} 0"]


OPEN = [*control("0/1", "0/2", RTS), *control("0/2", "0/1", STR)]  # places 0 to 5
RESET = [*control("0/1", "0/2", RST), *control("0/2", "0/1", RRP)]


def lives(at: int, took: str, sent: str, fate: str = "open", more: int = 0) -> list[str]:
    """Two lives whose connection was opened from a place on, by the octets that each has, one a message; `more` have none."""
    receive, send = (f"{len(it) // 2 + more} {4 * len(it)}" for it in (took, sent))
    return [
        f"life 0/1 16 0/2 33 {at} {at + 4} receive {receive} 9 900 0 0 {fate} {took or '-'}",
        f"life 0/2 33 0/1 16 {at + 3} {at + 1} send {send} 0 0 0 0 {fate} {sent or '-'}",
    ]


def handed(life: str) -> str:
    """What a life sent was handed over there."""
    *_, kind, _, bits, _, _, _, _, _, octets = life.split(" ")
    return f"handed {bits} {octets}" if kind == "send" else "handed 0 -"


def log(crossings: Iterable[str], *found: str) -> list[str]:
    return [*crossings, *found, *map(handed, found), "end"]


def after_a_reset(text: str) -> list[str]:
    """A message of before a reset is taken after it, then the first of two of the new connection."""
    return [*OPEN, out(text), *RESET, *OPEN, *comes(text), out(text), *comes(text), out(text)]


GOOD = {
    "two octets": text_of(f"{ROOT}/logs/two-octets").splitlines(),
    "a second one waits": log([*OPEN, out(X), *comes(X), out(X)], *lives(0, "58", "5858")),
    "two connections": log([*OPEN, out(X), *comes(X), *RESET, *OPEN, out(X), *comes(X)], *lives(0, "58", "58", "reset"), *lives(15, "58", "58")),
    "another link beside it": log([*OPEN, out(X), out(Y, 6), *comes(X)], *lives(0, "58", "58")),
    "one that a closed end drops": log([*OPEN, out(X), *comes(X), out(Y), *comes(Y)], *lives(0, "58", "5859")),
    "one of before a reset that is dropped": log(after_a_reset(X), *lives(0, "", "58", "reset"), *lives(13, "", "5858")),
    "empty ones": log([*OPEN, out(NONE), *comes(NONE), out(NONE)], lives(0, "", "", more=1)[0], lives(0, "", "", more=2)[1]),
}
BROKEN = {
    "of before a reset": text_of(f"{ROOT}/logs/an-old-message").splitlines(),
    "of before a reset, without bits": text_of(f"{ROOT}/logs/an-old-message-without-bits").splitlines(),
    "a repeat": log([*OPEN, out(X), *comes(X)[:1], *comes(X), out(X)], *lives(0, "5858", "5858")),
    "a gap": log([*OPEN, out(X), "answer incomplete 0/2 0/1 5", out(X), *comes(X)], *lives(0, "58", "5858")),
    "of another link": log([*OPEN, out(X, 6), *comes(X), out(X)], *lives(0, "58", "58")),
    "out of order": log([*OPEN, out(X), out(X), *comes(X)], *lives(0, "58", "5858")),
    "without a partner": log([*OPEN, out(NONE), *comes(NONE)], lives(0, "", "", more=1)[0]),
}


def book_of(lines: Iterable[str]) -> Book:
    return LogReader().read_log("".join(f"{line}\n" for line in lines).encode())


def judged(lines: Iterable[str], reading: WasSent) -> bool:
    book = book_of(lines)
    return reading.broken(book.log, book.lives) is None


class Messages(unittest.TestCase):
    def test_right_logs(self) -> None:
        for name, lines in GOOD.items():
            with self.subTest(name):
                self.assertTrue(judged(lines, WasSent()))

    def test_wrong_logs(self) -> None:
        for name, lines in BROKEN.items():
            with self.subTest(name):
                self.assertFalse(judged(lines, WasSent()))

    def test_bits_dont_show_it(self) -> None:
        """Streams of bits, partners and grants are kept in a log that has a message of before a reset."""
        for name in ("of before a reset", "of before a reset, without bits"):
            with self.subTest(name):
                book = book_of(BROKEN[name])
                lives = [replace(life, handed=bits) for life, bits in zip(book.lives, book.handed)]
                self.assertIsNone(audit(book.log, lives))

    def test_each_reading_is_told(self) -> None:
        for kind in MISREADINGS:
            with self.subTest(kind.__name__):
                right = [*(judged(it, kind()) for it in GOOD.values())]
                wrong = [*(judged(it, kind()) for it in BROKEN.values())]
                self.assertFalse(all(right) and not any(wrong))


if __name__ == "__main__":
    unittest.main()

"""What each event prints, by marks: over lines that are written by hand, without a program."""

from __future__ import annotations

import unittest

from dorydate.marks import Marked, Part, Unmarked, each_printed, mark_for, printed_in

NOTHING: list[str] = []
MARK = ["refused NoSuch", "refused NotOutstanding"]
DOWN = ["refused NoSuch", "refused IsDown"]
PRINTED = [NOTHING, ["refused NoSuch"], ["refused IsDown"], ["refused NotOutstanding"], ["out 0/1 0/2 5 8"], ["in 0/1 0/2 5 8", "refused NoRoom"]]
MISSING = [NOTHING, ["end"], [*MARK, *MARK, "end"], MARK, ["refused NoSuch", "refused NoSuch", "end"]]


class Marks(unittest.TestCase):
    def test_a_flow_without_messages_is_given_up(self) -> None:
        self.assertEqual(mark_for(["0/1", "0/2"], [b"take 0/1"]), b"drop 256 + 0\ngiveup 0/1 0/1 255")
        self.assertEqual(mark_for(["0/1"], [b"out 0/1 0/1 255 8 41", b"giveup 0/1 0/1 254"]), b"drop 256 + 0\ngiveup 0/1 0/1 254")
        every = [f"out 0/1 0/1 {link} 0 -".encode() for link in range(256)]
        self.assertEqual(mark_for(["0/1", "0/2"], every), b"drop 256 + 0\ngiveup 0/2 0/2 255")
        self.assertIsNone(mark_for(["0/1"], every))
        self.assertIsNone(mark_for([], []))

    def test_what_is_printed_between_marks(self) -> None:
        for printed in PRINTED:
            for other in PRINTED:
                for mark in (MARK, DOWN):
                    lines = [*printed, *mark, *other, *mark, *printed, "end"]
                    self.assertEqual(printed_in(Part(0, 3), lines), [printed, other, printed])

    def test_marks_that_are_missing(self) -> None:
        for lines in MISSING:
            with self.assertRaises(Unmarked):
                printed_in(Part(0, 2), lines)

    def test_an_input_with_marks(self) -> None:
        marked = Marked(b"raw = true", [b"a", b"bb", b"c"], b"m\nn")
        self.assertEqual([*marked.parts()], [Part(0, 3)])
        self.assertEqual(marked.input(Part(0, 3)), b"raw = true\n%\na\nm\nn\nbb\nm\nn\nc\n")
        self.assertEqual(marked.input(Part(1, 3)), b"raw = true\n%\na\nbb\nm\nn\nc\n")
        alone = Marked(b"raw = true", [b"a", b"bb"], None)
        self.assertEqual([*alone.parts()], [Part(0, 1), Part(1, 2)])
        self.assertEqual(alone.input(Part(1, 2)), b"raw = true\n%\na\nbb\n")

    def test_a_script_without_room_is_run_on_first_parts(self) -> None:
        events = [f"take 0/{1 + place % 9}".encode() for place in range(116_000)]
        marked = Marked(b"x" * 100, events, mark_for(["0/1"], events))
        parts = [*marked.parts(1_048_576)]
        self.assertEqual([it.begin for it in parts], [0, *(it.end for it in parts[:-1])])
        self.assertEqual(parts[-1].end, len(events))
        self.assertLess(len(parts), 60)
        self.assertTrue(all(len(marked.input(it)) <= 1_048_576 for it in parts))

    def test_parts_are_put_together(self) -> None:
        first, second = ["one", *MARK, "end"], ["one", "two", *MARK, "three", "end"]
        self.assertEqual(each_printed([Part(0, 2), Part(2, 4)], ["\n".join(first), "\n".join(second)]), [["one"], [], ["two"], ["three"]])


if __name__ == "__main__":
    unittest.main()

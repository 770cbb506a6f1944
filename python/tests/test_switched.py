"""Planted bugs of which a run has one: what becomes of a file that has some."""

from __future__ import annotations

import unittest

from workshop.builds.switched import parts_at_commas, switched
from workshop.checks.planting import Edit

TEXT = """impl Pair {
    /// Adds.
    pub(crate) fn sum(&self, a: u8, mut b: Vec<(u8, u8)>) -> u8
        ensures { result ≡ a }
    {
        a + self.b
    }
}

impl<W: Out> Show<W> for Pair<W> {
    fn show<'a>(&'a self, n: u8) -> u8 {
        7 + self.n
    }
}

fn one() -> u8 {
    1
}

fn both(
    a: u8,
    b: u8,
) -> u8 {
    a + b
}
"""


def bug(old: str, new: str) -> Edit:
    return Edit("pairs", "a.edit", ("src/pair.rt",), ((old, new),), False)


class Switched(unittest.TestCase):
    """A file with bugs."""

    def test_a_function_asks_which_bug_is_chosen(self) -> None:
        text, there = switched(TEXT, {1: bug("a + self.b", "a"), 2: bug("a + self.b", "self.b")})
        self.assertEqual(there, [1, 2])
        signature = "(&self, a: u8, mut b: Vec<(u8, u8)>) -> u8\n"
        one, two, none = (f"{{ self.sum_{name}(a, b) }}" for name in ("planted_1", "planted_2", "unchanged_1"))
        asks = f"if planted::chosen(1) {one} else if planted::chosen(2) {two} else {none}"
        clause = "        ensures { result ≡ a }\n"
        self.assertIn(f"    pub(crate) fn sum{signature}{clause}    {{\n        {asks}\n", text)
        for name, body in (("unchanged_1", "a + self.b"), ("planted_1", "a"), ("planted_2", "self.b")):
            self.assertIn(f"    fn sum_{name}{signature}    {{\n        {body}\n", text)

    def test_copies_of_a_function_of_a_trait_are_of_no_type(self) -> None:
        text, there = switched(TEXT, {5: bug("        7", "        8")})
        self.assertEqual(there, [5])
        shown = "if planted::chosen(5) { show_planted_5(self, n) } else { show_unchanged_5(self, n) }"
        clause = "impl<W: Out> Show<W> for Pair<W> {\n    fn show<'a>(&'a self, n: u8) -> u8 {\n"
        self.assertIn(f"{clause}        {shown}\n    }}\n}}\n", text)
        self.assertIn("fn show_planted_5<'a, W: Out>(this: &'a Pair<W>, n: u8) -> u8 {\n        8 + this.n\n", text)

    def test_a_head_of_several_lines_has_its_arguments(self) -> None:
        text, there = switched(TEXT, {6: bug("    a + b\n", "    a\n")})
        self.assertEqual(there, [6])
        self.assertIn("    if planted::chosen(6) { both_planted_6(a, b) } else { both_unchanged_6(a, b) }\n", text)

    def test_what_is_in_no_function_is_left_out(self) -> None:
        self.assertEqual(switched(TEXT, {3: bug("impl<W: Out> Show", "impl Hide"), 4: bug("nothing", "")}), (TEXT, []))

    def test_commas_in_brackets_part_nothing(self) -> None:
        parts = ["a: &[u8]", "f: F<u8, (u8, u8)>", "g: fn(u8) -> u8"]
        self.assertEqual(parts_at_commas(", ".join([*parts, ""])), parts)

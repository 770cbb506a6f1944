"""The page of reference: each public name has a sentence and an example, and each example prints what it says."""

from __future__ import annotations

import doctest
import unittest
from collections.abc import Iterator
from typing import Any

import dorydate
from workshop.documents import notebook
from workshop.documents.reference import BEGINNING, NAMES, members, sections, spelled
from workshop.parts import text_of


def public() -> Iterator[tuple[str, Any]]:
    """The public names and their members."""
    for name in NAMES:
        kind = getattr(dorydate, name)
        yield name, kind
        yield from ((f"{name}.{part}", it) for part, it in members(kind).items())


class Reference(unittest.TestCase):
    def test_each_name_has_a_sentence_and_an_example(self) -> None:
        names = dict(public())
        self.assertEqual(sorted(NAMES), sorted(dorydate.__all__))
        self.assertGreater(len(names), 90)
        self.assertEqual([name for name, it in names.items() if not next(sections(it.__doc__ or "")).endswith(".")], [])
        self.assertEqual([name for name, it in names.items() if ">>> " not in (it.__doc__ or "")], [])

    def test_each_example_prints_what_it_says(self) -> None:
        names: dict[str, Any] = {it: getattr(dorydate, it) for it in dorydate.__all__}
        exec(BEGINNING, names)
        for name, it in public():
            with self.subTest(name):
                fresh = {**names, "net": names["net"].branch(), "world": names["world"].branch()}
                test = doctest.DocTestParser().get_doctest(it.__doc__ or "", fresh, name, None, None)
                said: list[str] = []
                doctest.DocTestRunner(verbose=False).run(test, out=said.append)
                self.assertEqual(said, [])

    def test_the_map_of_the_notebook_is_what_the_replay_shows(self) -> None:
        until = notebook.tutorial().split(notebook.SHOWS)[0]
        test = doctest.DocTestParser().get_doctest(until, {}, "tutorial", None, None)
        doctest.DocTestRunner(verbose=False).run(test, clear_globs=False)
        self.assertEqual(test.globs["net"]._repr_svg_(), text_of(notebook.MAP))

    def test_a_call_is_spelled_as_it_is_written(self) -> None:
        row = members(dorydate.Replay)
        self.assertEqual(spelled("Replay", "calm", row["calm"]), "net.calm(rounds=1)")
        self.assertEqual(spelled("Replay", "of", row["of"]), "Replay.of(script, program=None)")
        self.assertEqual(spelled("Replay", "text", row["text"]), "net.text")

    def test_paragraphs_and_examples(self) -> None:
        self.assertEqual(
            [*sections("One\n    two.\n\n    >>> 1\n    1\n    ")], ["One two.", "```python\n>>> 1\n1\n```"]
        )

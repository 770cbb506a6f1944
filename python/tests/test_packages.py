"""Tests of what lies where: pip installs dorydate, so that imports nothing of the repository's."""

from __future__ import annotations

import ast
import sys
import unittest
from collections.abc import Iterator
from pathlib import Path

PACKAGE = Path(__file__).resolve().parents[1] / "dorydate"


def imported(text: str) -> Iterator[str]:
    """The modules that a text imports anywhere, by their whole names."""
    for node in ast.walk(ast.parse(text)):
        if isinstance(node, ast.Import):
            yield from (it.name for it in node.names)
        elif isinstance(node, ast.ImportFrom):
            yield "." * node.level + (node.module or "")


class Packages(unittest.TestCase):
    def test_dorydate_imports_itself_and_the_standard_library_only(self) -> None:
        known = {"dorydate", *sys.stdlib_module_names}
        found = {str(path.relative_to(PACKAGE)): {*imported(path.read_text(encoding="utf-8"))} for path in PACKAGE.rglob("*.py")}
        self.assertIn("dorydate.network", found["replay.py"])
        self.assertEqual({path: others for path, names in found.items() if (others := {it for it in names if it.split(".")[0] not in known})}, {})

    def test_an_import_is_seen_wherever_it_is(self) -> None:
        text = "import os, workshop.parts as it\ndef f():\n    from workshop import wasm\n    from . import other\n"
        self.assertEqual([*imported(text)], ["os", "workshop.parts", "workshop", "."])

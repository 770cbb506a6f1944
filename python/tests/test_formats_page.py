"""A test of docs/formats.md: its table of commands has the codes and fields that its picture has."""

from __future__ import annotations

import re
import unittest

from dorydate.where import ROOT
from workshop.drawings.formats import COMMANDS

ROW = re.compile(r"^\| (\d+) \| ([A-Z]{3})\b[^|]*\|([^|]*)\|", re.MULTILINE)


class FormatsPage(unittest.TestCase):
    def test_table_and_picture_have_the_same_commands(self) -> None:
        page = (ROOT / "docs" / "formats.md").read_text(encoding="utf-8").split("## Commands")[1]
        found = [(int(code), name, fields.strip()) for code, name, fields in ROW.findall(page)]
        fields = [(name, ", ".join(f"{words} {wide}" for wide, words in them)) for name, them in COMMANDS]
        drawn = [(code, *it) for code, it in enumerate(fields)]
        self.assertEqual(found, drawn)


if __name__ == "__main__":
    unittest.main()

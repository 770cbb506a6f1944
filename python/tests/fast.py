"""Tests that take too long over a program that was built without proofs, and so without optimisation."""

from __future__ import annotations

import unittest

from dorydate.where import found


class NeedsFastProgram(unittest.TestCase):
    """Tests that are left out where only such a program is there."""

    @classmethod
    def setUpClass(cls) -> None:
        if found().path.endswith("-unproved"):
            raise unittest.SkipTest("the program without proofs is too slow for this")

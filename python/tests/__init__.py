"""Tests of the package: python3 -m unittest discover python (from the repository's root; ./check python runs them)."""

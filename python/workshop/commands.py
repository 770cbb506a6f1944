"""The commands `./check` and `./measure`, which list their parts and run them."""

from __future__ import annotations

import re
import sys

from workshop.parts import ROOT, list_all, run, text_of
from workshop.report import run_all

CHECK = """Lists the checks: ./check. Runs those of the gate: ./check all. Runs some, with one report: ./check these NAME..
Runs one: ./check NAME [ARGUMENTS]. Says what one does: ./check NAME --help.

Each is a module of workshop.checks. The first line of its text says what it checks and how long that takes.
"""
MEASURE = """Lists the measurements: ./measure. Runs one: ./measure NAME [ARGUMENTS]. Says what one does: ./measure NAME --help.

Each is a module of workshop.measure. The first line of its text says what it measures. None is part of the gate.
"""


def of_the_gate() -> list[list[str]]:
    """The checks that .ci/run makes, each as its words: all but the tools that it installs, and the planted bugs that it
    tries over what `rt ci` has just built."""
    found = re.findall(r"^(?:part )?\./check (.*)$", text_of(f"{ROOT}/.ci/run"), re.MULTILINE)
    return [it.split() for it in found if not it.startswith(("edits", "tools"))]


def listed(kind: str, text: str) -> int:
    print(text)
    list_all(kind)
    return 0


def check() -> int:
    name, *words = sys.argv[1:] or ["--help"]
    if name in ("--help", "-h"):
        return listed("checks", CHECK)
    if name == "all":
        return run_all(of_the_gate())
    return run_all([[it] for it in words]) if name == "these" else run("checks", "check", name, words)


def measure() -> int:
    name, *words = sys.argv[1:] or ["--help"]
    return listed("measure", MEASURE) if name in ("--help", "-h") else run("measure", "measure", name, words)

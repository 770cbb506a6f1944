"""The package dorydate: types, tests, its tutorial, and a short exploration (a minute).

Checks python/, of which pip installs dorydate: ./check python [TEST..]

`mypy --strict` and pyflakes read both packages and their tests, where they are installed; otherwise that is said. So it is with the notebook and Jupyter. The tests
of python/tests run, and so do the lines of docs/python.md. Then searches with fixed seeds find what they have to find, no longer than it was
found before, and the audit keeps the log of each schedule that an exploration runs. These need a fast program: the one that ./build proved, or the one that
the variable DORYDATE_PROGRAM names (tools/optimised makes one).
"""

from __future__ import annotations

import os
import re
import shutil
import subprocess
import sys
import tempfile
from collections import Counter
from collections.abc import Sequence

from workshop.parts import ROOT, any_program
from workshop.tools import lacking, left_out, python_with
from workshop.words import Words

PACKAGE = f"{ROOT}/python"
SOURCES = ("dorydate", "workshop", "tests", "__main__.py", "../examples/ncp.py")
SEARCHES = {"taken-and-incomplete": 8, "half-open": 9, "resets-in-step": 6, "lost-at-a-close": 13, "noted-before-it-comes": 8, "refused-before-it-comes": 9}  # events at most, a last calm included
SCHEDULES = 1_000  # whose logs are audited
SKIPPED = re.compile(r"\.\.\. skipped ['\"](.*)['\"]$")


def mypy() -> bool:
    """Whether the types are right; True where no tool is there to say."""
    if not shutil.which("mypy"):
        lacking("python", "types", "mypy")
        return True
    with tempfile.TemporaryDirectory() as kept:
        ran = subprocess.run(["mypy", "--strict", "--cache-dir", kept, *SOURCES], cwd=PACKAGE, capture_output=True, text=True)
    print(f"check python: mypy: {ran.stdout.strip()}")
    return ran.returncode == 0


def pyflakes() -> bool:
    """Whether nothing is imported or set for nothing; True where no tool is there to say."""
    if not shutil.which("pyflakes3"):
        lacking("python", "what is imported or set for nothing", "pyflakes")
        return True
    ran = subprocess.run(["pyflakes3", *SOURCES], cwd=PACKAGE, capture_output=True, text=True)
    print(f"check python: pyflakes: {ran.stdout.strip() or 'nothing is found'}")
    return ran.returncode == 0


def python(*words: str, env: dict[str, str]) -> subprocess.CompletedProcess[str]:
    return subprocess.run([sys.executable, "-B", *words], cwd=ROOT, capture_output=True, text=True, env=env)


def named_tests(names: Sequence[str], env: dict[str, str]) -> int:
    """The status of these tests."""
    words = [sys.executable, "-B", "-m", "unittest", "-v", *(f"tests.{it}" for it in names)]
    return subprocess.run(words, cwd=PACKAGE, env=env).returncode


def tests(env: dict[str, str]) -> bool:
    """Whether the unit tests and the tutorial pass."""
    ran = python("-m", "unittest", "discover", "-v", "-s", "python", "-t", "python", env=env)
    lines = ran.stderr.strip().splitlines()
    for why, many in Counter(it[1] for line in lines if (it := SKIPPED.search(line))).items():
        left_out("python", f"{many} tests or classes of them", why)
    wrong = "\n".join(it for it in lines if not it.endswith("... ok"))
    print("check python:", wrong if ran.returncode else lines[-3])
    told = python("-m", "doctest", "docs/python.md", env=env)
    print("check python: the tutorial prints what it says" if told.returncode == 0 else told.stdout)
    return ran.returncode == told.returncode == 0


def notebook(env: dict[str, str]) -> bool:
    """Whether the notebook runs; True where no tool is there to say."""
    command = python_with("nbclient", "ipykernel")
    if command is None:
        lacking("python", "docs/experiment.ipynb", "Jupyter")
        return True
    words = [command, "-m", "jupyter", "execute", "docs/experiment.ipynb"]
    ran = subprocess.run(words, cwd=ROOT, capture_output=True, text=True, env=env)
    print("check python: the notebook runs" if ran.returncode == 0 else ran.stderr)
    return ran.returncode == 0


def explorations(env: dict[str, str]) -> bool:
    """Whether each search finds its script, and the logs of schedules are kept."""
    wrong = []
    for name, most in SEARCHES.items():
        ran = subprocess.run([f"{ROOT}/explore", name, "--quiet", "--seed", "1", "--matches", "1", "--seconds", "60"], capture_output=True, text=True, env=env)
        events = [it for it in ran.stdout.split("\n%\n")[-1].splitlines() if it and not it.startswith("#")]
        if ran.returncode or len(events) > most:
            wrong.append(f"{name}: status {ran.returncode}, {len(events)} events, {ran.stderr}")
    ran = subprocess.run([f"{ROOT}/explore", "twice", "--quiet", "--audit", "--runs", str(SCHEDULES), "--never", "in A B N .. then not out A B N .. then in A B N .."], capture_output=True, text=True, env=env)
    if ran.returncode:
        wrong.append(f"a message that is taken twice, or a log that is not kept: {ran.stderr}{ran.stdout}")
    print("check python:", "; ".join(wrong) or f"{len(SEARCHES)} searches find their scripts, and {SCHEDULES} logs are kept")
    return not wrong


def main() -> int:
    names = Words(__doc__).names("test", "only this test: test_waits, or test_waits.CLASS").asked().test
    program = os.environ.get("DORYDATE_PROGRAM") or any_program()
    if program is None:
        print("check python: there is no program of these sources: ./build makes it")
        return 1
    env = {**os.environ, "DORYDATE_PROGRAM": program, "PYTHONPATH": PACKAGE}
    if names:
        return named_tests(names, env)
    if program.endswith("-unproved"):
        left_out("python", "explorations", "the program without proofs is too slow for them (./build makes the fast one)")
    return 0 if all([mypy(), pyflakes(), tests(env), notebook(env), program.endswith("-unproved") or explorations(env)]) else 1

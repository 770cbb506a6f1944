"""Builds the proved program once more, where nothing caught the module that LLVM made it of.

`rt ci` builds a program only if it has not passed the same one on this machine before. A file more in the crate's folder makes it another one
to `rt ci`, though the program is the same: so a copy of the crates gets such a file, a page that no compiler reads and that no hash of
sources covers. What the program is built on is taken from what `rt ci` kept.
"""

from __future__ import annotations

import os
import shutil
import subprocess
import sys
import tempfile
import time

from workshop.parts import ROOT
from workshop.wasm.binary import Refused

CAUGHT = [sys.executable, "-B", f"{ROOT}/python", "caught"]


def build_again(root: str, module: str, log: str) -> None:
    """Builds the program of the sources below `root` on a copy, and leaves its module in a file. What `rt` says goes to `log`."""
    with tempfile.TemporaryDirectory() as room:
        shutil.copytree(f"{root}/crates", f"{room}/crates", symlinks=True, ignore=shutil.ignore_patterns("out"))
        for name in ("crates.txt", "HANDLES"):
            if os.path.exists(f"{root}/{name}"):
                shutil.copyfile(f"{root}/{name}", f"{room}/{name}")
        with open(f"{room}/crates/arpasim/src/again.md", "w", encoding="utf-8") as page:
            page.write(f"Built once more, {time.time_ns()}.\n")
        subprocess.run(["git", "init", "-q", room], check=True)
        # (where CI is set, `rt ci` takes no names, so that nobody takes that for the gate)
        environment = {name: value for name, value in os.environ.items() if name != "CI"}
        with open(log, "wb") as said:
            ran = subprocess.run([*CAUGHT, module, "rt", "ci", "arpasim"], cwd=room, env=environment, stdin=subprocess.DEVNULL, stdout=said, stderr=said)
    if ran.returncode or not os.path.exists(module):
        raise Refused(f"the module was not caught; {log} has what rt said")

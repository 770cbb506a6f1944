"""Where this package is, and with it the program `arpasim` and the commands.

The program is found by the variable DORYDATE_PROGRAM; or in the repository that this package lies in (tools/program); or in the package, as pip
installed it from a release (dorydate.released); or on the path.
"""

from __future__ import annotations

import os
import re
import shutil
import subprocess
from functools import lru_cache
from pathlib import Path

from dorydate.by_node import ByNode
from dorydate.program import NoProgram, Program
from dorydate.released import is_released, released_program

COMMANDS = re.compile(r"\./(arpasim|explain|explore|export)\b")
ROOT = Path(__file__).resolve().parents[2]  # the repository, where this package lies in one


def repository() -> Path | None:
    """The repository that this package lies in."""
    return ROOT if (ROOT / "tools" / "program").is_file() else None


def examples_folder() -> Path:
    """Where the examples are: in the clone, or in the package."""
    return ROOT / "examples" if repository() else Path(__file__).with_name("examples")


def command(name: str) -> str:
    """How a command of this project is called here: in a clone `./explain`, and where pip installed it `dorydate explain`."""
    if repository():
        return f"./{name}"
    return name if name == "arpasim" else f"dorydate {name}"


def here(text: str) -> str:
    """A text that names commands as a clone has them (`./explain`), with the names that they have here."""
    return COMMANDS.sub(lambda it: command(it[1]), text)


def program_at(path: str) -> Program:
    """The program in a file: one that Node runs, or a native one."""
    return ByNode(path) if path.endswith(".mjs") else Program(path)


@lru_cache(maxsize=1)
def found() -> Program:
    """The program of this machine."""
    if path := os.environ.get("DORYDATE_PROGRAM"):
        return program_at(path)
    if root := repository():
        ran = subprocess.run([root / "tools" / "program"], stdout=subprocess.PIPE, text=True, check=False)
        if ran.returncode == 0 and ran.stdout.strip():
            return program_at(ran.stdout.strip())
        raise NoProgram("tools/program has found no program: see what it says above")
    if is_released():
        return program_at(released_program())
    if path := shutil.which("arpasim"):
        return program_at(path)
    raise NoProgram("there is no program: set DORYDATE_PROGRAM to the path of arpasim, or put it on PATH")

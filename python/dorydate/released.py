"""The release that pip installed with this package: the page, the programs in it and beside it, and the note of what they come from.

`./release` puts them into the folder `release` of the package, which a clone lacks. A file is taken only if it has the hash that the note names.
"""

from __future__ import annotations

import hashlib
import json
import os
import platform
import shutil
import subprocess
from pathlib import Path
from typing import Any

from dorydate.program import NoProgram

FOLDER = Path(__file__).with_name("release")
PAGE = "dorydate.html"
NATIVE = "arpasim"
BY_NODE = "run/arpasim.mjs"
OTHER_WAY = "Node 18 or later runs the program here (nodejs.org, or your system's package nodejs), and so does a browser: `dorydate page > dorydate.html`"


def is_released() -> bool:
    """Whether this package was installed from a release."""
    return (FOLDER / "note.json").is_file()


def note() -> dict[str, Any]:
    """What the release says of itself: the sources, the toolchain, the gate, and the hash of each file."""
    return dict(json.loads((FOLDER / "note.json").read_text(encoding="utf-8")))


def octets_of(name: str) -> bytes:
    """What a file of the release holds, if it was not changed since."""
    octets = (FOLDER / name).read_bytes()
    hash_of, noted = hashlib.sha256(octets).hexdigest(), note()["files"][name]["sha256"]
    if hash_of != noted:
        raise NoProgram(f"{FOLDER / name} was changed: its hash is {hash_of[:16]}.., and the note of the release names {noted[:16]}..; install the package again")
    return octets


def runs(path: Path) -> bool:
    """Whether this machine runs a program."""
    try:
        ran = subprocess.run([path, "--check"], input=b"[[imp]]\nid = 1\nhosts = 0\n%\n", capture_output=True, timeout=10, check=False)
    except (OSError, subprocess.TimeoutExpired):
        return False
    return ran.stdout == b"ok\n"


def native_program() -> str | None:
    """The native program of the release, where this machine runs it."""
    path = FOLDER / NATIVE
    if (platform.system(), platform.machine()) != ("Linux", "x86_64") or not path.is_file():
        return None
    octets_of(NATIVE)
    return str(path) if os.access(path, os.X_OK) and runs(path) else None


def released_program() -> str:
    """The program of the release: the native one where this machine runs it, else the one that Node runs."""
    if path := native_program():
        return path
    if not shutil.which("node"):
        raise NoProgram(f"no native program of this release runs here ({platform.system()} on {platform.machine()}); {OTHER_WAY}")
    octets_of(PAGE)
    return str(FOLDER / BY_NODE)

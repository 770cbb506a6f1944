"""One version: that of the program is that of the package, of the citation and of the change log.

Between releases it is the next one's number with the ending `-dev`, and citation and change log name the last release.
"""

from __future__ import annotations

import glob
import json
import os
import re
from collections.abc import Iterator

from workshop.parts import ROOT

SOURCE = "crates/command_line/src/about.rt"
DEVELOPED = "-dev"
PACKAGE = "python/pyproject.toml", r'^version = "(.*)"$'
# where the last release is named, and how it is written there
RELEASED = {
    "CITATION.cff": r"^version: (.*)$",
    "CHANGELOG.md": r"^## \[(\d.*?)\]",
}


def version_in(path: str, pattern: str) -> str:
    """The first version that a file of the repository names; empty if it names none."""
    with open(os.path.join(ROOT, path), encoding="utf-8") as file:
        found = re.search(pattern, file.read(), re.MULTILINE)
    return found[1] if found else ""


def version() -> str:
    """The version of the program."""
    return version_in(SOURCE, r'^pub const VERSION: &str = "(.*)";$')


def for_python(own: str) -> str:
    """A version as packages for Python spell it."""
    return own.replace(DEVELOPED, ".dev0")


def for_debian(own: str) -> str:
    """A version as Debian spells it: the one that is developed comes before its release."""
    return own.replace(DEVELOPED, "~dev")


def of_npm() -> Iterator[tuple[str, str]]:
    """Each package of npm in the repository that has a name, with its version."""
    for path in sorted(glob.glob(f"{ROOT}/**/package.json", recursive=True)):
        if "node_modules" not in path and "/out/" not in path:
            with open(path, encoding="utf-8") as file:
                package = json.load(file)
            if "name" in package:
                yield os.path.relpath(path, ROOT), str(package.get("version", ""))


def faults() -> Iterator[str]:
    """What has another version than it should."""
    own = version()
    if not re.fullmatch(rf"\d+\.\d+\.\d+({DEVELOPED})?", own):
        yield f"{SOURCE}: VERSION is no version: {own!r}"
    last = {path: version_in(path, pattern) for path, pattern in RELEASED.items()}
    wanted = last["CHANGELOG.md"] if own.endswith(DEVELOPED) else own
    if own.removesuffix(DEVELOPED) == wanted != own:
        yield f"{SOURCE}: {wanted} is released, and {own} comes before it"
    named = [(*pair, for_python(own)) for pair in [(PACKAGE[0], version_in(*PACKAGE))]]
    named += [(path, it, own) for path, it in of_npm()] + [(path, it, wanted) for path, it in last.items()]
    for path, it, right in named:
        if it != right:
            yield f"{path}: version {it or 'none'}, and {right} is right"

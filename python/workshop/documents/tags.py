"""A file `tags` for editors: where each name of the sources is declared, in the form of ctags."""

from __future__ import annotations

import glob
import os
import re
from collections.abc import Iterator

from workshop.parts import ROOT, text_of

NAME = r"([^\s(){}\[\],.;:@`\"]+)"
DECLARED = {
    ".antt": re.compile(rf"^ *(?:(?:abbrev|pub|unfoldable|pattern) )*(?:(?:record|data) {NAME}(?: [^\n]*)?|(?!--){NAME}) : ", re.MULTILINE),
    ".rt": re.compile(r"^\s*(?:pub(?:\(\w+\))? )?(?:const )?(?:unsafe )?(?:fn|struct|enum|trait|const|type|mod) (\w+)", re.MULTILINE),
    ".py": re.compile(r"^\s*(?:def|class) (\w+)", re.MULTILINE),
    ".js": re.compile(r"^(?:export )?(?:async )?(?:function|class|const|let) (\w+)", re.MULTILINE),
}
WHERE = {".antt": "crates", ".rt": "crates", ".py": "python", ".js": "web"}


def declared(ending: str, text: str) -> Iterator[tuple[str, int]]:
    """The names that a source declares, each with its line."""
    for found in DECLARED[ending].finditer(text):
        name = next(it for it in found.groups() if it)
        yield name, text.count("\n", 0, found.start(found.lastindex or 1)) + 1


def lines() -> list[str]:
    """The lines of the file, as editors search them: sorted by their octets."""
    found = []
    for ending, folder in WHERE.items():
        for path in glob.glob(f"{ROOT}/{folder}/**/*{ending}", recursive=True):
            if "/out/" not in path:
                found += [f'{name}\t{os.path.relpath(path, ROOT)}\t{line};"' for name, line in declared(ending, text_of(path))]
    return sorted({*found}, key=lambda it: it.encode())


def write() -> int:
    """Writes the file, which git ignores, and gives how many names it has."""
    made = lines()
    with open(f"{ROOT}/tags", "w", encoding="utf-8") as file:
        file.write("!_TAG_FILE_FORMAT\t2\t/extended/\n!_TAG_FILE_SORTED\t1\t/by octets/\n" + "".join(f"{it}\n" for it in made))
    return len(made)

"""The command `./explain --page [OTHER-FILE] < INPUT`: the workbench as one file, which opens at this input (docs/workbench.md)."""

from __future__ import annotations

import json
import os
import subprocess
import sys
from pathlib import Path

from dorydate.ending import shown_name
from dorydate.program import NoProgram
from dorydate.released import PAGE, octets_of
from dorydate.where import ROOT, repository

EMPTY = '<script type="application/json" id="opened">[]</script>'  # the inputs with which a packed page opens


def main(octets: bytes, others: list[str]) -> int:
    """Writes the page of an input and of other files to standard output. The exit status."""
    given = [(name_of_input(), octets)]
    for path in others:
        try:
            with open(path, "rb") as file:
                given.append((shown_name(path), file.read()))
        except OSError as fault:
            print(f"explain: {path}: {fault.strerror}", file=sys.stderr)
            return 1
    return written(given)


def written(given: list[tuple[str, bytes]]) -> int:
    """Writes the page of these inputs, the first of which it shows. The exit status."""
    try:
        inputs = [{"name": name or "script", "title": name or "The script", "text": octets.decode()} for name, octets in given]
    except UnicodeDecodeError:
        print("explain: the input is not UTF-8, and a page shows no other", file=sys.stderr)
        return 4
    packed = packed_page()
    if packed is None:
        return 4
    sys.stdout.buffer.write(opened(packed, inputs).encode())
    return 0


def packed_page() -> str | None:
    """The workbench without inputs: in a clone of the program of its sources, and elsewhere the released one. None where it can't be made, which is said."""
    if repository():
        made = subprocess.run([f"{ROOT}/tools/keep-wasm", "--any"], stdout=subprocess.PIPE, text=True)
        return Path(made.stdout.strip()).read_bytes().decode() if made.returncode == 0 else None
    try:
        return octets_of(PAGE).decode()
    except (NoProgram, OSError) as why:
        print(f"explain: {why}", file=sys.stderr)
        return None


def opened(page: str, inputs: list[dict[str, str]]) -> str:
    """A packed page that has these inputs before its examples, and opens with the first. No hash of its policy is about them."""
    if page.count(EMPTY) != 1:
        raise ValueError("the page has no place for inputs")
    return page.replace(EMPTY, EMPTY.replace("[]", json.dumps(inputs, ensure_ascii=False).replace("<", "\\u003c")))


def name_of_input() -> str:
    """The name of the file that standard input is, where the system says it."""
    try:
        path = os.readlink("/proc/self/fd/0")
    except OSError:
        return ""
    return shown_name(path) if os.path.isfile(path) else ""

"""The repository that this package lies in, its programs, and the parts that `./check` and `./measure` are made of."""

from __future__ import annotations

import ast
import importlib
import os
import re
import subprocess
import sys
from collections.abc import Callable

from workshop.words import Words

ROOT = os.path.dirname(os.path.dirname(os.path.dirname(os.path.realpath(__file__))))
FOLDER = f"{ROOT}/python/workshop"
MAIN = re.compile(r"^def main\(", re.MULTILINE)


def any_program() -> str | None:
    """The program of the present sources: the proved one, or else the one that was built without proofs. None where neither is kept."""
    program = subprocess.run([f"{ROOT}/tools/program"], stdout=subprocess.PIPE, text=True).stdout.strip()
    if program.endswith("-unproved"):
        print("with the program that is not proved yet (./build proves it)")
    return program or None


def proved_program(root: str = ROOT) -> str:
    """The program that ./build keeps for the sources of a clone. Where there is none, it says so and ends."""
    program = subprocess.run([f"{root}/tools/kept-program"], capture_output=True, text=True, check=True).stdout.strip()
    if not os.path.isfile(program):
        sys.exit(f"there is no proved program of the sources of {root}: ./build there makes it")
    return program


def read_octets(path: str) -> bytes:
    """The octets of a file."""
    with open(path, "rb") as file:
        return file.read()


# ---- parts


def text_of(path: str) -> str:
    with open(path, encoding="utf-8") as file:
        return file.read()


def names_of(kind: str) -> list[str]:
    """The modules of a folder of the package that have a function `main`."""
    files = sorted(it for it in os.listdir(f"{FOLDER}/{kind}") if it.endswith(".py"))
    return [it.removesuffix(".py") for it in files if MAIN.search(text_of(f"{FOLDER}/{kind}/{it}"))]


def said_of(kind: str, name: str) -> str:
    """What a module says of itself."""
    return (ast.get_docstring(ast.parse(text_of(f"{FOLDER}/{kind}/{name}.py"))) or "").strip()


def list_all(kind: str) -> None:
    """Prints what parts of a kind there are, a line each."""
    for name in names_of(kind):
        print(f"  {name:10} {said_of(kind, name).splitlines()[0]}", flush=True)


def run(kind: str, command: str, name: str, words: list[str]) -> int:
    """Runs one part of a kind for a command, and gives its status."""
    names = names_of(kind)
    if name not in names:
        print(f"there is no {command} called {name}; there are {', '.join(names)}", file=sys.stderr)
        return 1
    sys.argv = [f"{command} {name}", *words]
    part = importlib.import_module(f"workshop.{kind}.{name}")
    if not {"Words", "argparse"} & {*vars(part)}:  # it takes no words
        Words(part.__doc__).asked()
    main: Callable[[], int | None] = part.main
    return main() or 0

"""The commands of the package, as pip installs them: `dorydate COMMAND`, `python -m dorydate COMMAND` and `arpasim`."""

from __future__ import annotations

import argparse
import os
import sys
from collections.abc import Callable
from importlib import import_module
from pathlib import Path

from dorydate import ending
from dorydate.by_node import ByNode
from dorydate.program import NoProgram
from dorydate.released import PAGE, is_released, note, octets_of
from dorydate.where import ROOT, examples_folder, found

# modules that have a `main` each
LONGER = {it: f"dorydate.{it}.command" for it in ("conformance", "explain", "explore", "export", "live")}
LONGER["keeps"] = "dorydate.contract.command"
USAGE = """usage: dorydate explain [--chart | --page | --audit | ..] FILE   says what each line does, and why
       dorydate explore ..                     finds a short script that prints what one asks for
       dorydate export --FORMAT FILE           writes a replay for Wireshark, ShiViz or Perfetto
       dorydate conformance COMMAND..          has dialogues with a host's program that you wrote
       dorydate keeps LOG [--host H]           says which rule of the protocol a host breaks, by its own log
       dorydate live TOPOLOGY --bind ..        runs a network whose strangers are real hosts, over UDP and TCP
       dorydate examples [NAME]                lists the examples, or prints one
       dorydate page > dorydate.html           writes the workbench, a page for a browser
       dorydate schema                         prints the JSON Schema of a line of a trace
       dorydate completion bash | zsh | fish   prints what that shell needs to complete these commands
       dorydate version                        says which program runs here, and what it comes from

`arpasim FILE` replays an input, and `arpasim --help` has its options.
Try: dorydate examples first-message | dorydate explain"""


class Refused(Exception):
    """Why a command does nothing."""


def names_of_examples() -> list[str]:
    """The names of the examples: files without a point in their names."""
    folder = examples_folder()
    return sorted(it.name for it in folder.iterdir() if "." not in it.name and it.is_file()) if folder.is_dir() else []


def examples(words: argparse.ArgumentParser) -> None:
    """Lists the examples, or prints one."""
    words.add_argument("name", nargs="?", metavar="NAME", help="the example to be printed")
    name, names = words.parse_args().name, names_of_examples()
    if name is None:
        print(*names, sep="\n")
    elif name in names:
        sys.stdout.buffer.write((examples_folder() / name).read_bytes())
    else:
        raise Refused(f"there is no example {name}; `dorydate examples` lists all")


def page(words: argparse.ArgumentParser) -> None:
    """Writes the workbench, a page for a browser."""
    words.parse_args()
    sys.stdout.buffer.write(octets_of(PAGE) if is_released() else (ROOT / "released" / PAGE).read_bytes())


def version(words: argparse.ArgumentParser) -> None:
    """Says which program runs here, and what the release says of it."""
    words.parse_args()
    program = found()
    print(f"program: {program.path}{' (by Node)' if isinstance(program, ByNode) else ''}")
    said = note() if is_released() else {}
    for key in ("version", "commit", "sources", "toolchain", "mark", "gate"):
        if key in said:
            print(f"{key}: {said[key]}")


def completion(words: argparse.ArgumentParser) -> None:
    """Prints what a shell needs to complete the commands."""
    from dorydate import completion as made

    words.add_argument("shell", choices=made.SHELLS, help="the shell")
    shell = words.parse_args().shell
    known = made.commands(found().run(b"", "--help").output, [*SHORT], names_of_examples())
    print(made.script(shell, known), end="")


def schema(words: argparse.ArgumentParser) -> None:
    """Prints the JSON Schema of a line of a trace."""
    words.parse_args()
    print(Path(__file__).with_name("trace.schema.json").read_text(encoding="utf-8"), end="")


SHORT: dict[str, Callable[[argparse.ArgumentParser], None]] = {
    "completion": completion,
    "examples": examples,
    "page": page,
    "schema": schema,
    "version": version,
}


def run_short(name: str) -> int:
    """The status of a command that this module has itself."""
    try:
        SHORT[name](argparse.ArgumentParser(f"dorydate {name}", description=SHORT[name].__doc__))
    except (Refused, NoProgram) as why:
        print(f"dorydate: {why}", file=sys.stderr)
        return 1
    return 0


def main() -> int:
    """The command `dorydate`. The status."""
    if sys.argv[1:] in (["--help"], ["-h"]):
        print(USAGE)
        return 0
    if sys.argv[1:2] == [] or sys.argv[1] not in {*LONGER, *SHORT}:
        print(USAGE, file=sys.stderr)
        return 1
    name = sys.argv.pop(1)
    if name in SHORT:
        return ending.run("dorydate", lambda: run_short(name))
    command: Callable[[], int | None] = import_module(LONGER[name]).main
    return ending.run(name, command)


def arpasim() -> int:
    """The command `arpasim`, in the place of this process: the program over an input that may be named."""
    try:
        program = found()
    except NoProgram as why:
        print(f"arpasim: {why}", file=sys.stderr)
        return 1
    examples, words = str(examples_folder()), sys.argv[1:]
    if isinstance(program, ByNode):
        env = {**os.environ, "DORYDATE_EXPLAIN": "1", "DORYDATE_EXAMPLES": examples}
        os.execvpe("node", ["node", str(Path(program.path).with_name("named.mjs")), *words], env)
    os.execv("/bin/sh", ["sh", str(Path(__file__).with_name("arpasim.sh")), program.path, examples, *words])


if __name__ == "__main__":
    sys.exit(main())

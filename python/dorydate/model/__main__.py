"""Runs an input by the independent model of the rules, without the program: tools/model [--book] [--check] [--texts] [FILE]

With --log it prints the log, with --trace the trace, and with --audit it judges a log. With --cases FOLDER it runs each file of a
folder, with the options of NAME.args, and compares what it prints with NAME.stdout. Of TOML it reads the plain spelling that the
examples have, one key a line.
"""

from __future__ import annotations

import argparse
import sys
from collections.abc import Sequence
from pathlib import Path

from dorydate import ending
from dorydate.model.inputs import BAD_TOPOLOGY
from dorydate.model.log import ends_log
from dorydate.model.runs import BAD_ARGUMENTS, CANNOT_READ, End, asked, expected, network_is_good
from dorydate.model.topology import network_of
from dorydate.model.trace import ends_trace
from dorydate.model.trace_world import ends_world
from dorydate.model.verdict import ends_audit


def ends(octets: bytes, options: Sequence[str]) -> End:
    """How the program has to end on an input."""
    if [*options] == ["--audit"]:
        return ends_audit(octets)
    lines = octets.decode("latin-1").split("\n")
    if "%" not in lines:
        return BAD_TOPOLOGY
    marker = lines.index("%")
    try:
        network, script = network_of("\n".join(lines[:marker])), lines[marker + 1 :]
    except (KeyError, ValueError):
        sys.exit("model: the topology isn't read here: one key with its value a line")
    if [*options] == ["--log"] and network_is_good(network, ["worlds"]):
        return ends_log(network, script)
    if [*options] == ["--trace"] and network_is_good(network, ["worlds"]):
        return ends_trace(network, script) if network.raw else ends_world(network, script)
    return expected(options, network, script)


def ends_named(words: Sequence[str]) -> End:
    """How the program has to end on the input that these words name."""
    named = asked(words)
    if named is None:
        return BAD_ARGUMENTS
    name, options = named
    try:
        octets = sys.stdin.buffer.read() if name == "-" else Path(name).read_bytes()
    except OSError:
        return CANNOT_READ
    return ends(octets, options)


def read(path: Path) -> bytes:
    """The octets of a file, none where there is no such file."""
    return path.read_bytes() if path.exists() else b""


def check_cases(folder: str) -> int:
    """Whether a case of a folder prints something else than its file says."""
    wrong, names = 0, [it.with_suffix("") for it in sorted(Path(folder).glob("*.stdout"))]
    for name in names:
        named = asked(read(name.with_name(f"{name.name}.args")).decode().split())
        status, output, said = ends(read(name), named[1]) if named else BAD_ARGUMENTS
        if output != read(name.with_name(f"{name.name}.stdout")).decode():
            wrong += 1
            print(f"model: {name} ends with {status} {said.strip()} and prints\n{output}")
    print(f"model: {len(names)} cases of {folder}, {wrong} wrong")
    return 1 if wrong else 0


def main() -> int:
    """The exit status."""
    words = argparse.ArgumentParser("tools/model", description=__doc__, allow_abbrev=False)
    words.add_argument("--cases", nargs="+", metavar="FOLDER", help="run stored inputs")
    given, asked_words = words.parse_known_args()
    if given.cases:
        return max(check_cases(folder) for folder in given.cases)
    status, output, said = ends_named(asked_words)
    print(output, end="")
    print(said, end="", file=sys.stderr)
    return status


if __name__ == "__main__":
    sys.exit(ending.run("model", main))

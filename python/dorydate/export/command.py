"""The command ./export: a replay in the format of another tool."""

from __future__ import annotations

import argparse
import sys
from collections.abc import Sequence
from pathlib import Path

from dorydate import ending, named
from dorydate.export import chart, pcapng, perfetto, shiviz, wire
from dorydate.export.replayed import Replayed, replayed
from dorydate.inside import CannotFollow, state_of
from dorydate.network import BadNetwork
from dorydate.printed import refusal
from dorydate.program import MOST_OCTETS, NoProgram, Program, TookTooLong
from dorydate.where import found, here
from dorydate.deeds import Stopped
from dorydate.script import BadLine, Script
from dorydate.state import State
from dorydate.trace import BadTrace

DISSECTOR = Path(__file__).with_name("dorydate.lua")
FORMATS = {
    "pcapng": "a capture of what crosses the interfaces of hosts, for Wireshark",
    "perfetto": "a trace for Perfetto and Chrome: messages, connections and frames on tracks, and counters",
    "shiviz": "a log with vector clocks, for ShiViz",
    "svg": "a slide: the map after an event, and the chart of what crossed",
}


def events(word: str) -> int:
    """A number of events."""
    if not word.isdecimal():
        raise argparse.ArgumentTypeError(f"{word} is no number of events")
    return int(word)


def parser() -> argparse.ArgumentParser:
    about = "Writes the replay of an input in the format of another tool: ./export --pcapng INPUT > FILE"
    made = argparse.ArgumentParser(here("./export"), description=f"{here(about)} (docs/export.md)")
    which = made.add_mutually_exclusive_group(required=True)
    for name, what in FORMATS.items():
        which.add_argument(f"--{name}", action="store_const", const=name, dest="format", help=what)
    of_wire = "what crossed the wire of a live network, for Wireshark; its file `wire` is the input"
    which.add_argument("--wire", action="store_const", const="wire", dest="format", help=of_wire)
    which.add_argument("--dissector", action="store_true", help="print the path of the dissector for Wireshark, which reads what --pcapng writes")
    made.add_argument("file", nargs="?", metavar="INPUT", help="the input, else standard input")
    made.add_argument("--after", type=events, metavar="N", help="of a slide: after this many events (all of them)")
    return made


def written(format: str, script: Script, after: int | None) -> bytes:
    """The replay of a script in a format."""
    program = found()
    if format == "pcapng":
        return pcapng.capture(replayed(script, program))
    if format == "shiviz":
        return shiviz.log(replayed(script, program)).encode("utf-8", "replace")
    if format == "perfetto":
        return perfetto.trace(replayed(script, program, True)).encode("utf-8", "replace")
    what = replayed(script, program)
    step = len(what.events) if after is None else max(0, min(after, len(what.events)))
    return chart.slide(what, state_after(what, program, step), step).encode("utf-8", "replace")


def state_after(what: Replayed, program: Program, step: int) -> State:
    """The state after this many events, of which those that were refused changed nothing; an empty one where it can't be known."""
    kept = [it.event for it in what.events[:step] if refusal(list(map(str, it.lines))) is None]
    try:
        return state_of(program, what.network, kept)
    except CannotFollow:
        return State(what.network, {})


def main(words: Sequence[str] | None = None) -> int:
    chosen = parser().parse_args(words)
    if chosen.dissector:
        print(DISSECTOR)
        return 0
    named.open_input(chosen.file)
    if sys.stdin.isatty():
        print("export: reading from the terminal; Ctrl-D ends the input", file=sys.stderr)
    try:
        if chosen.format == "wire":
            octets = wire.capture(sys.stdin.buffer.read().decode("latin-1"))
        else:
            octets = written(chosen.format, Script.of_octets(sys.stdin.buffer.read(MOST_OCTETS + 1)), chosen.after)
    except (BadLine, BadNetwork, BadTrace, Stopped, NoProgram, TookTooLong) as why:
        print(f"export: {why}", file=sys.stderr)
        return 1
    sys.stdout.buffer.write(octets)
    return 0


def run() -> int:
    """The command as `pip` installs it."""
    return ending.run("export", main)

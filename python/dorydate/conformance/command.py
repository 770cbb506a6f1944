"""The command: dorydate conformance [--only NAME].. [--worlds N] [--script] [--log FOLDER] COMMAND..

Starts COMMAND, with the host's name as one more word, for each dialogue and each random world, and says whether what it
answers is right. With --script it prints what was done where that goes wrong: a script for ./explain, or the program's
own log for `dorydate keeps`. With --log it also writes, of each dialogue over the proved subnet, a log in which the
lives of the program are those that it reports, for `arpasim --audit`. The status is 0 if all is right, else 1.
"""

from __future__ import annotations

import argparse
import sys
from pathlib import Path

from dorydate.conformance.dialogues import DIALOGUES
from dorydate.conformance.steps import MINE, Dialogue
from dorydate.conformance.trial import Finding, Trial
from dorydate.conformance.underway import UNDERWAY, UnderWay
from dorydate.conformance.worlds import found_in
from dorydate.coupling import Mute, Process
from dorydate.program import NoProgram

WORLDS = 40  # random ones that are tried, unless another number is named


def parser() -> argparse.ArgumentParser:
    """The words of the command line."""
    made = argparse.ArgumentParser(
        prog="dorydate conformance", description="Has dialogues with a host's program that somebody else wrote."
    )
    names = [it.name for it in (*DIALOGUES, *UNDERWAY)]
    made.add_argument("--list", action="store_true", help="list the dialogues, and run nothing")
    made.add_argument("--only", action="append", metavar="NAME", choices=names, help="a dialogue; may be given again")
    made.add_argument("--worlds", type=int, metavar="N", help=f"random worlds to try ({WORLDS}; with --only none)")
    made.add_argument("--script", action="store_true", help="print what was done where that goes wrong")
    made.add_argument("--log", metavar="FOLDER", help="write a log of each dialogue, with the lives of the program")
    made.add_argument("command", nargs=argparse.REMAINDER, help="the program, which hears and answers lines")
    return made


def arguments() -> argparse.Namespace:
    """What the command is asked for."""
    words = parser()
    asked = words.parse_args()
    if not asked.list and not asked.command:
        words.error("which program? For example: python3 examples/ncp.py")
    if asked.worlds is None:
        asked.worlds = 0 if asked.only else WORLDS
    return asked


def had(command: list[str], dialogue: Dialogue, log: Path | None = None) -> tuple[Finding | None, str]:
    """A dialogue with a program that is started for it: what is wrong, and the script of what was done."""
    program = Process([*command, MINE])
    try:
        if dialogue in UNDERWAY:
            under_way = UnderWay(program, dialogue)
            return under_way.finding(), "\n".join(under_way.mine.log)
        trial = Trial(program, dialogue)
        found = trial.finding()
        if log is not None:
            (log / dialogue.name.replace(" ", "-")).write_text(trial.mine.log(), encoding="ascii")
        return found, trial.net.text
    finally:
        program.end()


def in_world(command: list[str], seed: int) -> tuple[str | None, str]:
    """A random world with a program that is started for it, and again after each stop of its host."""
    started: list[Process] = []

    def start() -> Process:
        started.append(Process([*command, MINE]))
        return started[-1]

    try:
        found = found_in(seed, start)
        return (str(found), "\n".join(found.log)) if found else (None, "")
    finally:
        for it in started:
            it.end()


def dialogues(asked: argparse.Namespace) -> list[Dialogue]:
    """Those that are asked for."""
    return [it for it in (*DIALOGUES, *UNDERWAY) if not asked.only or it.name in asked.only]


def trials(asked: argparse.Namespace) -> int:
    """Has all dialogues and worlds that are asked for: how many are wrong."""
    wrong = 0
    log = Path(asked.log) if asked.log else None
    if log is not None:
        log.mkdir(parents=True, exist_ok=True)
    for dialogue in dialogues(asked):
        found, script = had(asked.command, dialogue, log)
        wrong += found is not None
        print(f"wrong  {dialogue.name}: {found}" if found else f"right  {dialogue.name}", flush=True)
        if found and asked.script:
            print(script)
    for seed in range(asked.worlds):
        why, script = in_world(asked.command, seed)
        wrong += why is not None
        if why:
            print(f"wrong  {why}", flush=True)
            if asked.script:
                print(script)
    return wrong


def main() -> int:
    """The status."""
    asked = arguments()
    if asked.list:
        for it in dialogues(asked):
            print(f"{it.name}: {it.rule}")
        return 0
    try:
        wrong = trials(asked)
    except (Mute, NoProgram) as why:
        print(f"conformance: {why}", file=sys.stderr)
        return 1
    print(f"{len(dialogues(asked))} dialogues and {asked.worlds} random worlds, {wrong} wrong")
    return 1 if wrong else 0

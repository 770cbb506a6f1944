"""The command: dorydate keeps LOG [--host H] [--without RULE].. [--whole]; dorydate keeps --rules

Holds each host of a log to the contract by its own lines only: which rule it breaks, at which line, and what breaks in
a network because of it. A log has what one host, or several, heard and said (docs/contract.md), or is one of
`arpasim --log`. The status is 0 if all keep it, 1 if not or if the log can't be read.
"""

from __future__ import annotations

import argparse
import sys
from collections.abc import Iterator
from pathlib import Path

from dorydate.contract.keeps import Verdict, judge, judged
from dorydate.contract.logs import BadLog, read_log
from dorydate.contract.rules import RULES, STANDARD, Rule


def parser() -> argparse.ArgumentParser:
    """The words of the command line."""
    made = argparse.ArgumentParser(
        prog="dorydate keeps", description="Says whether each host of a log keeps the contract, by its own lines only."
    )
    made.add_argument("log", nargs="?", help="the log; `-` is standard input")
    made.add_argument("--host", metavar="H", help="only this host, as 0/2")
    without = "don't ask for a rule; may be given again"
    made.add_argument("--without", action="append", default=[], choices=[*RULES], metavar="RULE", help=without)
    made.add_argument("--whole", action="store_true", help="the log begins when its hosts start")
    made.add_argument("--rules", action="store_true", help="list the rules")
    return made


def arguments() -> argparse.Namespace:
    """What the command is asked for."""
    words = parser()
    asked = words.parse_args()
    if not asked.rules and asked.log is None:
        words.error("which log?")
    return asked


def of_rule(rule: Rule) -> Iterator[str]:
    """What there is to say of a rule."""
    yield f"  the rule: {rule.says} ({STANDARD}, {rule.section})"
    yield f"  without it: {rule.why}" + (f" ({rule.script})" if rule.script else "")


def in_words(verdict: Verdict) -> Iterator[str]:
    """The lines of a verdict."""
    if verdict.rule is None:
        yield f"{verdict.host} keeps the contract" + (", as far as its log goes" if verdict.how_far else "")
    else:
        words = " ".join(verdict.words)
        yield f"{verdict.host} breaks `{verdict.rule.name}` in line {verdict.line}: {verdict.why}"
        yield f"  line {verdict.line}: {words[:97]}..." if len(words) > 100 else f"  line {verdict.line}: {words}"
        yield from of_rule(verdict.rule)
    yield from (f"  of this log: {it}" for it in verdict.how_far)


def opened(path: str) -> Iterator[str]:
    """The lines of a file. What isn't ASCII is in no line of a log, and stays one character for each octet."""
    octets = sys.stdin.buffer.read() if path == "-" else Path(path).read_bytes()
    return iter(octets.decode("latin-1").split("\n"))


def main() -> int:
    """The status."""
    asked = arguments()
    if asked.rules:
        for rule in RULES.values():
            print(rule.name, *of_rule(rule), sep="\n")
        return 0
    try:
        log = read_log(opened(asked.log))
    except BadLog as why:
        print(f"keeps: {why}", file=sys.stderr)
        return 1
    if asked.host and asked.host not in log.hosts:
        print(f"keeps: the log has no line of {asked.host}; it has some of {', '.join(log.hosts)}", file=sys.stderr)
        return 1
    how = asked.without, asked.whole
    verdicts = [judge(log, asked.host, *how)] if asked.host else judged(log, *how)
    for it in verdicts:
        print(*in_words(it), sep="\n")
    return 0 if verdicts and all(it.is_kept for it in verdicts) else 1

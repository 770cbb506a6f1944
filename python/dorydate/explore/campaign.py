"""Campaigns: a search for each row of a table and each of its seeds, and a table of what they found.

The table is CSV. Its first row names the columns, of which any may be left out or empty:

| Column | Of each row |
|---|---|
| `search` | a search with a name, whose network, pattern and kinds the other columns may replace |
| `network`, `raw`, `carrier` | chains of sites as in `--network`, separated by spaces; `yes` for a raw network; `plain` or `subnet` |
| `foreign` | hosts of that network that are strangers, separated by spaces |
| `pattern`, `kinds` | what is looked for, and the kinds of events, separated by spaces |
| `seeds` | numbers and ranges, as in `1-5 9`; 1 where nothing is said |
| `runs`, `matches` | schedules at most, and matches to shrink |
| `audit` | `yes` gives the log of each schedule to the proved audit |

The results have no times, so they are the same octets whoever looked at the schedules. They are written anew after each search.
"""

from __future__ import annotations

import csv
import io
import json
import re
import sys
import time
from collections.abc import Iterator, Mapping
from dataclasses import asdict, dataclass, fields
from pathlib import Path

from dorydate.explore.confirm import confirm
from dorydate.explore.engine import Workers, batches_of
from dorydate.explore.kinds import pools
from dorydate.explore.named import SEARCHES
from dorydate.explore.pattern import BadPattern, read
from dorydate.explore.search import MATCHES, Job, NotKept, Progress
from dorydate.explore.state import State
from dorydate.network import BadNetwork, Network
from dorydate.program import Program

RUNS = 100_000  # schedules of a search, where the table says nothing
MOST_SEEDS = 1_000_000  # of one row
COLUMNS = ("search", "network", "raw", "carrier", "foreign", "pattern", "kinds", "seeds", "runs", "matches", "audit")


class BadTable(Exception):
    """What is wrong with the table of a campaign."""


@dataclass(frozen=True)
class Task:
    """A search of a campaign: the row of the table, counted from 1, its name, and what it does."""

    row: int
    name: str
    job: Job
    runs: int
    matches: int


@dataclass(frozen=True)
class Result:
    """What a search came to."""

    row: int
    search: str
    seed: int
    schedules: int
    matches: int
    first_after: int  # schedules until the first match
    kept: int  # logs that the audit calls kept
    events: int  # of the shortest script
    script: str
    wrong: str = ""  # what ended it early


class Campaign:
    """The searches of a table, and where their results go."""

    def __init__(self, tasks: list[Task], out: str) -> None:
        self.tasks, self.out = tasks, Path(out)
        if self.out.suffix not in (".csv", ".json"):
            raise BadTable(f"{out}: results go to a file that ends with .csv or .json")
        self.results: list[Result] = []
        self.begun, self.looked = time.monotonic(), 0

    @staticmethod
    def read(table: str, out: str) -> Campaign:
        """The campaign of a table."""
        reader = csv.DictReader(io.StringIO(table.removeprefix("\ufeff")))  # (as spreadsheets begin a file)
        try:
            if unknown := [it for it in reader.fieldnames or () if it not in COLUMNS]:
                raise BadTable(f"`{unknown[0][:40]}` is no column of a campaign; there are {', '.join(COLUMNS)}")
            tasks = [task for number, row in enumerate(reader, 1) for task in tasks_of(number, cells_of(number, row))]
        except csv.Error as why:
            raise BadTable(f"line {reader.line_num + 1}: {why}") from None
        if not tasks:
            raise BadTable("the table has no rows")
        return Campaign(tasks, out)

    def run(self, program: Program, workers: Workers | None, state: State | None, shows: bool) -> bool:
        """Runs all searches, and says whether nothing went wrong."""
        for number, task in enumerate(self.tasks, 1):
            self.results.append(self.searched(task, number, program, workers, state, shows))
            self.write()
        return not any(it.wrong for it in self.results)

    def searched(self, task: Task, number: int, program: Program, workers: Workers | None, state: State | None, shows: bool) -> Result:
        """What a search comes to."""
        name = f"{task.row} {task.job.seed}"
        search = task.job.search(program)
        search.progress = (state.resumed(name, task.job) if state else None) or search.progress
        before, shown, wrong = search.progress.schedules, 0.0, ""

        def keep(progress: Progress) -> None:
            nonlocal shown
            if state:
                state.keep(name, task.job, progress)
            if shows and time.monotonic() - shown > 2:
                shown = time.monotonic()
                self.show(task, number, progress, progress.schedules - before)

        try:
            search.run(task.runs, float("inf"), task.matches, None, batches_of(task.job, program, workers, search.progress.next), keep)
        except NotKept as why:
            wrong = str(why).splitlines()[0]
        self.looked += search.progress.schedules - before
        if state:
            state.keep(name, task.job, search.progress, True)
        if search.is_stopped:
            raise KeyboardInterrupt
        if search.progress.best is not None:
            confirm(search.network, search.pattern, search.progress.best, program)
        return result_of(task, search.progress, wrong)

    def show(self, task: Task, number: int, progress: Progress, looked: int) -> None:
        """A line for whoever waits: the rate, the best so far, and the time that is left if no search ends early."""
        rate = (self.looked + looked) / max(time.monotonic() - self.begun, 0.001)
        left = sum(it.runs for it in self.tasks[number:]) + max(task.runs - progress.schedules, 0)
        best = f"shortest {len(progress.best)} events" if progress.best is not None else "nothing found so far"
        print(f"explore: search {number} of {len(self.tasks)} ({task.name}, seed {task.job.seed}): {progress.schedules} schedules, {rate:.0f} a second; {best}; at most {left / max(rate, 0.001):.0f} s left", file=sys.stderr, flush=True)

    def write(self) -> None:
        """Writes the results."""
        rows = [asdict(it) for it in self.results]
        if self.out.suffix == ".json":
            self.out.write_text(json.dumps(rows, indent=1) + "\n", encoding="utf-8")
            return
        text = io.StringIO()
        writer = csv.DictWriter(text, [it.name for it in fields(Result)], lineterminator="\n")
        writer.writeheader()
        writer.writerows(rows)
        self.out.write_text(text.getvalue(), encoding="utf-8")


def result_of(task: Task, progress: Progress, wrong: str) -> Result:
    best = progress.best
    script = "; ".join(map(str, best)) if best is not None else ""
    counts = progress.schedules, progress.matches, progress.first_after, progress.kept
    return Result(task.row, task.name, task.job.seed, *counts, len(best) if best is not None else 0, script, wrong)


# ---- rows


def cells_of(number: int, row: Mapping[str | None, str | list[str] | None]) -> dict[str, str]:
    """The cells of a row by their columns; empty where there is none."""
    if None in row:
        raise BadTable(f"row {number}: it has more cells than there are columns")
    return {str(key): str(value or "") for key, value in row.items()}


def tasks_of(number: int, row: dict[str, str]) -> Iterator[Task]:
    """The searches of a row."""
    try:
        named = SEARCHES[row["search"]] if row.get("search") else None
        is_yes(row.get("raw", ""))
        carrier_of(row)
        network = network_of(row) if row.get("network") else named.network if named else None
        pattern = row.get("pattern") or (named.pattern if named else "")
        if network is None:
            raise BadTable("it names neither a search nor a network")
        read(pattern)
        kinds = tuple(row["kinds"].split()) if row.get("kinds") else named.kinds if named else ()
        if unknown := [it for it in kinds if it not in pools(network)]:
            raise BadTable(f"`{unknown[0][:40]}` is no kind of event of this network; there are {', '.join(pools(network))}")
        for seed in seeds_of(row.get("seeds") or "1"):
            job = Job(network.toml(), pattern, kinds, seed, is_yes(row.get("audit", "")))
            yield Task(number, row.get("search") or row["network"], job, number_of(row.get("runs", ""), RUNS), number_of(row.get("matches", ""), MATCHES))
    except KeyError as why:
        raise BadTable(f"row {number}: {why.args[0]!r} is no search with a name") from None
    except (BadTable, BadPattern, BadNetwork, ValueError) as why:
        raise BadTable(f"row {number}: {why}") from None


def network_of(row: dict[str, str]) -> Network:
    raw, foreign = is_yes(row.get("raw", "")), row.get("foreign", "").split()
    return Network.joined(*row["network"].split(), raw=raw, carrier=carrier_of(row), foreign=foreign)


def carrier_of(row: dict[str, str]) -> str:
    carrier = row.get("carrier") or "subnet"
    if carrier not in ("plain", "subnet"):
        raise BadTable(f"`{carrier}` is no carrier: `plain` or `subnet`")
    return carrier


def is_yes(word: str) -> bool:
    if word not in ("", "yes", "no"):
        raise BadTable(f"`{word}` is neither yes nor no")
    return word == "yes"


def number_of(word: str, other: int) -> int:
    if word and not re.fullmatch("0*[1-9][0-9]{0,17}", word):
        raise BadTable(f"`{word}` is no number of one or more")
    return int(word) if word else other


def seeds_of(words: str) -> list[int]:
    """Seeds, as in `1-5 9`."""
    seeds: list[int] = []
    for word in words.split():
        first, _, last = word.partition("-")
        if not re.fullmatch(r"[0-9]{1,18}(-[0-9]{1,18})?", word):
            raise BadTable(f"`{word[:40]}` is no seed, and no range of seeds")
        many = range(int(first), int(last or first) + 1)
        if len(seeds) + len(many) > MOST_SEEDS:
            raise BadTable(f"`{words[:40]}` are more than {MOST_SEEDS:,} seeds")
        seeds += many
    return seeds

"""A whole subnet against the independent model in Python, on random events (minutes): ./check subnet [RUNS]

Compares a whole subnet with an independent model of its rules, on random events.

The proofs say that `Subnet` does what its definitions say. Whether the definitions say what docs/subnet.md says is for
readers to judge; this script tries it as well. python/dorydate/model/subnet.py was written from those rules, in another language and
another form. Both run every event (python/dorydate/model/chance/subnets.py), and what crosses and what is refused has to be the same.
The same events are made each time.

First the model answers the stored rows (cases/calls) of subnets. The calls are made by tools/calls,
built without proofs (workshop.builds.drivers): ./check subnet [RUNS]
Networks of the greatest size, 63 IMPs and 157 lines, five at each IMP but one, are tried by ./check subnet largest [RUNS]
"""

from __future__ import annotations

import tempfile
from collections import Counter

from dorydate.model.chance.subnets import EVENTS, LARGEST_EVENTS, Chance
from dorydate.model.chance.worlds import spell_event
from workshop.builds.drivers import run_cases, write_case
from workshop.checks.readings import read_stored, told
from workshop.checks.subnet_rows import SubnetRows, open_subnet, spell_network
from workshop.rows import spelled
from workshop.words import Words

RUNS = 1000
LARGEST_RUNS = 200


# ---- the driver


def rows_of(chance: Chance, seen: Counter[str]) -> list[str]:
    """The rows of a run. Counts its events by what they came to."""
    reading = SubnetRows(chance.subnet)
    rows = [spell_network(chance.imps, chance.ends)]
    for event in chance.run():
        call = spell_event(*event)
        answers = reading.answers(call, [])
        rows += spelled(call, answers)
        seen[f"{event[0]}: {answers[0] if answers[0].split()[0] in ('refused', 'true', 'false') else 'done'}"] += 1
        seen["lines of crossings"] += len(answers) - 1
    return rows


def with_runs(folder: str, runs: int, is_largest: bool) -> Counter[str]:
    """Puts the rows of each run into a folder."""
    seen: Counter[str] = Counter()
    for run in range(runs):
        write_case(folder, f"{run:05}", rows_of(Chance(run, is_largest), seen))
    return seen


def main() -> int:
    """The exit status."""
    words = Words(__doc__)
    counted = f"networks of the greatest size; how many runs ({RUNS}, or {LARGEST_RUNS})"
    words.add_argument("words", nargs="*", metavar="[largest] [RUNS]", help=counted)
    asked = words.asked().words
    is_largest = asked[:1] == ["largest"]
    if len(counts := asked[is_largest:]) > 1 or not all(it.isdecimal() for it in counts):
        words.error(f"what is {counts[-1]}?")
    runs = int(counts[0]) if counts else LARGEST_RUNS if is_largest else RUNS
    is_stored = read_stored("subnet", open_subnet, "subnet")
    with tempfile.TemporaryDirectory() as folder:
        seen = with_runs(folder, runs, is_largest)
        said = run_cases(folder)
    events = LARGEST_EVENTS if is_largest else EVENTS
    return told("subnet", said, f"{runs * events} events in {runs} runs agree", seen, is_stored)

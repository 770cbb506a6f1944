"""Stored rows: calls on single layers, and what each answers (seconds; --write NAME): ./check rows [NAME..]

Rows are tests: calls that somebody wrote down, and what has to come of each by the formats and rules. Each file
cases/calls/NAME.rows is its own output: tools/calls, built without proofs, makes the calls, and what it prints has
to be the file. Where it is not, both are shown with file and line. A call that nothing is said of is refused.

./check rows --write NAME.. writes what came into the files, for an author who then reads whether it is right. Models in
Python answer the same rows: those of worlds and of replays here, with random calls on worlds, and the others in the
checks `imp`, `subnet`, `hosts`, `services` and `readers`.
"""

from __future__ import annotations

import tempfile
from collections import Counter

from workshop.builds.drivers import difference, made_driver, printed, run_cases, write_case
from workshop.checks.readings import read_stored, told
from workshop.checks.world_chance import rows_of
from workshop.checks.world_rows import open_program, open_world
from workshop.parts import text_of
from workshop.rows import BadRow, blocks_of, files
from workshop.words import Words

RUNS = 60  # of random calls on worlds
READ_BY = {
    "imp": "imp", "tables": "imp", "subnet": "subnet", "hosts": "hosts", "readers": "readers",
    "world": "rows", "program": "rows",
    **dict.fromkeys(("server", "user", "echo", "terminal"), "services"),
    **dict.fromkeys(("allocation", "bits", "boxes", "writers"), "readers"),
    **dict.fromkeys(("destinations", "line", "pieces", "routes", "sources"), "imp"),
}  # fmt: skip


def unanswered(name: str, text: str) -> list[str]:
    """The calls of a file that nothing is said of."""
    try:
        rows = [row for block in blocks_of(text) for row in block.rows()]
    except BadRow as why:
        return [f"{name}.rows, {why}"]
    return [f"{name}.rows, line {row.line}: nothing is said of {row.call}" for row in rows if not row.answers]


def check_file(program: str, name: str, path: str, seen: Counter[str]) -> list[str]:
    """What is wrong with a file. Counts its rows by layer."""
    text = text_of(path)
    wrong = unanswered(name, text)
    if wrong:
        return wrong
    for block in blocks_of(text):
        seen[block.opening.call.split()[0]] += sum(1 for _ in block.rows())
    said = difference(program, path)
    return [said] if said else []


def write_file(program: str, path: str) -> None:
    """Writes what came of the calls of a file."""
    text = printed(program, text_of(path))
    with open(path, "w", encoding="utf-8") as file:
        file.write(text)
    print(f"check rows: wrote what came of {path}: read it")


def compare_worlds() -> int:
    """Has the models answer the rows of worlds and of replays, and compares random calls on worlds. The status."""
    is_stored = read_stored("rows", open_program, "program") & read_stored("rows", open_world, "world")
    seen, count = Counter[str](), 0
    with tempfile.TemporaryDirectory() as folder:
        for run in range(RUNS):
            rows, came = rows_of(run)
            write_case(folder, f"{run:03}", rows)
            seen.update(came)
            count += sum(1 for row in rows if not row.startswith("= "))
        said = run_cases(folder)
    return told("rows", said, f"{count} calls on worlds in {RUNS} random runs agree", seen, is_stored)


def main() -> int:
    words = Words(__doc__).names("name", "a file of cases/calls; all, if none is named")
    asked, found = words.flag("write", "write what came into these files").asked(), files()
    names = asked.name
    if unknown := [it for it in names if it not in found]:
        words.error(f"there is no file cases/calls/{unknown[0]}.rows")
    chosen = {name: found[name] for name in names or found}
    program = made_driver()
    if asked.write:
        if not names:
            words.error("--write wants the names of files")
        for path in chosen.values():
            write_file(program, path)
        return 0
    seen: Counter[str] = Counter()
    wrong = [said for name, path in chosen.items() for said in check_file(program, name, path, seen)]
    for said in wrong:
        print(said)
    for layer, count in sorted(seen.items()):
        reader = READ_BY.get(layer)
        print(f"  {layer}: {count} rows, {f'answered by the model of `check {reader}` too' if reader else 'of no model'}")
    came = f"{len(wrong)} files wrong" if wrong else "each as stored"
    print(f"check rows: {seen.total()} rows of {len(chosen)} files, {came}")
    if {"worlds", "programs"} & {*chosen}:
        return compare_worlds() or min(len(wrong), 1)
    return 1 if wrong else 0

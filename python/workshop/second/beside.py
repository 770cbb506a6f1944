"""Compares the judge of the definitions with the proved audit: of each log both have to say the same of each part."""

from __future__ import annotations

import functools
import glob
import itertools
import multiprocessing
import os
import subprocess
from collections import Counter
from collections.abc import Iterator
from concurrent.futures import ProcessPoolExecutor

from dorydate.definitions.promise import Judge, deeply
from dorydate.model.chance.books import of_world, small
from dorydate.model.chance.mixed_books import of_mixed_world, small_mixed
from dorydate.model.log import BadLog, read_log, spelled_log
from workshop.checks import log_rows
from workshop.parts import ROOT, any_program, read_octets

MOST_LINES = 90  # of a log: the judge's time grows with the square of its length
CHUNK = 25
# the parts of an audit, and those of the promise that say them. `one` of streams is a matter of *partners* there
PARTS = {
    "run": ("run",),
    "lives": ("formed", "within"),
    "messages": ("safe.messages",),
    "partners": ("safe.partners",),
    "streams": ("safe.streams.source", "safe.streams.sent"),
    "grants": ("safe.grants", "granted"),
    "closes": ("whole",),
    "fates": ("over", "contacts"),
}
UNLESS_MALFORMED = ("partners", "streams", "grants", "closes")  # an audit doesn't judge these of a malformed log
# of a log with strangers *toward* is of lives with them only, and what the promise says there is of all lives
TOWARD = {"streams", "grants", "toward"}
TOWARD_PARTS = ("toward.owner", "toward.taken", "toward.handed", *PARTS["streams"], *PARTS["grants"])


def logs(count: int) -> Iterator[tuple[str, bytes]]:
    """Some logs, each with what it is of."""
    for name, octets in itertools.chain(made_by_hand(), random_logs()):
        if count and octets.count(b"\n") <= MOST_LINES and is_log(octets):
            count -= 1
            yield name, octets
        if not count:
            return


def is_log(octets: bytes) -> bool:
    try:
        read_log(octets)
    except BadLog:
        return False
    return True


def random_logs() -> Iterator[tuple[str, bytes]]:
    """Logs of random books, of worlds and small ones, without strangers and with them."""
    for seed in itertools.count():
        yield f"world {seed}", spelled_log(of_world(seed)[1])
        yield f"small {seed}", spelled_log(small(seed))
        yield f"mixed {seed}", spelled_log(of_mixed_world(seed)[1])
        yield f"small mixed {seed}", spelled_log(small_mixed(seed))


def made_by_hand() -> Iterator[tuple[str, bytes]]:
    """Logs by hand, those of `logs`, and those of the examples."""
    yield from (("by hand", octets) for octets, _ in log_rows.rows())
    yield from (("of the audit's page", octets) for octets, _ in log_rows.rows_of_page())
    for path in sorted(glob.glob(f"{ROOT}/logs/*")) + sorted(glob.glob(f"{ROOT}/examples/*")):
        if "." not in os.path.basename(path):
            octets = read_octets(path)
            yield os.path.relpath(path, ROOT), audited(octets, "--log") if b"\n%\n" in octets else octets


@functools.cache
def program() -> str:
    """The program that judges; it is looked for once, before there are other processes."""
    found = os.environ.get("DORYDATE_PROGRAM") or any_program()
    assert found, "there is no program of these sources: ./build makes it"
    return found


def audited(octets: bytes, option: str = "--audit") -> bytes:
    """What the program prints of a log, or of an input."""
    return subprocess.run([program(), option], input=octets, capture_output=True, check=False).stdout


def compared(log: tuple[str, bytes]) -> tuple[Counter[str], list[str]]:
    """How often parts agree, by what they are, and where they don't."""
    name, octets = log
    book, said = read_log(octets), audited(octets).decode()
    broken = {line.split()[1] for line in said.splitlines() if line.startswith("broken")}
    judged = deeply(lambda: [it.part.name for it in JUDGE.judged(book) if it.holds is False])
    fails = [it.removeprefix("promise.").removeprefix("among.") for it in judged]
    # a life whose requests haven't crossed has no fate by the promise; of such a one the audit names *lives* only
    left_out = {*(["fates"] if "lives" in broken else []), *(UNLESS_MALFORMED if "malformed" in said else [])}
    asked = [(part, part in broken, names) for part, names in PARTS.items() if part not in left_out]
    if book.strangers and "malformed" not in said:
        asked.append(("toward, or streams or grants", bool(broken & TOWARD), TOWARD_PARTS))
    seen: Counter[str] = Counter(
        {"logs": 1, "logs with strangers": bool(book.strangers), "logs that are kept": said == "kept\n"}
    )
    wrong = []
    for part, is_broken, names in asked:
        found = [it for it in fails if it.startswith(names)]
        seen[f"{part}: {'broken' if is_broken else 'kept'} by both"] += is_broken == bool(found)
        if is_broken != bool(found):
            wrong.append(
                f"{name}: the audit says {said.split(chr(10))}, and by the definitions {found} of {part} are broken"
            )
    return seen, wrong


JUDGE = Judge()


def beside_audit(count: int) -> tuple[Counter[str], list[str]]:
    """What these logs came to."""
    seen, wrong = Counter[str](), list[str]()
    with ProcessPoolExecutor(max(1, (os.cpu_count() or 2) // 2), multiprocessing.get_context("fork")) as processes:
        for found, faults in processes.map(compared, [*logs(count)], chunksize=CHUNK):
            seen += found
            wrong += faults
    return seen, wrong

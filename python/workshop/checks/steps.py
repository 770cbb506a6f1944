"""What is left where memory runs out in an event: the book before it, and calls that are refused (three minutes; it needs a C compiler).

Refuses one allocation after another, one in each run, of worlds and carriers to which the events of INPUTS happen one by one.

tools/steps.rs makes the calls and looks: the event answers that memory ran out, the book, and of a carrier by itself the log, is what
it was before that event, and every later call is refused as stopped. A run in which an allocation is refused and no event
answers so has to have run out of memory elsewhere, as in making the world.

The program is built without proofs (workshop.builds.unproved), once for the present sources.
"""

from __future__ import annotations

import hashlib
import os
import shutil
import subprocess
import tempfile
from collections import Counter
from concurrent.futures import ThreadPoolExecutor
from itertools import count

from dorydate.model.inputs import network_in
from workshop.builds.drivers import with_crate
from workshop.parts import ROOT
from workshop.tools import lacking
from workshop.builds.unproved import build, keep, kept_for_sources
from workshop.words import Words

INPUTS = (
    "examples/first-message", "examples/three-imps-in-a-row", "examples/resets-that-cross",
    "examples/a-reset-that-fails-and-one-that-works", "examples/sent-within-the-allocation-and-asked-back",
    "cases/scenes_show_what_was_written_down/a_server_a_user_and_a_terminal",
)  # fmt: skip
USES = "interface leader1822 net_sim script sockets subnet world_script"
EXAMPLE, WANTED = b"raw plain 2\ntake 0/1\n", b"end\n"
SEEN = {(3, "stopped\n"): "in events", (4, "no memory outside of events\n"): "elsewhere"}
CORES = os.cpu_count() or 1


def kept_at() -> str:
    """Where the program of the present sources is kept."""
    with open(f"{ROOT}/tools/steps.rs", "rb") as file:
        return f"{ROOT}/out/{hashlib.sha256(kept_for_sources().encode() + file.read()).hexdigest()}/steps"


def events_of(name: str) -> bytes:
    """What the program reads for an input, whose IMPs are in a row and have a host each."""
    with open(f"{ROOT}/{name}", "rb") as file:
        topology, script = file.read().split(b"\n%\n", 1)
    network = network_in(topology)
    assert network.imps == [(number, 1) for number in range(1, len(network.imps) + 1)] and not network.foreign
    return f"{'raw' if network.raw else 'world'} {network.carrier} {len(network.imps)}\n".encode() + script


def check(program: str, before: str, room: str, name: str, threads: ThreadPoolExecutor) -> int:
    """How many allocations of an input are refused otherwise than they should be."""
    octets = events_of(name)

    def refuse(number: int) -> tuple[int, str] | None:
        """What a run comes to in which an allocation is refused; None where there is no such allocation."""
        told = f"{room}/{number}"
        variables = {"LD_PRELOAD": before, "TOLD": told, "FAIL_ALLOCATION": str(number)}
        ran = subprocess.run([program], input=octets, capture_output=True, text=False, env=variables, timeout=300)
        if not os.path.exists(told):
            return None
        os.remove(told)
        return ran.returncode, ran.stdout.decode()

    whole = subprocess.run([program], input=octets, capture_output=True, timeout=300)
    seen, wrong = Counter[str](), int((whole.returncode, whole.stdout) != (0, WANTED))
    for start in count(1, 4 * CORES):
        found = list(threads.map(refuse, range(start, start + 4 * CORES)))
        for number, it in enumerate(found, start):
            if it in SEEN:
                seen[SEEN[it]] += 1
            elif it is not None:
                wrong += 1
                print(f"{name}: allocation {number}: {it}")
        if None in found:
            break
    print(f"{name}: allocations refused in turn: {dict(seen)}")
    return wrong if seen["in events"] else wrong + 1


def main() -> int:
    words = Words(__doc__).names("input", f"an example; these, if none is named: {', '.join(INPUTS)}")
    names = words.asked().input or INPUTS
    compiler = shutil.which("cc") or shutil.which("clang")
    if not compiler:
        lacking("steps", "all of it", "a C compiler")
        return 1 if os.environ.get("CI") else 0
    if not os.path.exists(kept_at()):
        source = {f"{ROOT}/tools/steps.rs": "main.rt"}
        keep(kept_at, lambda room: build(with_crate(f"{room}/sources", "steps", USES, source), EXAMPLE, WANTED, room))
    with tempfile.TemporaryDirectory() as room, ThreadPoolExecutor(CORES) as threads:
        before = f"{room}/failing.so"
        subprocess.run([compiler, "-O1", "-shared", "-fPIC", "-o", before, f"{ROOT}/tools/failing.c", "-ldl"], check=True)
        wrong = sum(check(kept_at(), before, room, name, threads) for name in names)
    print(f"check steps: {wrong} wrong" if wrong else "check steps: each event that runs out of memory leaves all as it was")
    return 1 if wrong else 0

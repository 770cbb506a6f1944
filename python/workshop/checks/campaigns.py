"""Searches by several processes and a cluster, killed workers and killed searches: the same answer, octet for octet (two minutes): ./check campaigns

A search with a fixed seed runs by 1, 2 and 4 processes, with a worker that is killed, and once killed itself and continued from its state.
Where dask.distributed is installed it also runs over a cluster of this machine's processes, one of which is killed. So
does a campaign, whose table of results has to be the same. Bad inputs, and workers without the package or with another
program, have to be refused in one line each, and the state of a search stays as it was.
"""

from __future__ import annotations

import importlib.util
import os
import shutil
import signal
import socket
import subprocess
import sys
import tempfile
import time
from collections.abc import Iterator, Sequence
from contextlib import contextmanager
from pathlib import Path

from workshop.parts import ROOT, any_program
from workshop.tools import left_out

SEARCH = ["half-open", "--seed", "3", "--matches", "2", "--quiet"]
TABLE = "search,network,raw,pattern,seeds,runs,matches,audit\nresets-in-step,,,,1-2,2000,1,\n,A-B,yes,out A B N .. then not out A B N .. then in A B N .. then not out A B N .. then in A B N ..,1,400,,yes\n"
SCHEDULER = ["-m", "distributed.cli.dask_scheduler", "--no-dashboard", "--no-show"]
GONE = "doesn't answer any more"
WAITS = 60.0  # seconds for a cluster to begin
BAD = {
    "another network": (["resets-in-step", "--state", "STATE"], "is of a search with another network"),
    "another program": (["half-open", "--state", "STATE"], "is of another program"),
    "no state": (["half-open", "--state", "TABLE"], "is no state of a search"),
    "half of a state": (["half-open", "--state", "HALF"], "is no state of a search"),
    "no cluster": (["half-open", "--cluster", "tcp://127.0.0.1:9"], "doesn't answer"),
    "a column that isn't there": (["--campaign", "COLUMN", "--out", "out.csv"], "is no column of a campaign"),
    "a seed that is none": (["--campaign", "SEED", "--out", "out.csv"], "is no seed"),
    "no place for results": (["--campaign", "TABLE"], "needs --out"),
    "results of another kind": (["--campaign", "TABLE", "--out", "out.txt"], "ends with .csv or .json"),
}


class Runs:
    """Runs of `./explore` in a folder."""

    def __init__(self, folder: str, program: str) -> None:
        self.folder = Path(folder)
        self.env = {**os.environ, "DORYDATE_PROGRAM": program, "PYTHONPATH": f"{ROOT}/python", "PYTHONWARNINGS": "ignore"}

    def begun(self, *words: str) -> subprocess.Popen[str]:
        return subprocess.Popen([f"{ROOT}/explore", *words], stdout=subprocess.PIPE, stderr=subprocess.PIPE, text=True, env=self.env, cwd=self.folder)

    def run(self, *words: str) -> tuple[int, str, str]:
        running = self.begun(*words)
        output, said = running.communicate()
        return running.returncode, output, said

    def in_one_line(self, *words: str) -> str:
        """The one line that a search is refused with; where it isn't, its status and all that it says."""
        status, _, said = self.run(*words, "--quiet")
        lines = [it for it in said.splitlines() if it.startswith("explore: ")]
        return lines[0] if status == 2 and len(lines) == 1 else f"status {status}, {said!r}"

    def with_a_kill(self, *words: str) -> tuple[str, bool]:
        """What a search prints, one of whose workers is killed, and whether it had to give out schedules again."""
        running = self.begun(*words)
        while running.poll() is None:
            time.sleep(0.02)
            if len(workers := children_of(running.pid)) > 1:
                os.kill(max(workers, key=spent), signal.SIGKILL)
                break
        output, said = running.communicate()
        return output, "given out again" in said

    def killed(self, state: Path, *words: str) -> str | None:
        """Kills a search as soon as its state has something in it. What is wrong with that, None where nothing is."""
        running = self.begun(*words)
        while running.poll() is None and not state.is_file():
            time.sleep(0.05)
        ended = running.poll() is not None
        running.kill()
        try:
            running.communicate(timeout=WAITS)  # its workers have to end, too: they hold the other end of what is read here
        except subprocess.TimeoutExpired:
            return "the workers of a search that was killed don't end"
        return "the search had ended before it was killed" if ended else None


def children_of(process: int) -> list[int]:
    try:
        return list(map(int, Path(f"/proc/{process}/task/{process}/children").read_text().split()))
    except OSError:
        return []


def spent(process: int) -> float:
    """Seconds of the processor that a process has used."""
    try:
        fields = Path(f"/proc/{process}/stat").read_text().rpartition(")")[2].split()
    except OSError:
        return 0.0
    return (int(fields[11]) + int(fields[12])) / os.sysconf("SC_CLK_TCK")


def local(runs: Runs) -> list[str]:
    """What is wrong with searches by processes of this machine."""
    wanted = runs.run(*SEARCH, "--cores", "1")[1]
    wrong = [] if wanted else ["nothing was found"]
    wrong += [f"{count} processes find something else" for count in (2, 4) if runs.run(*SEARCH, "--cores", str(count))[1] != wanted]
    found, killed = runs.with_a_kill(*SEARCH, "--cores", "2")
    wrong += [] if killed else ["no worker was killed"]
    wrong += [] if found == wanted else ["with a worker that is killed something else is found"]
    state = runs.folder / "state"
    wrong += filter(None, [runs.killed(state, *SEARCH, "--cores", "2", "--state", str(state))])
    wrong += [] if runs.run(*SEARCH, "--cores", "1", "--state", str(state))[1] == wanted else ["a search that was killed finds something else when it continues"]
    print(f"check campaigns: 1, 2 and 4 processes, a killed worker and a killed search: {'; '.join(wrong) or 'the same octets'}", flush=True)
    return wrong


def campaign(runs: Runs) -> list[str]:
    """What is wrong with a campaign."""
    table = runs.folder / "table.csv"
    table.write_text(TABLE, encoding="utf-8")
    results = []
    for cores in "1", "2":
        for kind in "csv", "json":
            out = runs.folder / f"results-{cores}.{kind}"
            runs.run("--campaign", str(table), "--out", str(out), "--cores", cores, "--quiet")
            results.append(out.read_text(encoding="utf-8") if out.is_file() else "")
    same = results[0] == results[2] and results[1] == results[3] and results[0].count("\n") == 4
    print(f"check campaigns: a campaign of {TABLE.count(chr(10)) - 1} rows: {'the same tables' if same else results}", flush=True)
    return [] if same else ["a campaign's tables differ"]


def refused(runs: Runs, other: Runs) -> list[str]:
    """What isn't refused in one line, or leaves the state of a search as it was."""
    files = {
        "STATE": runs.folder / "state",
        "TABLE": runs.folder / "table.csv",
        "COLUMN": runs.folder / "column.csv",
        "SEED": runs.folder / "seed.csv",
        "HALF": runs.folder / "half",
    }
    files["COLUMN"].write_text("search,speed\nhalf-open,9\n", encoding="utf-8")
    files["SEED"].write_text("search,seeds\nhalf-open,x\n", encoding="utf-8")
    before = files["STATE"].read_bytes()
    files["HALF"].write_bytes(before[: len(before) // 2])
    wrong = []
    for name, (words, says) in BAD.items():
        if name == "no cluster" and not importlib.util.find_spec("distributed"):
            says = "needs the package distributed"
        whose = other if name == "another program" else runs
        said = whose.in_one_line(*(str(files.get(it, it)) for it in words), "--cores", "1")
        wrong += [] if says in said else [f"{name}: {said}"]
    wrong += [] if files["STATE"].read_bytes() == before else ["the state of a search is another one now"]
    right = "each refused in one line, and the state of a search is as it was"
    print(f"check campaigns: {len(BAD)} bad inputs: {'; '.join(wrong) or right}", flush=True)
    return wrong


@contextmanager
def cluster_of(runs: Runs, workers: Sequence[Runs]) -> Iterator[tuple[str, list[subprocess.Popen[bytes]]]]:
    """A scheduler on this machine with these workers: its address, its process, and theirs."""
    with socket.socket() as free:
        free.bind(("127.0.0.1", 0))
        host, port = "127.0.0.1", str(free.getsockname()[1])
    address = f"tcp://{host}:{port}"
    words = ["-m", "distributed.cli.dask_worker", address, "--nthreads", "1", "--no-dashboard", "--no-nanny"]
    begun = [began(runs, [*SCHEDULER, "--host", host, "--port", port]), *(began(it, words) for it in workers)]
    try:
        wait_for(host, int(port))
        yield address, begun
    finally:
        for it in reversed(begun):
            it.kill()
            it.wait()


def cluster(runs: Runs, other: Runs) -> list[str]:
    """What is wrong with searches over a cluster."""
    if not importlib.util.find_spec("distributed"):
        left_out("campaigns", "a cluster", "this Python has no distributed (apt-get install python3-distributed)")
        return []
    wrong, wanted = [], runs.run(*SEARCH, "--cores", "1")[1]
    with cluster_of(runs, [runs] * 3) as (address, processes):
        wrong += [] if runs.run(*SEARCH, "--cluster", address)[1] == wanted else ["a cluster finds something else"]
        running = runs.begun(*SEARCH, "--cluster", address)
        time.sleep(4)
        processes[1].kill()
        found = running.communicate()[0]
        wrong += [] if found == wanted else ["a cluster with a worker that is killed finds something else"]
    wrong += without_its_scheduler(runs, wanted)
    bare = Runs(str(runs.folder), runs.env["DORYDATE_PROGRAM"])
    del bare.env["PYTHONPATH"]
    for worker, says in (other, "a worker has another program"), (bare, "a worker has no package dorydate"):
        with cluster_of(runs, [worker]) as (address, _):
            said = runs.in_one_line(*SEARCH[:-1], "--cluster", address)
            wrong += [] if says in said else [f"not `{says}`: {said}"]
    right = "the same octets, with one that is killed, too; no scheduler, no package, another program in one line each"
    print(f"check campaigns: a cluster of three workers: {'; '.join(wrong) or right}", flush=True)
    return wrong


def without_its_scheduler(runs: Runs, wanted: str) -> list[str]:
    """What is wrong with a search whose scheduler is killed, and which continues from its state by itself."""
    state, wrong = runs.folder / "cluster-state", []
    with cluster_of(runs, [runs]) as (address, processes):
        running = runs.begun(*SEARCH, "--cluster", address, "--state", str(state))
        while running.poll() is None and not state.is_file():
            time.sleep(0.05)
        processes[0].kill()
        said = running.communicate()[1]
        wrong += [] if running.returncode == 2 and said.count("\n") == 1 and GONE in said else [f"not `{GONE}`: {said}"]
    found = runs.run(*SEARCH, "--cores", "1", "--state", str(state))[1]
    return wrong if found == wanted else [*wrong, "a search whose scheduler was killed finds something else when it continues"]


def began(runs: Runs, words: Sequence[str]) -> subprocess.Popen[bytes]:
    """A process of the cluster."""
    return subprocess.Popen([sys.executable, *words], stdout=subprocess.DEVNULL, stderr=subprocess.DEVNULL, env=runs.env, cwd=runs.folder)


def wait_for(host: str, port: int) -> None:
    """Waits until somebody listens."""
    until = time.monotonic() + WAITS
    while time.monotonic() < until:
        try:
            socket.create_connection((host, port), 1.0).close()
            return
        except OSError:
            time.sleep(0.2)


def main() -> int:
    program = os.environ.get("DORYDATE_PROGRAM") or any_program()
    if program is None:
        print("check campaigns: there is no program of these sources: ./build makes it")
        return 1
    if program.endswith("-unproved"):
        left_out("campaigns", "all of it", "the program without proofs is too slow for searches (./build makes the fast one)")
        return 0
    with tempfile.TemporaryDirectory() as folder:
        runs, other = Runs(folder, os.path.abspath(program)), Runs(folder, f"{folder}/other")
        shutil.copy(program, f"{folder}/other")
        with open(f"{folder}/other", "ab") as file:
            file.write(b"\0")  # it does the same, and has another hash
        wrong = [*local(runs), *campaign(runs), *refused(runs, other), *cluster(runs, other)]
    print(f"check campaigns: {len(wrong)} faults")
    return 1 if wrong else 0

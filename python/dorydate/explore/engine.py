"""Batches of schedules from an executor, in the order of their numbers, so that nothing that is found depends on who made them.

An executor is anything with `submit`, as `concurrent.futures` has it: processes of this machine, or a cluster of dask.distributed. What
a worker makes depends on the words of its task only. So a task whose worker was killed is given out once more.
"""

from __future__ import annotations

import hashlib
import logging
import multiprocessing
import os
import signal
import sys
import threading
import time
from collections import deque
from collections.abc import Callable, Iterator
from concurrent.futures import CancelledError, Future, ProcessPoolExecutor
from concurrent.futures.process import BrokenProcessPool
from contextlib import suppress
from dataclasses import dataclass
from functools import lru_cache
from importlib import import_module
from itertools import count
from pathlib import Path
from typing import Any, Generic, Protocol, TypeVar

from dorydate.explore.many import CannotRun
from dorydate.explore.search import Batch, Job, Search
from dorydate.program import NoProgram, Program
from dorydate.where import found

Made = TypeVar("Made")
CHUNK = 8  # batches of a task
AHEAD = 3  # tasks that are out for each worker
TRIES = 20  # a task is given out so often at most, if whoever has it is killed
WAITING = 10.0  # seconds for a cluster to answer


class NoCluster(Exception):
    """Why a cluster can't be used."""


class OtherProgram(Exception):
    """A worker's program is not that of whoever asks."""


# ---- what workers do


@lru_cache(maxsize=8)
def hash_of(path: str) -> str:
    """The hash of a program."""
    return hashlib.sha256(Path(path).read_bytes()).hexdigest()


@lru_cache(maxsize=4)
def search_of(job: Job, wanted: str) -> Search:
    """The search of a job, by the program of this machine, which has to have this hash."""
    program = found()
    if hash_of(program.file) != wanted:
        raise OtherProgram(f"a worker has another program: the hash of {program.path} begins with {hash_of(program.file)[:12]}, and not with {wanted[:12]}")
    return job.search(program)


def made(job: Job, wanted: str, first: int, many: int) -> list[Batch]:
    """The batches of a task."""
    search = search_of(job, wanted)
    return [search.batch(number) for number in range(first, first + many)]


# ---- who makes them


def available() -> int:
    """The processors that this process may use."""
    return len(os.sched_getaffinity(0)) if hasattr(os, "sched_getaffinity") else os.cpu_count() or 1


class Workers(Protocol):
    """An executor that can be made anew when its processes were killed."""

    def submit(self, call: Callable[..., list[Made]], *words: object) -> Future[list[Made]]: ...

    def count(self) -> int: ...

    def renew(self) -> None: ...

    def close(self) -> None: ...


def begin() -> None:
    """What a process does first. Whoever takes the batches is stopped by Ctrl-C, and ends this process; if it is killed, this one ends too."""
    signal.signal(signal.SIGINT, signal.SIG_IGN)
    threading.Thread(target=end_with, args=(os.getppid(),), daemon=True).start()


def end_with(parent: int) -> None:
    """Ends this process soon after its parent."""
    while os.getppid() == parent:
        time.sleep(1)
    os._exit(1)


class Local:
    """Processes of this machine."""

    def __init__(self, processes: int, program: Program) -> None:
        self.processes = processes
        os.environ["DORYDATE_PROGRAM"] = program.path
        self.pool = self.made()

    def made(self) -> ProcessPoolExecutor:
        return ProcessPoolExecutor(self.processes, multiprocessing.get_context("fork") if "fork" in multiprocessing.get_all_start_methods() else None, begin)

    def submit(self, call: Callable[..., list[Made]], *words: object) -> Future[list[Made]]:
        try:
            return self.pool.submit(call, *words)
        except BrokenProcessPool:
            self.renew()
            return self.pool.submit(call, *words)

    def count(self) -> int:
        return self.processes

    def renew(self) -> None:
        self.pool.shutdown(wait=False, cancel_futures=True)
        self.pool = self.made()

    def close(self) -> None:
        # (Python waits for what is under way at its own end, too, and races with the pool where that goes on by then)
        self.pool.shutdown(wait=True, cancel_futures=True)


class Cluster:
    """Workers of a cluster of dask.distributed."""

    def __init__(self, address: str) -> None:
        try:
            distributed: Any = import_module("distributed")
        except ImportError:
            raise NoCluster("--cluster needs the package distributed (Debian's python3-distributed, or `pip install 'dorydate[cluster]'`)") from None
        try:
            self.client: Any = distributed.Client(address, timeout=WAITING, set_as_default=False)
        except (OSError, ValueError, TimeoutError) as fault:
            raise NoCluster(f"the cluster at {address} doesn't answer: {str(fault).splitlines()[0] if str(fault) else type(fault).__name__}") from None
        self.address = address
        logging.getLogger("distributed.client").setLevel(logging.CRITICAL)  # what is wrong is said here

    def submit(self, call: Callable[..., list[Made]], *words: object) -> Future[list[Made]]:
        self.renew()
        given: Future[list[Made]] = self.client.submit(call, *words, pure=False, retries=0)
        return given

    def count(self) -> int:
        self.renew()
        return max(len(self.client.scheduler_info()["workers"]), 1)

    def renew(self) -> None:
        """The scheduler gives tasks to other workers by itself, as long as it is there."""
        if self.client.status != "running":
            raise NoCluster(f"the cluster at {self.address} doesn't answer any more")

    def close(self) -> None:
        with suppress(Exception):  # it may be gone
            self.client.close(timeout=1)


# ---- in their order


@dataclass
class Task(Generic[Made]):
    """Batches that are out: their first number, and how often they were given out."""

    first: int
    future: Future[list[Made]]
    tries: int = 1


class Ordered(Generic[Made]):
    """What workers make of numbers, in the order of the numbers: `call` with these words, a first number and how many there are."""

    def __init__(self, workers: Workers, call: Callable[..., list[Made]], *words: object) -> None:
        self.workers, self.call, self.words = workers, call, words
        self.out: deque[Task[Made]] = deque()

    def begun(self, first: int) -> Future[list[Made]]:
        return self.workers.submit(self.call, *self.words, first, CHUNK)

    def since(self, first: int) -> Iterator[Made]:
        """What is made of the numbers from this one on."""
        numbers = count(first, CHUNK)
        try:
            while True:
                while len(self.out) < AHEAD * self.workers.count():
                    number = next(numbers)
                    self.out.append(Task(number, self.begun(number)))
                made = self.taken()
                self.out.popleft()
                yield from made
        finally:
            for task in self.out:
                with suppress(Exception):  # whoever has it may be gone
                    task.future.cancel()

    def taken(self) -> list[Made]:
        """What the first task made. Where its process was killed, all that are out and not done are given out again."""
        task = self.out[0]
        while True:
            try:
                return task.future.result()
            except Exception as fault:
                if not is_of_a_kill(fault) or task.tries >= TRIES:
                    raise in_words(fault) from None
                self.workers.renew()
                print(f"explore: a worker ended ({type(fault).__name__}); what it had is given out again", file=sys.stderr)
                for it in self.out:
                    if not it.future.done() or it.future.cancelled() or it.future.exception() is not None:
                        it.future, it.tries = self.begun(it.first), it.tries + 1


def is_of_a_kill(fault: Exception) -> bool:
    """Whether a task failed since its process was ended, and not by itself."""
    return isinstance(fault, (BrokenProcessPool, CancelledError)) or type(fault).__name__ in ("KilledWorker", "CancelledError")


def in_words(fault: Exception) -> Exception:
    """What is to be said of a task that failed by itself."""
    if isinstance(fault, ModuleNotFoundError):
        return NoCluster(f"a worker has no package {fault.name or 'dorydate'}: it has to be installed there")
    if isinstance(fault, NoProgram):
        return NoCluster(f"a worker has no program: {fault}")
    if is_of_a_kill(fault):
        return CannotRun(f"workers end again and again ({type(fault).__name__})")
    return fault


def batches_of(job: Job, program: Program, workers: Workers | None, first: int) -> Iterator[Batch] | None:
    """The batches of a job from a number on, by workers; None where there are none, and the search makes them itself."""
    return None if workers is None else Ordered(workers, made, job, hash_of(program.file)).since(first)

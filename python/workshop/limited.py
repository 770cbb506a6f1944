"""Runs of programs that may take a number of seconds of the processor.

By the clock a run takes as long as the machine has other work: on a crowded one a minute may have a second of it.
"""

from __future__ import annotations

import os
import signal
import subprocess
from collections.abc import Mapping, Sequence

# the shell's own limit, so that nothing of this process has to run between fork and exec
SHELL = ("/bin/sh", "-c", 'ulimit -c 0; ulimit -S -t "$0"; exec "$@"')


class NotEnded(Exception):
    """A run that had taken its seconds and not ended."""

    def __init__(self, seconds: int) -> None:
        super().__init__(f"it had not ended after {seconds} seconds of the processor")


def run_within(
    command: Sequence[str | bytes], octets: bytes, seconds: int, env: Mapping[str, str] | None = None
) -> subprocess.CompletedProcess[bytes]:
    """How a program ends on octets, if it does within this many seconds of the processor."""
    words = [*SHELL, str(seconds), *map(os.fsdecode, command)]
    ran = subprocess.run(words, input=octets, capture_output=True, env=env, check=False)
    if ran.returncode == -signal.SIGXCPU:
        raise NotEnded(seconds)
    return ran

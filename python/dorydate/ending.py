"""How a command of the repository ends: what it can't read or write is one line on standard error, and its status is 1."""

from __future__ import annotations

import io
import os
import signal
import sys
from collections.abc import Callable


def shown_name(path: str) -> str:
    """The last part of a file's name as it can be printed: octets that are not UTF-8 are replaced."""
    return os.fsencode(os.path.basename(path)).decode("utf-8", "replace")


def closed_streams() -> list[str]:
    """Which of standard input and output the caller has closed."""
    streams = {"standard input": sys.stdin, "standard output": sys.stdout}
    return [name for name, stream in streams.items() if stream is None]


def quiet_output() -> None:
    """Lets what is left in the buffer of standard output, which can't be written, go nowhere when the interpreter ends."""
    nowhere = os.open(os.devnull, os.O_WRONLY)
    os.dup2(nowhere, 1)


def hand_on() -> None:
    """Writes what was printed, where the system lets it."""
    try:
        sys.stdout.flush()
    except OSError:
        quiet_output()


def in_words(fault: OSError) -> str:
    """What the system refused, in a line."""
    what = f"{os.fsdecode(fault.filename)}: " if fault.filename is not None else ""
    return f"{what}{fault.strerror or fault}"


def broken_pipe() -> int:
    """Ends as a program does whose reader went away: by SIGPIPE."""
    quiet_output()
    signal.signal(signal.SIGPIPE, signal.SIG_DFL)
    os.kill(os.getpid(), signal.SIGPIPE)
    return 1


def run(name: str, main: Callable[[], int | None]) -> int:
    """The status of a command: that of `main`, or 1 where a stream is closed or the system refuses to read or write."""
    if sys.stderr is None:
        sys.stderr = open(os.devnull, "w", encoding="utf-8")  # noqa: SIM115 (it stays open)
    if closed := closed_streams():
        print(f"{name}: {' and '.join(closed)} {'are' if len(closed) > 1 else 'is'} closed", file=sys.stderr)
        return 1
    try:
        if signal.getsignal(signal.SIGINT) is signal.SIG_DFL:  # as commands begin, since loading them takes a while
            signal.signal(signal.SIGINT, signal.default_int_handler)
        if isinstance(sys.stdout, io.TextIOWrapper):
            sys.stdout.reconfigure(errors="backslashreplace")
        status = main() or 0
        sys.stdout.flush()
        return status
    except BrokenPipeError:
        return broken_pipe()
    except OSError as fault:
        print(f"{name}: {in_words(fault)}", file=sys.stderr)
    except (MemoryError, RecursionError) as fault:
        print(f"{name}: {'memory ran out' if isinstance(fault, MemoryError) else 'something in the input is nested too deeply'}", file=sys.stderr)
    except KeyboardInterrupt:
        signal.signal(signal.SIGINT, signal.SIG_IGN)
        print(f"{name}: stopped", file=sys.stderr)
    quiet_output()
    return 1

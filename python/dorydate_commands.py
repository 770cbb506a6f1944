"""The commands that pip installs. An interrupt while they are loaded ends them, and is no traceback."""

import os
import signal
import sys

if os.environ.pop("DORYDATE_HELD", "") or signal.getsignal(signal.SIGINT) is not signal.SIG_IGN:
    signal.signal(signal.SIGINT, signal.SIG_DFL)  # dorydate.ending takes it over
if sys.flags.no_site:
    import site

    site.main()

from importlib import import_module  # noqa: E402

from dorydate.__main__ import arpasim, main  # noqa: E402

__all__ = ["arpasim", "explore", "export", "main"]


def explore() -> int:
    """The command `dorydate-explore`."""
    return int(import_module("dorydate.explore.command").run())


def export() -> int:
    """The command `dorydate-export`."""
    return int(import_module("dorydate.export.command").run())


if __name__ == "__main__":
    sys.exit(main())

"""The commands of the repository that are written in Python: python3 python COMMAND [ARGUMENTS]. ./check, ./explain and others run it."""

from __future__ import annotations

import os
import signal
import sys

# until a command is loaded, an interrupt just ends it (dorydate.ending); none was heard before (tools/python)
if os.environ.pop("DORYDATE_HELD", "") or signal.getsignal(signal.SIGINT) is not signal.SIG_IGN:
    signal.signal(signal.SIGINT, signal.SIG_DFL)
if sys.flags.no_site:
    import site

    site.main()
if sys.version_info < (3, 10):
    sys.exit(f"{' '.join(sys.argv[1:2])}: this needs Python 3.10 or later, and python3 is {sys.version.split()[0]}")

from collections.abc import Callable  # noqa: E402
from importlib import import_module  # noqa: E402

from dorydate import ending  # noqa: E402

# each command, and the function that runs it
COMMANDS = {
    "cases": "workshop.checks.cases:run",
    "caught": "workshop.wasm.caught:main",
    "check": "workshop.commands:check",
    "check-one": "workshop.builds.one:main",
    "clauses": "workshop.documents.clauses:main",
    "common": "workshop.documents.common:main",
    "dead": "workshop.documents.dead:main",
    "explain": "dorydate.explain.command:main",
    "explore": "dorydate.explore.command:main",
    "export": "dorydate.export.command:main",
    "keep-unproved": "workshop.builds.keeping:main",
    "keep-wasm": "workshop.builds.pages:main",
    "keeps": "dorydate.contract.command:main",
    "live": "dorydate.live.command:main",
    "measure": "workshop.commands:measure",
    "optimised": "workshop.builds.optimised:main",
    "pack": "workshop.wasm.pack:main",
    "release": "workshop.builds.release:main",
    "site": "workshop.builds.site:main",
    "stated": "workshop.documents.stated:main",
}


def main() -> int:
    if sys.argv[1:2] == [] or sys.argv[1] not in COMMANDS:
        print(f"usage: python3 python COMMAND [ARGUMENTS]; the commands are {', '.join(COMMANDS)}", file=sys.stderr)
        return 1
    name = sys.argv.pop(1)
    module, function = COMMANDS[name].split(":")
    sys.argv[0] = name

    def command() -> int | None:
        """Loads the command and runs it."""
        run: Callable[[], int | None] = getattr(import_module(module), function)
        return run()

    return ending.run(name, command)


if __name__ == "__main__":
    sys.exit(main())

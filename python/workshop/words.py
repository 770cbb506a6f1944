"""The words of a command, by `argparse`: its help is what its module says of itself, and then each word that it takes."""

from __future__ import annotations

import argparse
import os
import sys


class Words(argparse.ArgumentParser):
    """The words that a command takes; `Words(__doc__)` takes none yet."""

    def __init__(self, said: str | None, prog: str | None = None) -> None:
        super().__init__(prog=prog or os.path.basename(sys.argv[0]), allow_abbrev=False)
        self.said = (said or "").strip()

    def format_help(self) -> str:
        return f"{self.said}\n\n{super().format_help()}"

    def count(self, name: str, default: int, what: str) -> Words:
        """Takes a number at its place, which may be left out."""
        said = f"{what} ({default:,} if it is left out)"
        self.add_argument(name, nargs="?", type=int, default=default, metavar=name.upper(), help=said)
        return self

    def names(self, name: str, what: str) -> Words:
        """Takes any number of names, also none."""
        self.add_argument(name, nargs="*", metavar=name.upper(), help=what)
        return self

    def one(self, name: str, default: str | None, what: str) -> Words:
        """Takes a name at its place, which may be left out."""
        self.add_argument(name, nargs="?", default=default, metavar=name.upper(), help=what)
        return self

    def option(self, name: str, what: str) -> Words:
        """Takes `--NAME` and a word; "" where it is left out."""
        metavar = "FILE" if name in ("program", "beside") else "WORDS"
        self.add_argument(f"--{name}", default="", metavar=metavar, help=what)
        return self

    def flag(self, name: str, what: str) -> Words:
        """Takes `--NAME`."""
        self.add_argument(f"--{name}", action="store_true", help=what)
        return self

    def asked(self) -> argparse.Namespace:
        """What the command is called with. A word that it doesn't take ends it, with status 2."""
        return self.parse_intermixed_args()

"""crates.txt names for each crate only others that its sources name: each of them has it proved, or built, later."""

from __future__ import annotations

import glob
import re

from workshop.parts import ROOT, text_of


def code_of(crate: str) -> str:
    """A crate's sources, without comments."""
    paths = (path for kind in ("rt", "antt") for path in sorted(glob.glob(f"{ROOT}/crates/{crate}/**/*.{kind}", recursive=True)))
    return "\n".join(re.sub(r"(?m)(?://|(?:^|\s)-- ).*$", "", text_of(path)) for path in paths if "/out/" not in path)


def is_named(crate: str, code: str) -> bool:
    """Whether code names a crate, in a path or an import."""
    return re.search(rf"\bRattle\.{crate}\.|\b{crate}::|\buse {crate}\b", code) is not None


def unnamed(crate: str, others: str, code: str) -> list[str]:
    """What a line of crates.txt has that the crate's code doesn't name."""
    return [f"crates.txt: {crate} doesn't use {other}" for other in others.split() if not is_named(other, code)]


def faults() -> list[str]:
    """The crates that crates.txt names without need."""
    lines = re.findall(r"(?m)^(\w+):(.*)$", text_of(f"{ROOT}/crates.txt"))
    return [fault for crate, others in lines for fault in unnamed(crate, others, code_of(crate))]

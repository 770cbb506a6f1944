"""Builds the surroundings of the program by themselves, with every function given out, to be tried.

A folder gets `shims.wasm`, and `small.wasm`, the same with little memory. Changed sources in C, and another way to lower stores, are
faults that have to be found.
"""

from __future__ import annotations

import re

from workshop.wasm.binary import with_greatest
from workshop.wasm.lower import Stores, lowered, lowered_store
from workshop.wasm.make import SURROUNDINGS, compiled_shims, linked

SMALL = 40  # pages of memory


def functions_of(header: str) -> list[str]:
    """The functions that a header declares."""
    return re.findall(r"^\w[\w \*]*?(\w+)\([^)]*\);$", header, re.MULTILINE)


def build(folder: str, sources: str = SURROUNDINGS, stores: Stores = lowered_store) -> None:
    """Builds both modules into a folder, of the files of C in `sources`."""
    with open(f"{sources}/wasm.h", encoding="utf-8") as file:
        given = [f"--export={it}" for it in functions_of(file.read())]
    module = lowered(linked(compiled_shims(folder, sources), folder, *given), stores)
    for name, content in ("shims", module), ("small", with_greatest(module, SMALL)):
        with open(f"{folder}/{name}.wasm", "wb") as made:
            made.write(content)

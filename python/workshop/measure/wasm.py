"""The program as WebAssembly beside the native one, over every kind of script: ./measure wasm [ROUNDS]

The program is the one that is kept, and its modules those of ./build --wasm. Told are the sizes of modules and page, and the least processor
time of the rounds over all inputs of `./measure kinds`, in Node: the form with addresses of 32 bits, and with
`--experimental-wasm-memory64` the other one. The ratio is that of all times together, and the median of those where the native program
takes 10 ms or more.
"""

from __future__ import annotations

import gzip
import os
import shutil
import statistics
import subprocess
import sys
import tempfile
from collections.abc import Iterator, Sequence

from workshop.measure import best_of_all, written
from workshop.measure.kinds import kinds
from workshop.parts import ROOT, any_program
from workshop.words import Words

LONG = 0.010  # seconds of the native program from which on a ratio is printed by itself


def inputs(folder: str) -> Iterator[str]:
    """Files of every kind of script, at both sizes."""
    for number, (name, carrier, sizes) in enumerate(kinds()):
        for size, make in sizes:
            yield written(folder, f"{number:02}-{size}", make())


def times_of(module: str, rounds: int, files: Sequence[str], *options: str) -> list[float]:
    """The least processor time of each file, in seconds."""
    node = shutil.which("node") or shutil.which("nodejs") or "node"
    ran = subprocess.run([node, *options, f"{ROOT}/web/check/time.js", module, str(rounds), *files], stdout=subprocess.PIPE, text=True, check=True)
    return [float(line.split()[0]) / 1000 for line in ran.stdout.splitlines()]


def told(name: str, times: Sequence[float], native: Sequence[float]) -> None:
    """A row of the table."""
    ratios = [mine / other for mine, other in zip(times, native) if other >= LONG]
    print(f"| {name} | {sum(times):.2f} s | {sum(times) / sum(native):.2f} | {statistics.median(ratios):.2f} | {max(ratios):.2f} |")


def main() -> None:
    rounds = Words(__doc__).count("rounds", 3, "how often each is run").asked().rounds
    program = any_program()
    if not program or not os.path.exists(f"{program}.wasm"):
        sys.exit("measure wasm: ./build --wasm makes the modules first")
    print("| File | Octets | By gzip -9 |\n|---|---|---|")
    for name, path in ("native", program), ("32 bits", f"{program}.wasm"), ("64 bits", f"{program}64.wasm"), ("workbench", f"{program}.html"), ("plain page", f"{program}-plain.html"):
        with open(path, "rb") as file:
            octets = file.read()
        print(f"| {name} | {len(octets):,} | {len(gzip.compress(octets, 9)):,} |")
    with tempfile.TemporaryDirectory() as folder:
        files = list(inputs(folder))
        native = [best_of_all([program], it, rounds)[0] for it in files]
        print(f"\n| Over {len(files)} inputs | Processor time | Times the native | Median from 10 ms on | Greatest |\n|---|---|---|---|---|")
        told("native", native, native)
        told("addresses of 32 bits", times_of(f"{program}.wasm", rounds, files), native)
        told("addresses of 64 bits", times_of(f"{program}64.wasm", rounds, files, "--experimental-wasm-memory64"), native)

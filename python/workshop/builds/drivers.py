"""The program that makes calls on single layers, and what it is asked, to compare code with an independent model of its rules.

The program, tools/calls, is built without proofs in a folder of its own, once for the present sources, and kept as
out/HASH/calls (workshop.builds.unproved). `./check rows` and the checks of single layers use it.
"""

from __future__ import annotations

import glob
import hashlib
import os
import shutil
import sys
from collections.abc import Iterable, Iterator, Mapping, Sequence
from concurrent.futures import ThreadPoolExecutor

from workshop.builds.unproved import NotKept, build, keep, kept_for_sources
from workshop.limited import NotEnded, run_within
from workshop.parts import ROOT, text_of

# what it uses: these, and the crates below them
USES = (
    "bit_messages book_log command_line hex icp imp_channel imp_node interface leader1822 link_table ncp_control "
    "net_sim packetiser replay routing sockets subnet terminal world_script"
)
# an IMP without hosts and lines has nothing to announce
EXAMPLE = b"imp 1 0 0\nroute\n= ok\n"
CORES = os.cpu_count() or 1
SECONDS = 300  # of the processor, for the rows of a file


def crates_below(lines: Mapping[str, Sequence[str]], name: str) -> list[str]:
    """A crate of the repository and those that it uses."""
    found = [name] if name in lines else []
    for low in lines.get(name, []):
        found += [it for it in crates_below(lines, low) if it not in found]
    return found


def with_crate(folder: str, crate: str, uses: str, files: Mapping[str, str]) -> str:
    """Puts sources into a folder as a crate, each file under its name there, with copies of the crates that it uses."""
    with open(f"{ROOT}/crates.txt", encoding="utf-8") as file:
        lines = dict(line.strip().split(":") for line in file if line.strip() and not line.startswith("#"))
    below = {name: below.split() for name, below in lines.items()}
    needed = [*dict.fromkeys(it for name in uses.split() for it in crates_below(below, name))]
    for name in needed:
        shutil.copytree(f"{ROOT}/crates/{name}", f"{folder}/crates/{name}", ignore=shutil.ignore_patterns("out"))
    os.makedirs(f"{folder}/crates/{crate}/src")
    for path, name in files.items():
        shutil.copy(path, f"{folder}/crates/{crate}/src/{name}")
    with open(f"{folder}/crates.txt", "w", encoding="utf-8") as file:
        file.writelines(f"{name}:{lines[name]}\n" for name in needed)
        file.write(f"{crate}: {uses}\n")
    return f"{folder}/crates/{crate}"


def with_driver(folder: str) -> str:
    """Puts the program's sources into a folder as a crate."""
    paths = glob.glob(f"{ROOT}/tools/calls/*.rs")
    return with_crate(folder, "calls", USES, {it: f"{os.path.basename(it).removesuffix('.rs')}.rt" for it in paths})


def kept_at() -> str:
    """Where the program of the present sources is kept: its own are in the hash too."""
    whole = hashlib.sha256(kept_for_sources().encode())
    for path in sorted(glob.glob(f"{ROOT}/tools/calls/*.rs")):
        with open(path, "rb") as file:
            whole.update(path.encode() + file.read())
    return f"{ROOT}/out/{whole.hexdigest()}/calls"


def driver() -> str:
    """The program, built where it is not kept yet."""
    kept = kept_at()
    if not os.path.exists(kept):
        print("building what makes the calls, which takes a minute or two, once for these sources", flush=True)
        keep(kept_at, lambda room: build(with_driver(f"{room}/sources"), EXAMPLE, EXAMPLE, room))
    return kept


def write_case(folder: str, name: str, rows: Iterable[str]) -> None:
    """Writes rows, which the program reads and has to print as they are."""
    os.makedirs(f"{folder}/cases", exist_ok=True)
    with open(f"{folder}/cases/{name}", "w", encoding="utf-8") as file:
        file.write("\n".join(rows) + "\n")


def printed(program: str, rows: str) -> str:
    """What the program prints for rows. Where it ends otherwise than it should, or not in time, that comes last."""
    try:
        ran = run_within([program], rows.encode(), SECONDS)
    except NotEnded as why:
        return f"\n({why})"
    if ran.returncode == 0 and not ran.stderr:
        return ran.stdout.decode()
    return f"{ran.stdout.decode()}\n(status {ran.returncode}) {ran.stderr.decode(errors='replace')[-2000:]}"


def difference(program: str, path: str) -> str | None:
    """Where rows come to something else than they say, and to what; None where they do not."""
    wanted = text_of(path)
    found = printed(program, wanted)
    if found == wanted:
        return None
    sides = [wanted.splitlines(), found.splitlines()]
    place = next((it for it, pair in enumerate(zip(*sides)) if pair[0] != pair[1]), min(map(len, sides)))
    call = next((it for it in reversed(sides[0][:place]) if not it.startswith("= ")), "")
    shown = [f"  {what}: {(rows[place:] or ['nothing'])[0]}" for what, rows in zip(("wanted", "found"), sides)]
    return "\n".join([f"{os.path.basename(path)}, line {place + 1}, after {call}", *shown])


def made_driver() -> str:
    """The program; it ends where that can't be built."""
    try:
        return driver()
    except (NotKept, OSError) as why:
        sys.exit(f"the program that makes the calls was not built: {why}")


def differences(paths: Iterable[str]) -> Iterator[str]:
    """What files of rows come to, of those that come to something else than they say."""
    program = made_driver()
    with ThreadPoolExecutor(CORES) as threads:
        yield from (it for it in threads.map(lambda path: difference(program, path), paths) if it)


def run_cases(folder: str) -> str | None:
    """Runs the program on the rows in a folder. What it says where some came to something else than they say."""
    return next(differences(sorted(glob.glob(f"{folder}/cases/*"))), None)

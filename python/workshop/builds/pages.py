"""Makes WebAssembly of the program that is kept for the present sources, and a page that runs it: ./build --wasm

Beside a program that ./build or tools/keep-unproved keeps as NAME are afterwards

- NAME.bc: the module that LLVM made the program of. Where it lacks, because the program was built when nothing caught it, the program is
  built once more over what is proved already
- NAME.wasm and NAME64.wasm: the program as WebAssembly, with addresses of 32 bits and of 64
- NAME.html: the page that holds NAME.wasm, which is the workbench (docs/workbench.md)
- NAME-plain.html: a plain page around NAME.wasm, with a box, options and what is printed

They are made of the proved program if there is one, else of the one that was built without proofs, and then they say so. With --any the page may
also hold the released module, if that is of these sources and none is made yet: NAME is then HASH/arpasim-released.
"""

from __future__ import annotations

import hashlib
import json
import os
import subprocess
import sys

from workshop.builds.unproved import kept_for_sources
from workshop.parts import ROOT, read_octets, text_of
from workshop.wasm import pack
from workshop.wasm.again import build_again
from workshop.wasm.binary import Refused
from workshop.wasm.make import make, makers, read_note
from workshop.words import Words


def note(text: str) -> None:
    print(f"build: {text}", file=sys.stderr, flush=True)


def catch_again(kept: str) -> None:
    """Builds the proved program once more, to have the module that LLVM makes it of."""
    note("building the proved program once more, for the module that LLVM makes it of, which takes some minutes")
    build_again(ROOT, f"{ROOT}/out/module.bc", f"{ROOT}/out/log")
    if kept_for_sources() != kept:
        raise Refused("the sources changed meanwhile")
    os.replace(f"{ROOT}/out/module.bc", f"{kept}.bc")


def module_of_program() -> str:
    """The program that is kept, with its module beside it: the proved one, or else the one without proofs."""
    kept = kept_for_sources()
    if os.path.exists(kept):
        if not os.path.exists(f"{kept}.bc"):
            catch_again(kept)
        return kept
    unproved = f"{kept}-unproved"
    if not os.path.exists(f"{unproved}.bc"):
        if os.path.exists(unproved):
            os.remove(unproved)
        note("the program is not proved yet (./build proves it); building it without proofs")
        subprocess.run([f"{ROOT}/tools/keep-unproved"], check=True)
    return unproved


def write(path: str, content: bytes) -> None:
    with open(f"{path}.new", "wb") as file:
        file.write(content)
    os.replace(f"{path}.new", path)


def keep_modules(program: str) -> None:
    """Makes the modules of a program, unless they are there and were made in this way."""
    is_proved = not program.endswith("-unproved")
    sources = os.path.basename(os.path.dirname(program))
    there = read_note(f"{program}.wasm")
    if there.get("makers") == makers() and os.path.exists(f"{program}64.wasm"):
        return
    note("compiling the program for WebAssembly, which takes some two minutes")
    toolchain = subprocess.run(["rt", "version"], capture_output=True, text=True, check=True).stdout.strip()
    forms = make(f"{program}.bc", sources, toolchain)
    write(f"{program}64.wasm", forms[64])
    write(f"{program}.wasm", forms[32])
    if read_note(f"{program}.wasm")["proved"] != is_proved:
        os.remove(f"{program}.wasm")
        raise Refused(f"the module that was caught is {'not ' * is_proved}the one of a proved program")


def released_module(sources: str) -> bytes | None:
    """The module in the released page, if that is of these sources. A page that is not as its note says is refused."""
    try:
        note = json.loads(text_of(f"{ROOT}/released/note.json"))
    except OSError:
        return None
    if note["sources"] != sources:
        return None
    page = read_octets(f"{ROOT}/released/dorydate.html")
    if hashlib.sha256(page).hexdigest() != note["files"]["dorydate.html"]["sha256"]:
        raise Refused("released/dorydate.html was changed: its hash is not the one in released/note.json")
    return pack.module_in(page.decode())


def keep_released() -> str | None:
    """Keeps the page of the released module of these sources, unless a module is made already. Its path, None where nothing is released of them."""
    kept = kept_for_sources()
    if os.path.exists(kept) and read_note(f"{kept}.wasm").get("makers") == makers():
        return None
    module = released_module(os.path.basename(os.path.dirname(kept)))
    if module is None:
        return None
    os.makedirs(os.path.dirname(kept), exist_ok=True)
    write(f"{kept}-released.html", pack.page(f"{ROOT}/web/workbench", module).encode())
    return f"{kept}-released.html"


def main() -> int:
    asked = Words(__doc__).flag("any", "the released module of these sources, unless one is made already").asked()
    try:
        if asked.any and (page := keep_released()):
            print(page)
            return 0
        program = module_of_program()
        keep_modules(program)
        octets = read_octets(f"{program}.wasm")
        write(f"{program}.html", pack.page(f"{ROOT}/web/workbench", octets).encode())
        write(f"{program}-plain.html", pack.page(f"{ROOT}/web/page", octets).encode())
    except (Refused, pack.Refused, OSError, subprocess.CalledProcessError) as why:
        note(str(why))
        return 1
    print(f"{program}.html")
    return 0


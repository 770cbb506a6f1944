"""Makes modules of WebAssembly of the LLVM module that a native program was compiled of.

There are two, which differ only in their addresses (lower.py): of 32 bits, which every browser takes, and of 64. Both carry a note, as JSON
in a section of its own, of what they come from. The toolchain's clang does the rest.
"""

from __future__ import annotations

import functools
import hashlib
import json
import os
import subprocess
import tempfile

from workshop.parts import ROOT
from workshop.wasm.binary import Reader, Refused, note_of, with_notes
from workshop.wasm.lower import lowered
from workshop.wasm.retarget import for_wasm, is_proved, mark_of

HERE = os.path.dirname(os.path.realpath(__file__))
SURROUNDINGS = f"{ROOT}/tools/wasm"  # in C
SHIMS = ("heap", "system", "wide")
NOTE = "arpasim"  # the section of the note
TARGET = ["--no-default-config", "--target=wasm64-unknown-unknown"]
SHIM_OPTIONS = ["-O2", "-Wall", "-Wextra", "-Wno-unused-parameter", "-ffreestanding", "-fno-builtin", "-nostdlibinc"]
STACK = 1 << 20  # octets; 64 KiB are enough for every example
GREATEST = 1 << 30  # octets that a run may take


@functools.lru_cache(maxsize=None)
def kit() -> str:
    """The folder of the toolchain."""
    return os.path.dirname(subprocess.run(["rt", "doc"], capture_output=True, text=True, check=True).stdout.strip())


def clang(*words: str) -> None:
    """Calls the toolchain's compiler."""
    subprocess.run([f"{kit()}/toolchain/bin/clang", *words], check=True)


def compiled_shims(folder: str, sources: str = SURROUNDINGS) -> list[str]:
    """Compiles the surroundings of the program, and answers their object files."""
    for name in SHIMS:
        clang(*TARGET, *SHIM_OPTIONS, "-c", f"{sources}/{name}.c", "-o", f"{folder}/{name}.o")
    return [f"{folder}/{name}.o" for name in SHIMS]


def compiled(module: str, folder: str) -> tuple[str, str]:
    """Compiles the program for WebAssembly, and answers its object file and the mark of the module that it comes from."""
    text, changed, made = (f"{folder}/{name}" for name in ("module.ll", "wasm.ll", "program.o"))
    clang("--no-default-config", "-O0", "-Xclang", "-disable-llvm-passes", "-S", "-emit-llvm", "-x", "ir", module, "-o", text)
    with open(text, "rb") as file:
        read = file.read()
    with open(changed, "wb") as file:
        file.write(for_wasm(read))
    clang(*TARGET, "-O2", "-c", "-x", "ir", changed, "-o", made)
    return made, mark_of(read)


def linked(objects: list[str], folder: str, *words: str) -> bytes:
    """Links object files to a module. Whatever it still lacks is an error."""
    os.symlink(f"{kit()}/toolchain/bin/clang", f"{folder}/wasm-ld")
    options = ["-mwasm64", "--no-entry", "--stack-first", "-z", f"stack-size={STACK}", f"--max-memory={GREATEST}", "--gc-sections", "--strip-debug", "-O2", "--compress-relocations"]
    subprocess.run([f"{folder}/wasm-ld", *options, *words, *objects, "-o", f"{folder}/linked.wasm"], check=True)
    os.remove(f"{folder}/wasm-ld")
    with open(f"{folder}/linked.wasm", "rb") as file:
        return file.read()


def mark_in(module: bytes) -> str:
    """The mark that LLVM carried over into the module, in its section `producers`."""
    reader, marks = Reader(note_of(module, "producers") or b"\0"), []
    for _ in range(reader.number()):
        reader.counted()  # the field; a mark is in `processed-by`, beside the compiler of the surroundings
        for _ in range(reader.number()):
            marks.append(" ".join(filter(None, (reader.counted().decode(), reader.counted().decode()))))
    marks = [it for it in marks if it.startswith("rattle")]
    if len(marks) != 1:
        raise Refused("the module does not say what made it")
    return marks[0]


def makers() -> str:
    """The hash of what makes the modules: the surroundings in C and this folder's Python, without what only packs pages."""
    files = [f"{folder}/{it}" for folder in (SURROUNDINGS, HERE) for it in sorted(os.listdir(folder)) if it.endswith((".c", ".h", ".py"))]
    together = hashlib.sha256()
    for path in (it for it in files if os.path.basename(it) != "pack.py"):
        with open(path, "rb") as file:
            together.update(f"{os.path.basename(path)} {hashlib.sha256(file.read()).hexdigest()}\n".encode())
    return together.hexdigest()


def noted(module: bytes, producers: bytes, note: dict[str, object]) -> bytes:
    """The module with its notes: the one of this repository, and the one that LLVM carried over."""
    return with_notes(module, {"producers": producers, NOTE: json.dumps(note, sort_keys=True).encode()})


def read_note(path: str) -> dict[str, object]:
    """The note of a module in a file; an empty one where there is none."""
    try:
        with open(path, "rb") as file:
            note = note_of(file.read(), NOTE)
    except OSError:
        note = None
    return dict(json.loads(note)) if note else {}


def make(module: str, sources: str, toolchain: str) -> dict[int, bytes]:
    """Makes both forms of the program, by the bits of their addresses.

    `sources` is the hash of the sources that the LLVM module comes from, and `toolchain` the line of its version.
    """
    with tempfile.TemporaryDirectory() as folder:
        program, mark = compiled(module, folder)
        wide = linked([program, *compiled_shims(folder)], folder, "--export=main")
    if mark_in(wide) != mark:
        raise Refused(f"the module's mark was {mark}, and is {mark_in(wide)} after LLVM")
    producers = note_of(wide, "producers") or b""
    note = {"mark": mark, "proved": is_proved(mark), "sources": sources, "toolchain": toolchain, "makers": makers()}
    return {bits: noted(form, producers, {**note, "addresses": bits}) for bits, form in ((64, wide), (32, lowered(wide)))}

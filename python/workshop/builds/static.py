"""The native program as one file that needs no C library: the machine code of the proved program, linked once more.

The toolchain links the program with the C library of the machine that it runs on, from version 2.34 on. It has no library to be linked in. So
the object that it was linked of is linked once more, with the C library of this machine's system (Debian's libc6-dev, by gcc). ./build keeps the
object; where it didn't, the module that LLVM made the program of is compiled once more, by the same compiler with the same options. Linked as
the toolchain does it, an object has to give the very program that was proved and tested, octet for octet, or it isn't taken.
"""

from __future__ import annotations

import os
import shutil
import subprocess
import tempfile

from workshop.parts import ROOT, read_octets
from workshop.wasm.make import clang, kit

TARGET = "x86_64-unknown-linux-gnu"
OF_LLVM = ["-no-trap-after-noreturn", "-trap-unreachable", "-no-x86-call-frame-opt", "-disable-machine-licm", "-disable-postra-machine-licm", "-sink-common-insts=false", "-mergefunc-use-aliases"]
OPTIONS = [f"--target={TARGET}", "-march=x86-64", "-ffunction-sections", "-fdata-sections", "--no-default-config", "-no-canonical-prefixes", "-fintegrated-cc1", "-fPIE", "-O3", "-Xclang", "-fmerge-functions"]


class NotTheSame(Exception):
    """Why there is no static program."""


def libraries() -> list[str]:
    """What the toolchain has over the C library."""
    return [f"{kit()}/c/libos_c.a", f"{kit()}/c/liblibc_c.a"]


def compiled(module: str, to: str) -> None:
    """Compiles the module as the toolchain does."""
    clang(f"--sysroot={kit()}/toolchain", *OPTIONS, *(word for it in OF_LLVM for word in ("-mllvm", it)), "-c", "-x", "ir", module, "-o", to)


def linked_again(made: str, to: str) -> None:
    """Links an object as the toolchain does."""
    words = ["--target", TARGET, "--toolchain", f"{kit()}/toolchain", "-o", to, made, *libraries()]
    subprocess.run([f"{kit()}/bin/rattle-link", *words], check=True, capture_output=True)


def gives(made: str, program: str) -> bool:
    """Whether an object, linked as the toolchain does it, is a program."""
    with tempfile.TemporaryDirectory() as room:
        linked_again(made, f"{room}/again")
        return read_octets(f"{room}/again") == read_octets(program)


def write_object(program: str, to: str) -> None:
    """Writes the object that a program, which is kept, was linked of."""
    for made in (f"{program}.o", f"{ROOT}/crates/arpasim/out/arpasim.o"):
        if os.path.exists(made) and gives(made, program):
            shutil.copyfile(made, to)
            return
    compiled(f"{program}.bc", to)
    if not gives(to, program):
        raise NotTheSame("the module that is kept, compiled and linked as the toolchain does it, is not the program that is kept")


def static_program(program: str, to: str) -> None:
    """Makes the static form of a program that is kept, and beside it, as TO.o, the object that it is linked of."""
    write_object(program, f"{to}.o")
    subprocess.run(["gcc", "-static", "-s", "-Wl,--gc-sections", "-Wl,--build-id=none", f"{to}.o", *libraries(), "-o", to], check=True)
    os.chmod(to, 0o755)

"""What a release is packed into for those who install it: a wheel, a package for npm, a package for Debian, and the C of the module.

Each is made only of files, with fixed times and modes, so the same files give the same octets.
"""

from __future__ import annotations

import gzip
import io
import json
import os
import re
import shutil
import subprocess
import tarfile
import tempfile
from collections.abc import Mapping
from dataclasses import dataclass
from pathlib import Path

from dorydate import completion
from dorydate.__main__ import SHORT
from dorydate.definitions.promise import PACKED, files_of_promise
from workshop.builds.manual import manual
from workshop.documents.versions import for_debian, for_python
from workshop.parts import ROOT, read_octets
from workshop.tools import python_with

LICENCES = ("LICENSE-APACHE", "LICENSE-MIT")
# of web/run
BY_NODE = (
    "arpasim.mjs", "base85.js", "many.js", "named.js", "named.mjs", "oldest.js", "once.js", "program.js",
    "released.js", "runner.js",
)  # fmt: skip
EPOCH = 315_532_800  # 1980, the first time that a zip archive can hold
WABT = "/usr/share/wabt/wasm2c"  # where Debian's wabt has what the C needs
SUMMARY = "the ARPANET's packet network, as a simulator that is proved"
Files = Mapping[str, tuple[bytes, int]]  # by path: what is in it, and its mode


class Refused(Exception):
    """Why there is no package."""


@dataclass(frozen=True)
class Release:
    """What packages are made of: the version, the native program, the page, the module in it, and what the note says of these."""

    version: str
    native: bytes
    page: bytes
    module: bytes
    note: bytes


def examples() -> Files:
    """The inputs, by name."""
    names = sorted(it for it in os.listdir(f"{ROOT}/examples") if "." not in it)
    return {it: (read_octets(f"{ROOT}/examples/{it}"), 0o644) for it in names}


def programs() -> Files:
    """The programs of hosts among the examples, which the tutorial runs."""
    return {it: (read_octets(f"{ROOT}/examples/{it}"), 0o644) for it in sorted(os.listdir(f"{ROOT}/examples")) if it.endswith((".py", ".c"))}


def promised() -> Files:
    """The files of the definitions of the promise."""
    return {it: (read_octets(f"{ROOT}/crates/{it}"), 0o644) for it in files_of_promise()}


def below(folder: str, files: Files) -> Files:
    return {f"{folder}/{path}": it for path, it in files.items()}


def of_module(release: Release, names: tuple[str, ...] = BY_NODE) -> Files:
    """The page, its note, and what runs the module in it by Node."""
    scripts = {f"run/{it}": (read_octets(f"{ROOT}/web/run/{it}"), 0o755 if it.endswith(".mjs") else 0o644) for it in names}
    kinds = {"run/package.json": (b'{ "type": "module" }\n', 0o644)}
    return {"dorydate.html": (release.page, 0o644), "note.json": (release.note, 0o644)} | scripts | kinds


def licences() -> Files:
    return {it: (read_octets(f"{ROOT}/{it}"), 0o644) for it in LICENCES}


def write(folder: str, files: Files) -> None:
    """Writes files, with their modes, below a folder."""
    for path, (octets, mode) in files.items():
        os.makedirs(os.path.dirname(f"{folder}/{path}"), mode=0o755, exist_ok=True)
        with open(f"{folder}/{path}", "wb") as file:
            file.write(octets)
        os.chmod(f"{folder}/{path}", mode)


# ---- a wheel


def python_with_setuptools() -> str:
    """A Python that has what builds wheels."""
    if command := python_with("setuptools", "wheel"):
        return command
    raise Refused("there is no Python with setuptools and wheel (apt-get install python3-setuptools python3-wheel)")


def wheel(release: Release, folder: str) -> str:
    """Writes the wheel, which has the native program, the module and the page, and answers its name."""
    with tempfile.TemporaryDirectory() as room:
        shutil.copytree(f"{ROOT}/python/dorydate", f"{room}/dorydate", ignore=shutil.ignore_patterns("__pycache__"))
        for name in ("pyproject.toml", "dorydate_commands.py"):
            shutil.copyfile(f"{ROOT}/python/{name}", f"{room}/{name}")
        for place, _, names in os.walk(room):
            os.chmod(place, 0o755)
            for name in names:
                os.chmod(f"{place}/{name}", 0o644)
        write(f"{room}/dorydate/release", {**of_module(release), "arpasim": (release.native, 0o755)})
        write(f"{room}/dorydate/examples", {**examples(), **programs()})
        write(f"{room}/dorydate/definitions/{PACKED.name}", promised())
        write(room, {**licences(), "arpasim.1": (manual(release.version).encode(), 0o644)})
        build = "import sys; from setuptools import build_meta; build_meta.build_wheel(sys.argv[1])"
        env = {**os.environ, "SOURCE_DATE_EPOCH": str(EPOCH), "PYTHONDONTWRITEBYTECODE": "1"}
        ran = subprocess.run([python_with_setuptools(), "-c", build, folder], cwd=room, env=env, capture_output=True, text=True)
    if ran.returncode:
        raise Refused(f"setuptools made no wheel:\n{ran.stderr}")
    return f"dorydate-{for_python(release.version)}-py3-none-any.whl"


# ---- archives


def archive(files: Files) -> bytes:
    """A compressed archive of files, by name."""
    made = io.BytesIO()
    with tarfile.open(fileobj=made, mode="w", format=tarfile.USTAR_FORMAT) as tar:
        for path, (octets, mode) in sorted(files.items()):
            entry = tarfile.TarInfo(path)
            entry.size, entry.mode, entry.mtime = len(octets), mode, EPOCH
            tar.addfile(entry, io.BytesIO(octets))
    return gzip.compress(made.getvalue(), 9, mtime=0)


def npm_package(release: Release) -> bytes:
    """The package for npm."""
    facts = {
        "name": "dorydate",
        "version": release.version,
        "description": f"Dorydate: {SUMMARY}",
        "license": "MIT OR Apache-2.0",
        "type": "module",
        "engines": {"node": ">=18"},
        "bin": {"dorydate": "run/dorydate.mjs", "arpasim": "run/named.mjs"},
    }
    files = {**of_module(release, (*BY_NODE, "dorydate.mjs")), **licences(), **below("examples", examples())}
    files["package.json"] = ((json.dumps(facts, indent=2) + "\n").encode(), 0o644)
    return archive(below("package", files))


def c_of_module(release: Release) -> bytes:
    """The module as C, with what it needs and the line that compiles it."""
    if not shutil.which("wasm2c"):
        raise Refused("there is no wasm2c (apt-get install wabt)")
    with tempfile.TemporaryDirectory() as room:
        write(room, {"arpasim.wasm": (release.module, 0o644)})
        subprocess.run(["wasm2c", "arpasim.wasm", "-n", "arpasim", "-o", "arpasim.c"], cwd=room, check=True)
        files = {it: (read_octets(f"{room}/{it}"), 0o644) for it in ("arpasim.c", "arpasim.h")}
    own = {it: (read_octets(f"{ROOT}/tools/wasm2c/{it}"), 0o644) for it in ("main.c", "README")}
    runtime = {it: (read_octets(f"{WABT}/{it}"), 0o644) for it in ("wasm-rt-impl.c", "wasm-rt-impl.h")}
    runtime["wasm-rt.h"] = (read_octets("/usr/include/wasm-rt.h"), 0o644)
    return archive(below(f"arpasim-{release.version}", {**files, **own, **runtime, **licences()}))


# ---- Debian


OWN = "usr/lib/dorydate"  # where a Debian has the package for Python, and in it the program and the page
BY_PYTHON = """#!/bin/sh
# The commands of the package dorydate: dorydate --help
at=$(readlink -f "$0") && at=${at%/bin/*}
. "$at/lib/dorydate/python"
exec python3 -S "$at/lib/dorydate/dorydate_commands.py" "$@"
"""
NAMED = """#!/bin/sh
# Replays an input: arpasim --help
at=$(readlink -f "$0") && at=${at%/bin/*}
in=$at/lib/dorydate/dorydate
exec "$in/arpasim.sh" "$in/release/arpasim" "$at/share/dorydate/examples" "$@"
"""
COPYRIGHT = b"Dorydate is under MIT or Apache-2.0, as you choose.\n\n"
CONTROL = """Package: dorydate
Version: {version}
Architecture: amd64
Maintainer: Dorydate maintainers <maintainers@dorydate.invalid>
Installed-Size: {size}
Recommends: python3 (>= 3.10)
Section: science
Priority: optional
Description: {summary}
 arpasim replays a script of events on a network of IMPs and hosts, and prints
 what crosses each interface. dorydate, which is written in Python, explains
 what it prints. The workbench, a page for a browser, is
 /usr/share/dorydate/dorydate.html.
"""


def package_of_python() -> Files:
    """The package for Python, without what is made."""
    found = sorted(Path(f"{ROOT}/python/dorydate").rglob("*"))
    kept = [it for it in found if it.is_file() and "__pycache__" not in it.parts]
    modes = {it: 0o755 if it.name == "arpasim.sh" else 0o644 for it in kept}
    return {str(it.relative_to(f"{ROOT}/python")): (it.read_bytes(), modes[it]) for it in kept}


def completed(program: bytes) -> Files:
    """What shells complete, as they look for it."""
    with tempfile.TemporaryDirectory() as room:
        write(room, {"arpasim": (program, 0o755)})
        said = subprocess.run([f"{room}/arpasim", "--help"], stdout=subprocess.PIPE, text=True, check=True).stdout
    known = completion.commands(said, [*SHORT], [*examples()])
    made = {it: completion.script(it, known).encode() for it in completion.SHELLS}
    names = ("arpasim", "dorydate")
    return {
        **{f"usr/share/bash-completion/completions/{it}": (made["bash"], 0o644) for it in names},
        "usr/share/zsh/vendor-completions/_dorydate": (made["zsh"], 0o644),
        **{f"usr/share/fish/vendor_completions.d/{it}.fish": (made["fish"], 0o644) for it in names},
    }


def debian_files(release: Release) -> Files:
    """What the package for Debian installs, but for the page, of which there is one file."""
    return {
        "usr/bin/arpasim": (NAMED.encode(), 0o755),
        "usr/bin/dorydate": (BY_PYTHON.encode(), 0o755),
        f"{OWN}/python": (read_octets(f"{ROOT}/tools/python"), 0o644),
        f"{OWN}/dorydate_commands.py": (read_octets(f"{ROOT}/python/dorydate_commands.py"), 0o644),
        **below(OWN, package_of_python()),
        **below(f"{OWN}/dorydate/release", {"arpasim": (release.native, 0o755), "note.json": (release.note, 0o644)}),
        **below(f"{OWN}/dorydate/definitions/{PACKED.name}", promised()),
        **completed(release.native),
        "usr/share/man/man1/arpasim.1.gz": (gzip.compress(manual(release.version).encode(), 9, mtime=0), 0o644),
        "usr/share/doc/dorydate/changelog.gz": (gzip.compress(read_octets(f"{ROOT}/CHANGELOG.md"), 9, mtime=0), 0o644),
        "usr/share/doc/dorydate/copyright": (COPYRIGHT + read_octets(f"{ROOT}/LICENSE-MIT"), 0o644),
        **below("usr/share/dorydate/examples", {**examples(), **programs()}),
        "usr/share/dorydate/dorydate.html": (release.page, 0o644),
    }


LINKS = {
    f"{OWN}/dorydate/release/dorydate.html": "../../../../share/dorydate/dorydate.html",
    f"{OWN}/dorydate/examples": "../../../share/dorydate/examples",
    "usr/share/doc/dorydate/examples": "../../dorydate/examples",
}


def debian_package(release: Release, folder: str) -> str:
    """Writes the package for Debian and those that follow it, and answers its name."""
    name = f"dorydate_{for_debian(release.version)}_amd64.deb"
    packed = debian_files(release)
    size = sum(len(octets) for octets, _ in packed.values()) // 1024
    control = CONTROL.format(version=for_debian(release.version), size=size, summary=SUMMARY)
    with tempfile.TemporaryDirectory() as room:
        write(room, {**packed, "DEBIAN/control": (control.encode(), 0o644)})
        for place, other in LINKS.items():
            os.symlink(other, f"{room}/{place}")
        for place, _, _ in os.walk(room):
            os.chmod(place, 0o755)
        env = {**os.environ, "SOURCE_DATE_EPOCH": str(EPOCH)}
        subprocess.run(["dpkg-deb", "--build", "--root-owner-group", "-Zxz", room, f"{folder}/{name}"], env=env, check=True, stdout=subprocess.DEVNULL)
    return name


def released_note(note: Mapping[str, object], files: Mapping[str, Mapping[str, str]]) -> bytes:
    """A note of a release, with what is said of each file."""
    return (json.dumps({**note, "files": files}, indent=4, sort_keys=True) + "\n").encode()


def needed_c_library(program: bytes) -> str:
    """The version of the C library that a native program needs at least; nothing where it needs none."""
    found = {tuple(map(int, it.split(b"."))) for it in re.findall(rb"GLIBC_(\d+(?:\.\d+)+)\0", program)}
    return ".".join(map(str, max(found))) if found and b"ld-linux" in program[:4096] else ""

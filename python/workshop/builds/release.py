"""Makes a release of the proved program in a folder: ./release [--gate CLONE] [FOLDER]

FOLDER, else out/release, is made anew, and gets

- arpasim, the native program as one static file, and arpasim.o, the object that it is linked of (workshop/builds/static.py);
- arpasim-dynamic, the file that the toolchain linked, which the gate tried;
- arpasim.wasm and arpasim64.wasm, the same program as WebAssembly, and arpasim-VERSION-c.tar.gz, C of the first;
- dorydate.html, the workbench, which holds arpasim.wasm, and lessons/NAME.html for each example that docs/lessons.md names, which opens
  the workbench at it; lessons/index.html opens it at the list of all;
- packages for pip (.whl), npm (.tgz) and Debian (.deb), and the manual page arpasim.1 (workshop/builds/packages.py);
- site/, all pages and examples as files (workshop/builds/site.py), for which python3-markdown has to be installed;
- TAG.txt, the text of the tag; NOTE.txt and note.json: which sources, toolchain and gate all this comes from, and what it needs;
- the licences, and SHA256SUMS of everything.

./build has to have proved the program. The same sources, toolchain and commit give the same octets, so a second call can be compared with
the first one. The static program, the page, the wheel and their note are also put into released/, to be committed: with them a fresh clone has
what runs without a build.
"""

from __future__ import annotations

import hashlib
import html
import os
import re
import shutil
import subprocess
import sys

from workshop.builds import packages, site
from workshop.builds.manual import manual
from workshop.builds.packages import LICENCES, Refused, Release
from workshop.builds.static import NotTheSame, static_program
from workshop.documents.versions import faults as other_versions, for_debian, for_python, version
from workshop.parts import ROOT, read_octets, text_of
from workshop.wasm.make import read_note
from workshop.wasm.pack import title_of
from workshop.words import Words

LESSON = re.compile(r"\]\(\.\./examples/([a-z0-9-]+)\)")
STATIC = "the machine code of the proved program, linked statically with Debian's C library"
PAGE = "the workbench, which holds the module that was made of the same LLVM module"
WHEEL = "the package for pip, with both"


def printed(*words: str) -> str:
    """What a command prints, without the last line feed."""
    return subprocess.run(words, cwd=ROOT, stdout=subprocess.PIPE, text=True, check=True).stdout.strip()


def write(path: str, octets: bytes) -> None:
    with open(path, "wb") as file:
        file.write(octets)


def lessons() -> list[str]:
    """The examples that the lessons name."""
    return sorted(set(LESSON.findall(text_of(f"{ROOT}/docs/lessons.md"))))


def opening(title: str, place: str) -> str:
    """A page that opens the workbench at a place."""
    title, address = html.escape(title), f"../dorydate.html#{place}"
    return f"""<!doctype html>
<html lang="en">
<meta charset="utf-8">
<meta http-equiv="refresh" content="0; url={address}">
<title>{title}</title>
<p><a href="{address}">{title}</a></p>
"""


def write_lessons(folder: str) -> int:
    """Makes the pages of all lessons, and answers how many."""
    os.mkdir(folder)
    names = lessons()
    for name in names:
        title = title_of(name, text_of(f"{ROOT}/examples/{name}"))
        write(f"{folder}/{name}.html", opening(title, f"e={name}").encode())
    write(f"{folder}/index.html", opening("All lessons, with their questions", "lessons").encode())
    return len(names)


def gate(kept: str, clone: str) -> str:
    """What the gate said when it last passed on these sources, in a clone: it is kept by their hash."""
    try:
        return text_of(f"{clone}/out/{os.path.basename(os.path.dirname(kept))}/gate").strip()
    except OSError:
        return "the whole gate has not passed on these sources; `rt ci` has proved each crate of them"


def tag() -> str:
    """The text of the tag."""
    return text_of(f"{ROOT}/python/workshop/builds/tag.txt").replace("VERSION", version())


def sha256(octets: bytes) -> str:
    return hashlib.sha256(octets).hexdigest()


def facts(kept: str, clone: str) -> dict[str, object]:
    """What the note of a release says of all its files."""
    module = read_note(f"{kept}.wasm")
    told = {key: module[key] for key in ("sources", "toolchain", "mark", "proved")}
    return {
        **told,
        "version": version(),
        "commit": printed("git", "rev-parse", "HEAD"),
        "gate": gate(kept, clone),
        "linked": printed("gcc", "--version").splitlines()[0] + ", " + printed("ldd", "--version").splitlines()[0],
        "module": sha256(read_octets(f"{kept}.wasm")),
    }


def note_of(note: dict[str, object], dynamic: bytes, count: int) -> str:
    """The note of a release, for people."""
    return f"""Dorydate {note["version"]}, commit {note["commit"]}

Sources (tools/kept-program): {note["sources"]}
Toolchain: {note["toolchain"]}
Mark of the compiler in the modules: {note["mark"]}
Gate: {note["gate"]}

arpasim is for Linux on x86-64 with a processor of 2009 or later (x86-64-v2), and needs nothing else. It is
{STATIC}
({note["linked"]}). To link it with another one: gcc -static arpasim.o libos_c.a
liblibc_c.a, two libraries of the toolchain. arpasim-dynamic is the file that the toolchain linked and
the gate tried; it needs glibc {packages.needed_c_library(dynamic)} or later.

arpasim.wasm has addresses of 32 bits, and arpasim64.wasm of 64. Both are made of the LLVM module
that arpasim is made of. arpasim-{note["version"]}-c.tar.gz is C that wasm2c made of arpasim.wasm, for
other systems; its README has the line that compiles it. dorydate.html holds arpasim.wasm, and opens
from a file in a browser of 2023 or later, without a network. lessons/ has {count} pages that open it.

    pip install dorydate-{for_python(str(note["version"]))}-py3-none-any.whl     arpasim, dorydate explain, explore, export, ..
    npm install -g ./dorydate-{note["version"]}.tgz              arpasim and dorydate, by Node 18 or later
    dpkg -i dorydate_{for_debian(str(note["version"]))}_amd64.deb                  arpasim, its manual page, the workbench

The wheel has arpasim, and for other systems the page, whose module Node 18 or later runs.
docs/browser.md of the repository says what is trusted in a module beyond arpasim.
"""


def is_clean() -> bool:
    """Whether the files are those of the commit, but for the page that a release itself writes."""
    return not printed("git", "status", "--porcelain", "--untracked-files=no", "--", ".", ":!released")


def sums_of(folder: str) -> str:
    """A line for each file of a folder and those below it, as `sha256sum -c` reads it."""
    files = sorted(os.path.relpath(f"{place}/{it}", folder) for place, _, names in os.walk(folder) for it in names)
    return "".join(f"{sha256(read_octets(f'{folder}/{it}'))}  {it}\n" for it in files)


def keep(folder: str, note: dict[str, object], wheel: str) -> None:
    """Puts what a fresh clone runs, and the note of it, into the repository, in place of what was there."""
    kinds = {"arpasim": STATIC, "dorydate.html": PAGE, wheel: WHEEL}
    shutil.rmtree(f"{ROOT}/released", ignore_errors=True)
    os.mkdir(f"{ROOT}/released")
    for name in kinds:
        shutil.copy2(f"{folder}/{name}", f"{ROOT}/released/{name}")
    files = {name: {"is": kind, "sha256": sha256(read_octets(f"{folder}/{name}"))} for name, kind in kinds.items()}
    write(f"{ROOT}/released/note.json", packages.released_note(note, files))


def empty(folder: str) -> None:
    """Makes a folder anew, unless something else is in it."""
    if os.path.exists(folder):
        if os.listdir(folder) and not os.path.exists(f"{folder}/SHA256SUMS"):
            raise Refused(f"{folder} is there already, and is no release")
        shutil.rmtree(folder)
    os.makedirs(folder)


def kept_program() -> str:
    """The proved program of a clone without changes."""
    kept = printed("tools/kept-program")
    if not os.path.exists(kept):
        raise Refused("the program of these sources is not proved here: ./build proves it")
    if not is_clean():
        raise Refused("there are changes that are not committed, and a release names its commit")
    if wrong := [*other_versions()]:
        raise Refused("; ".join(wrong))
    return kept


def noted(folder: str, note: dict[str, object]) -> Release:
    """What packages are made of, from a folder into which the note is written."""
    native, page, module = (read_octets(f"{folder}/{it}") for it in ("arpasim", "dorydate.html", "arpasim.wasm"))
    files = {"arpasim": {"is": STATIC, "sha256": sha256(native)}, "dorydate.html": {"is": PAGE, "sha256": sha256(page)}}
    release = Release(version(), native, page, module, packages.released_note(note, files))
    write(f"{folder}/note.json", release.note)
    return release


def write_packages(folder: str, release: Release) -> str:
    """Packs what is in the folder for those who install it. The name of the wheel."""
    write(f"{folder}/dorydate-{release.version}.tgz", packages.npm_package(release))
    write(f"{folder}/arpasim-{release.version}-c.tar.gz", packages.c_of_module(release))
    write(f"{folder}/arpasim.1", manual(release.version).encode())
    packages.debian_package(release, folder)
    return packages.wheel(release, folder)


def put_programs(kept: str, folder: str, clone: str) -> dict[str, object]:
    """Puts each form of a proved program, the page and the licences into a folder. What a note says of them."""
    page = printed("tools/keep-wasm")
    static_program(kept, f"{folder}/arpasim")
    shutil.copy2(kept, f"{folder}/arpasim-dynamic")
    for name, path in {"arpasim.wasm": f"{kept}.wasm", "arpasim64.wasm": f"{kept}64.wasm", "dorydate.html": page, **{it: f"{ROOT}/{it}" for it in LICENCES}}.items():
        shutil.copyfile(path, f"{folder}/{name}")
    return facts(kept, clone)


def make(folder: str, clone: str) -> None:
    """Makes the release of what was proved here; the gate may have passed in another clone."""
    kept = kept_program()
    empty(folder)
    note = put_programs(kept, folder, clone)
    count = write_lessons(f"{folder}/lessons")
    site.made(f"{folder}/site", f"{folder}/dorydate.html", kept)
    wheel = write_packages(folder, noted(folder, note))
    write(f"{folder}/TAG.txt", tag().encode())
    write(f"{folder}/NOTE.txt", note_of(note, read_octets(kept), count).encode())
    write(f"{folder}/SHA256SUMS", sums_of(folder).encode())
    keep(folder, note, wheel)


def main() -> int:
    words = Words(__doc__, "./release")
    words.add_argument("folder", nargs="?", default=f"{ROOT}/out/release", metavar="FOLDER")
    where = "the clone in which .ci/run passed on these sources (this one)"
    words.add_argument("--gate", default=ROOT, metavar="CLONE", help=where)
    asked = words.parse_args()
    folder = os.path.abspath(asked.folder)
    try:
        make(folder, asked.gate)
    except (Refused, NotTheSame, site.NoSite, OSError, subprocess.CalledProcessError) as why:
        print(f"release: {why}", file=sys.stderr)
        return 1
    print(f"release: {folder} is made, and released/ has what a clone runs, to be committed; ./check release tries all of it")
    return 0

"""The forms of a release, each installed into a folder of its own, where it has to run every example as stored."""

from __future__ import annotations

import json
import os
import shutil
import tempfile
from collections.abc import Callable
from dataclasses import dataclass
from typing import Any

from workshop.builds import packages
from workshop.builds.packages import Release
from workshop.checks.cases import cases_below
from workshop.checks.installed_wheel import check_commands, check_notebook, check_twice, check_types, install_wheel
from workshop.checks.installed_wheel import native_in
from workshop.checks.wrong import Wrong, call
from workshop.parts import ROOT, read_octets, text_of
from workshop.tools import lacking, left_out
from workshop.wasm import pack


def check_examples(what: str, program: str) -> int:
    """Every example has to end as stored, but that a form may say after a fault what helps. How many there are."""
    cases = [*cases_below(f"{ROOT}/examples")]
    for case in cases:
        if how := case.differs(program, may_help=True):
            raise Wrong(f"{what}: {case.name}: {how}")
    print(f"check release: {what}: {len(cases)} examples, each as stored", flush=True)
    return len(cases)


# ---- each form


def check_wheel(file: str, room: str) -> None:
    """Its commands, its types, the notebook, and its module in place of its native program."""
    check_commands(room)
    check_types(room)
    check_notebook(file, room)
    check_twice(os.path.dirname(file))
    if shutil.which("node"):
        os.remove(native_in(room))
        check_examples("the wheel by Node", f"{room}/venv/bin/arpasim")


def install_static(file: str, room: str) -> str:
    """The static program, which has to need no other file."""
    if b"ld-linux" in read_octets(file)[:4096]:
        raise Wrong("arpasim is not static")
    return file


def install_npm(file: str, room: str) -> str:
    """The package for npm: installed by npm where that is here, else unpacked."""
    if not shutil.which("npm"):
        call("tar", "-xzf", file, "-C", room)
        return f"{room}/package/run/arpasim.mjs"
    call("npm", "install", "--offline", "--no-audit", "--no-fund", "--prefix", room, file, cwd=room)
    return f"{room}/node_modules/.bin/arpasim"


def check_npm(file: str, room: str) -> None:
    """Its other command."""
    if not shutil.which("npm"):
        lacking("release", "npm with the package for it, which was unpacked", "npm")
    elif "first-message" not in call("npx", "--offline", "dorydate", "examples", cwd=room):
        raise Wrong("npx dorydate examples lists none")


def install_debian(file: str, room: str) -> str:
    """The package for Debian, unpacked."""
    call("dpkg-deb", "-x", file, room)
    return f"{room}/usr/bin/arpasim"


def check_debian(file: str, room: str) -> None:
    """Its other command, which is written in Python, an input that is named, and its manual page."""
    first = f"{room}/usr/share/dorydate/examples/first-message"
    explained = call(f"{room}/usr/bin/dorydate", "explain", first, cwd=room)
    if "prints: out 0/1 0/2 5 24" not in explained or "end" not in call(f"{room}/usr/bin/arpasim", first, cwd=room):
        raise Wrong("the package for Debian doesn't explain an input that is named")
    page = f"{room}/usr/share/man/man1/arpasim.1.gz"
    if not shutil.which("man"):
        lacking("release", "the manual page", "man")
    elif "ARPASIM(1)" not in call("man", "-l", page, env={**os.environ, "MANPAGER": "cat"}):
        raise Wrong("the manual page is not one")


def install_c(file: str, room: str) -> str:
    """The C of the module, compiled as its README says."""
    call("tar", "-xzf", file, "-C", room)
    (folder,) = os.listdir(room)
    (line,) = [it.strip() for it in text_of(f"{room}/{folder}/README").splitlines() if it.startswith("    cc ")]
    call("sh", "-c", line, cwd=f"{room}/{folder}")
    return f"{room}/{folder}/arpasim"


@dataclass(frozen=True)
class Form:
    """What a form is called, how its file's name ends, the command that it needs, how it is installed and tried."""

    what: str
    ending: str
    command: str
    install: Callable[[str, str], str]
    check: Callable[[str, str], None] = lambda file, room: None


FORMS = (
    Form("the static program", "arpasim", "uname", install_static),
    Form("the wheel", ".whl", "python3", install_wheel, check_wheel),
    Form("the package for npm", ".tgz", "node", install_npm, check_npm),
    Form("the package for Debian", ".deb", "dpkg-deb", install_debian, check_debian),
    Form("the C of the module", "-c.tar.gz", "cc", install_c),
)


def file_of(form: Form, folder: str) -> str | None:
    """The file of a form in the folder of a release."""
    return next((f"{folder}/{it}" for it in sorted(os.listdir(folder)) if it.endswith(form.ending)), None)


# ---- what is packed of the same program


def sources_in(folder: str) -> str:
    """The hash of the sources that a release in a folder is of; nothing where there is none."""
    note = f"{folder}/note.json"
    return str(json.loads(text_of(note))["sources"]) if os.path.exists(note) else ""


def release_in(folder: str) -> Release:
    """What packages are made of, from the folder of a release."""
    note: dict[str, Any] = json.loads(text_of(f"{folder}/note.json"))
    native, page = (read_octets(f"{folder}/{it}") for it in ("arpasim", "dorydate.html"))
    files = {it: note["files"][it] for it in ("arpasim", "dorydate.html")}
    others = {key: it for key, it in note.items() if key != "files"}
    return Release(note["version"], native, page, pack.module_in(page.decode()), packages.released_note(others, files))


def complete(folder: str, room: str) -> list[str]:
    """Puts a release into a room, and packs the forms that it lacks of its program and page. What could not be packed."""
    for name in os.listdir(folder):
        if os.path.isfile(f"{folder}/{name}"):
            shutil.copy2(f"{folder}/{name}", f"{room}/{name}")
    release, left = release_in(folder), []
    makers: dict[str, Callable[[], object]] = {
        ".whl": lambda: packages.wheel(release, room),
        ".tgz": lambda: write(f"{room}/dorydate-{release.version}.tgz", packages.npm_package(release)),
        ".deb": lambda: packages.debian_package(release, room),
        "-c.tar.gz": lambda: write(f"{room}/arpasim-{release.version}-c.tar.gz", packages.c_of_module(release)),
    }
    for form in FORMS:
        if form.ending in makers and not file_of(form, folder):
            try:
                makers[form.ending]()
            except (packages.Refused, OSError) as why:
                left_out("release", form.what, str(why))
                left.append(form.what)
    return left


def write(path: str, octets: bytes) -> None:
    with open(path, "wb") as file:
        file.write(octets)


def check_forms(folder: str) -> list[str]:
    """Tries each form of a release. What could not be tried."""
    with tempfile.TemporaryDirectory() as whole:
        left = complete(folder, whole)
        for form in FORMS:
            file = file_of(form, whole)
            if file is None:
                continue
            if not shutil.which(form.command):
                left_out("release", form.what, f"{form.command} is not installed")
                left.append(form.what)
                continue
            with tempfile.TemporaryDirectory() as room:
                check_examples(form.what, form.install(file, room))
                form.check(file, room)
    return left

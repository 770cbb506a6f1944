"""The wheel in an environment of its own: its commands, what a user writes, the notebook; and built again."""

from __future__ import annotations

import io
import json
import os
import re
import shutil
import subprocess
import sys
import tempfile
import zipfile
from pathlib import Path

from dorydate.definitions.promise import files_of_promise
from workshop.builds.packages import Refused, python_with_setuptools
from workshop.checks.wrong import Wrong, call
from workshop.documents.notebook import NOTEBOOK
from workshop.parts import ROOT, read_octets, text_of
from workshop.tools import lacking, python_with
from workshop.wasm import pack

CELLS = f"{ROOT}/python/workshop/checks/cells.py"
COMMANDS = (["explain"], ["explain", "--chart"], ["explain", "--page"], ["export", "--shiviz"], ["version"], ["page"])
SEARCH = ("explore", "resets-in-step", "--quiet", "--runs", "1000", "--matches", "1")
WRONG_LINE = 'net.calm("x")'
# what a wheel and a page are built of, beside the definitions of the promise
PARTS = ("python", "examples", "web", "docs/chronology.md", "docs/program.md", "LICENSE-APACHE", "LICENSE-MIT")
BUILD = """
import json, sys
from workshop.builds import packages
from workshop.wasm import pack
folder, to = sys.argv[1:]
native, page, text = (packages.read_octets(f"{folder}/{it}") for it in ("arpasim", "dorydate.html", "note.json"))
note = json.loads(text)
files = {it: note["files"][it] for it in ("arpasim", "dorydate.html")}
del note["files"]
noted = packages.released_note(note, files)
print(packages.wheel(packages.Release(note["version"], native, page, pack.module_in(page.decode()), noted), to))
"""


# ---- installed


def install_wheel(file: str, room: str) -> str:
    """Installs it into an environment in a room, and answers the path of its `arpasim`."""
    call(sys.executable, "-m", "venv", f"{room}/venv")
    call(f"{room}/venv/bin/pip", "install", "--quiet", "--no-index", "--disable-pip-version-check", file)
    return f"{room}/venv/bin/arpasim"


def surroundings(room: str) -> dict[str, str]:
    """What a user's shell has there."""
    return {"PATH": f"{room}/venv/bin:{os.environ['PATH']}", "HOME": room, "LANG": "C.UTF-8"}


def native_in(room: str) -> str:
    """Where the native program is."""
    (native,) = Path(f"{room}/venv/lib").rglob("release/arpasim")
    return str(native)


def check_commands(room: str) -> None:
    """Each command does something."""
    env = surroundings(room)
    first = call(f"{room}/venv/bin/dorydate", "examples", "first-message", cwd=room, env=env)
    for words in COMMANDS:
        if not call(f"{room}/venv/bin/dorydate", *words, cwd=room, env=env, input=first):
            raise Wrong(f"dorydate {' '.join(words)} prints nothing")
    call(f"{room}/venv/bin/python", "-m", "dorydate", *SEARCH, cwd=room, env=env)
    judged = call(f"{room}/venv/bin/dorydate", "explain", "--promise", f"{ROOT}/logs/two-octets", cwd=room, env=env)
    if "broken" in judged or "holds  promise.within" not in judged:
        raise Wrong("dorydate explain --promise doesn't judge a log")


def program_of_a_user() -> str:
    """The notebook's cells, as a program."""
    cells = [it for it in json.loads(text_of(NOTEBOOK))["cells"] if it["cell_type"] == "code"]
    return "".join("".join(it["source"]) + "\n" for it in cells)


def check_types(room: str) -> None:
    """The package as installed, and a user's program, are right to mypy; and one that calls it wrongly isn't."""
    if not shutil.which("mypy"):
        lacking("release", "types of the wheel", "mypy")
        return
    mypy = ("mypy", "--strict", "--python-executable", f"{room}/venv/bin/python", "--cache-dir", f"{room}/mypy")
    call(*mypy, "-p", "dorydate", cwd=room)
    for name, more in ("right", ""), ("wrong", f"{WRONG_LINE}\n"):
        with open(f"{room}/{name}.py", "w", encoding="utf-8") as file:
            file.write(program_of_a_user() + more)
    call(*mypy, "right.py", cwd=room)
    ran = subprocess.run([*mypy, "wrong.py"], cwd=room, capture_output=True, text=True, check=False)
    if ran.returncode == 0 or "incompatible type" not in ran.stdout:
        raise Wrong(f"mypy --strict finds nothing wrong with {WRONG_LINE}: {ran.stdout}")
    print("check release: the wheel: mypy --strict finds nothing in dorydate, as installed, nor in a program that")
    print(f"  imports it, and refuses `{WRONG_LINE}`", flush=True)


def check_notebook(file: str, room: str) -> None:
    """Each cell of the notebook shows what is stored: run by Python, and by Jupyter where that is installed."""
    count = call(f"{room}/venv/bin/python", "-I", CELLS, NOTEBOOK, cwd=room, env=surroundings(room)).strip()
    python, by = python_with("nbclient", "ipykernel"), "Python"
    if not python:
        lacking("release", "the notebook by Jupyter", "Jupyter")
    else:
        own = f"{room}/jupyter"
        call(python, "-m", "venv", "--system-site-packages", own)
        call(f"{own}/bin/pip", "install", "--quiet", "--no-index", "--disable-pip-version-check", file)
        call(f"{own}/bin/python", "-m", "ipykernel", "install", "--sys-prefix")
        env = {"PATH": f"{own}/bin:{os.environ['PATH']}", "HOME": room, "LANG": "C.UTF-8"}
        call(f"{own}/bin/python", "-I", CELLS, "--jupyter", NOTEBOOK, cwd=room, env=env)
        by = "Python and by Jupyter"
    print(f"check release: the wheel: the {count} cells of the notebook show what is stored, run by {by}", flush=True)


# ---- built again


def built(tree: str, folder: str, to: str, **env: str) -> bytes:
    """The wheel that the tree of a clone makes of the program and the page in a folder."""
    os.mkdir(to)
    how = {**os.environ, "PYTHONPATH": f"{tree}/python", "PYTHONDONTWRITEBYTECODE": "1", **env}
    name = call(sys.executable, "-c", BUILD, folder, to, cwd=to, env=how).splitlines()[-1]
    return read_octets(f"{to}/{name}")


def members(wheel: bytes) -> dict[str, bytes]:
    """What is in a wheel, but for the line that names what has packed it, and the hash of that."""
    with zipfile.ZipFile(io.BytesIO(wheel)) as read:
        found = {it: read.read(it) for it in read.namelist()}
    packer = re.compile(rb"^(Generator:|.*/WHEEL,).*$", re.MULTILINE)
    return {it: packer.sub(b"", octets) if "dist-info" in it else octets for it, octets in found.items()}


def check_twice(folder: str) -> None:
    """Two builds have the same octets, though folders, times of files, modes and time zones differ."""
    try:
        python_with_setuptools()
    except Refused as why:
        print(f"check release: the wheel: it was not built again, since {why}")
        return
    with tempfile.TemporaryDirectory() as room:
        for part in (*PARTS, *(f"crates/{it}" for it in files_of_promise())):
            os.makedirs(os.path.dirname(f"{room}/tree/{part}"), exist_ok=True)
            call("cp", "-r", f"{ROOT}/{part}", f"{room}/tree/{part}")
        call("chmod", "-R", "go-rwx", f"{room}/tree")
        one = built(ROOT, folder, f"{room}/one", TZ="UTC", PYTHONHASHSEED="1")
        other = built(f"{room}/tree", folder, f"{room}/other", TZ="Asia/Kathmandu", PYTHONHASHSEED="2", HOME=room)
    if one != other:
        raise Wrong("two builds of the wheel have different octets")
    print(f"check release: the wheel: two builds, of two copies of the clone, have the same {len(one):,} octets")


def check_page(tree: str, folder: str, commit: str) -> None:
    """The tree of a commit packs the page around its module again."""
    with tempfile.TemporaryDirectory() as room:
        with open(f"{room}/module", "wb") as file:
            file.write(pack.module_in(text_of(f"{folder}/dorydate.html")))
        call(sys.executable, "-B", f"{tree}/python", "pack", f"{tree}/web/workbench", f"{room}/module", f"{room}/page")
        if read_octets(f"{room}/page") != read_octets(f"{folder}/dorydate.html"):
            raise Wrong(f"the page is not the one of commit {commit[:8]}, which its note names")
    print(f"check release: the page: commit {commit[:8]} gives it again, octet for octet")


def check_built_again(folder: str, wheel: str, commit: str) -> None:
    """The commit that a release names gives its page and its wheel again."""
    with tempfile.TemporaryDirectory() as room:
        parts = ["git", "archive", commit, *PARTS, "crates"]
        archive = subprocess.run(parts, cwd=ROOT, capture_output=True, check=False)
        if archive.returncode:
            print(f"check release: commit {commit[:8]} is not in this clone, so page and wheel were not made again")
            return
        os.mkdir(f"{room}/tree")
        subprocess.run(["tar", "-x", "-C", f"{room}/tree"], input=archive.stdout, check=True)
        check_page(f"{room}/tree", folder, commit)
        try:
            python_with_setuptools()
        except Refused:
            return
        again, there = built(f"{room}/tree", folder, f"{room}/made"), read_octets(wheel)
    if again == there:
        print(f"check release: the wheel: commit {commit[:8]} gives it again, octet for octet")
    elif members(again) == members(there):
        print(f"check release: the wheel: commit {commit[:8]} gives its files again, packed by other tools here")
    else:
        raise Wrong(f"the wheel is not the one of commit {commit[:8]}, which its note names")

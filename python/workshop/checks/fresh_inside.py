"""What is done within a fresh system: python3 -m workshop.checks.fresh_inside FILE, where it writes what it found."""

from __future__ import annotations

import hashlib
import json
import os
import resource
import shutil
import subprocess
import sys
import tempfile
import time
from collections.abc import Callable, Sequence
from dataclasses import asdict, dataclass
from pathlib import Path
from typing import Any, TypedDict, TypeVar

from workshop.checks.installed import FORMS, Form, check_examples, file_of
from workshop.checks.installed_wheel import native_in
from workshop.checks.wrong import Wrong, call
from workshop import words as takes
from workshop.parts import ROOT, read_octets
from workshop.wasm import pack

REPOSITORY, RELEASE = "/srv/dorydate.git", "/srv/release"
FIRST = read_octets(f"{ROOT}/examples/first-message")
OTHER_MACHINE = ("setarch", "i686")  # what `uname -m` says then
SOURCE = "crates/arpasim/src/main.rt"
SECONDS = 2.0  # of the processor, which README's first command may take in a fresh clone
SEARCHES = (
    "taken-and-incomplete --runs 4000 --matches 5",
    "resets-in-step --runs 2000 --matches 3",
    "lost-at-a-close --runs 8000 --matches 2",
    "noted-before-it-comes --all 5",
)
Words = Sequence[str]
Answer = TypeVar("Answer")


class Took(TypedDict):
    """The seconds of a call: by the clock, and of the processor, with all that it starts."""

    clock: float
    processor: float


@dataclass(frozen=True)
class Row:
    """What the first and the second call of something took, and how many examples it ran."""

    what: str
    first: Took
    second: Took
    examples: int = 0


def timed(words: Words, given: bytes = FIRST, **how: Any) -> tuple[Took, bytes]:
    """What a call takes, and what it prints. It has to succeed."""
    used, began = resource.getrusage(resource.RUSAGE_CHILDREN), time.perf_counter()
    ran = subprocess.run(words, input=given, capture_output=True, check=False, **how)
    took, now = time.perf_counter() - began, resource.getrusage(resource.RUSAGE_CHILDREN)
    if ran.returncode or not ran.stdout:
        raise Wrong(f"{' '.join(words)} ended with {ran.returncode}: {ran.stderr.decode()[-2000:]}")
    processor = now.ru_utime + now.ru_stime - used.ru_utime - used.ru_stime
    return Took(clock=took, processor=processor), ran.stdout


def called(what: str, words: Words, given: bytes = FIRST, **how: Any) -> Row:
    """A row of two calls."""
    return Row(what, timed(words, given, **how)[0], timed(words, given, **how)[0])


def with_examples(row: Row, program: str) -> Row:
    """The row of a program, which has to run every example."""
    return Row(row.what, row.first, row.second, check_examples(row.what, program))


# ---- a clone


def cloned(room: str) -> str:
    """A new clone."""
    folder = tempfile.mkdtemp(dir=room)
    call("git", "clone", "--quiet", REPOSITORY, folder)
    time.sleep(SECONDS + 1)  # (what was written just now may be written again within the grain of the clock)
    return folder


def of_clone(what: str, clone: str, before: Words = ()) -> Row:
    """The row of `./arpasim` in a new clone; of the examples, what that starts."""
    row = called(what, [*before, f"{clone}/arpasim"])
    if row.first["processor"] > SECONDS:
        raise Wrong(f"{what}: the first call takes {row.first['processor']:.2f} s of the processor")
    return with_examples(row, call(*before, f"{clone}/tools/program").strip())


def clone_rows(room: str) -> list[Row]:
    """README's commands in a new clone."""
    clone = cloned(room)
    rows = [of_clone("a clone: `./arpasim`", clone)]
    _, log = timed([f"{clone}/arpasim", "--log"])
    for line, given in (
        ("./explain", FIRST),
        ("./explain --chart", FIRST),
        ("./explain --page", FIRST),
        ("./explore resets-in-step --quiet --matches 1", b""),
        ("./export --shiviz", FIRST),
        ("./arpasim --trace", FIRST),
        ("./arpasim --audit", log),
    ):
        command, *words = line.split()
        rows.append(called(f"a clone: `{line}`", [f"{clone}/{command[2:]}", *words], given))
    note = json.loads(Path(f"{clone}/released/note.json").read_text(encoding="utf-8"))
    held = pack.module_in(timed([f"{clone}/explain", "--page"])[1].decode())
    if hashlib.sha256(held).hexdigest() != note["module"]:
        raise Wrong("./explain --page has packed another module than the released one")
    return rows


def by_node_row(room: str) -> Row:
    """A clone on a machine of another kind."""
    return of_clone("a clone where `uname -m` says i686, by Node: `./arpasim`", cloned(room), OTHER_MACHINE)


def said(words: Words) -> tuple[int, str]:
    """The status of a call, and what it says on standard error."""
    ran = subprocess.run(words, input=FIRST, capture_output=True, check=False)
    return ran.returncode, ran.stderr.decode().strip()


def only_line(words: Words, wanted: str) -> str:
    """The one line with which a call is refused."""
    status, line = said(words)
    if status == 0 or "\n" in line or wanted not in line:
        raise Wrong(f"{' '.join(words)} ended with {status}, and said: {line}")
    return line


def changed(path: str) -> None:
    """Changes one bit of a file."""
    octets = bytearray(read_octets(path))
    octets[len(octets) // 2] ^= 1
    Path(path).write_bytes(octets)


def hidden(path: str, call: Callable[[], Answer]) -> Answer:
    """What a call answers while a file is not there."""
    os.rename(path, f"{path}.hidden")
    try:
        return call()
    finally:
        os.rename(f"{path}.hidden", path)


def refusals(room: str) -> dict[str, str]:
    """What is said where nothing can run, in one line each."""
    other, clone = cloned(room), cloned(room)
    node = os.path.realpath(shutil.which("node") or "")
    elsewhere = [*OTHER_MACHINE, f"{other}/arpasim"]
    found = {"a machine of another kind, without Node": hidden(node, lambda: only_line(elsewhere, "Node 18 or later"))}
    with open(f"{clone}/{SOURCE}", "a", encoding="utf-8") as file:
        file.write("// changed\n")
    found["a changed source"] = only_line([f"{clone}/arpasim"], "nothing is released of these sources")
    call("git", "checkout", "--quiet", SOURCE, cwd=clone)
    for name in ("arpasim", "dorydate.html"):
        changed(f"{clone}/released/{name}")
    status, lines = said([f"{clone}/arpasim"])
    if status == 0 or lines.count(" is refused: its hash is ") != 2:
        raise Wrong(f"a clone with changed released files ended with {status}, and said: {lines}")
    found["a released file that was changed"] = lines.splitlines()[0]
    return {what: line.replace(f"{room}/", "") for what, line in found.items()}


def rebuilt_row(room: str) -> Row:
    """A clone with a changed source, where there is the toolchain: no released program answers."""
    clone = cloned(room)
    with open(f"{clone}/{SOURCE}", "a", encoding="utf-8") as file:
        file.write("// changed\n")
    row = called("a clone with a changed source, built without proofs: `./arpasim`", [f"{clone}/arpasim"])
    _, lines = said([f"{clone}/arpasim"])
    if "so it is not proved" not in lines:
        raise Wrong(f"a changed source is answered without a word: {lines}")
    return row


# ---- each form


def install_debian(file: str, room: str) -> str:
    """Installs the package for Debian."""
    call("dpkg", "-i", file)
    return "/usr/bin/arpasim"


def form_rows(form: Form, file: str, room: str) -> list[Row]:
    """Installs a form, and runs what it brings."""
    install = install_debian if form.ending == ".deb" else form.install
    program = install(file, room)
    rows = [with_examples(called(f"{form.what}: `arpasim`", [program]), program)]
    if form.ending == ".whl":
        rows.append(called("the wheel: `dorydate explain`", [f"{room}/venv/bin/dorydate", "explain"]))
    if form.ending == ".tgz":
        words = ["npx", "--offline", "dorydate", "examples"]
        rows.append(called("the package for npm: `npx dorydate examples`", words, b"", cwd=room))
    form.check(file, room)
    if form.ending == ".whl":  # (its native program is gone by now)
        rows.append(with_examples(called("the wheel by Node: `arpasim`", [program]), program))
        rows.append(called("the wheel by Node: `dorydate explain`", [f"{room}/venv/bin/dorydate", "explain"]))
    return rows


def search_rows(room: str) -> list[dict[str, object]]:
    """Searches by the wheel: native, and by Node."""
    (wheel,) = [it for it in FORMS if it.ending == ".whl"]
    wheel.install(file_of(wheel, RELEASE) or "", room)
    native, rows = native_in(room), []
    for line in SEARCHES:
        words = [f"{room}/venv/bin/dorydate", "explore", *line.split(), "--quiet", "--seed", "1", "--cores", "1"]
        own, found = timed(words)
        by_node, again = hidden(native, lambda: timed(words))
        if found != again:
            raise Wrong(f"by Node `{' '.join(words)}` finds something else")
        rows.append({"what": f"`dorydate explore {line}`", "native": own["processor"], "by_node": by_node["processor"]})
    return rows


def run() -> int:
    words = takes.Words(__doc__)
    words.add_argument("file", type=Path, metavar="FILE", help="where what is found is written")
    asked, found = words.asked(), dict[str, Any]()
    with tempfile.TemporaryDirectory(dir="/root") as room:
        rows = clone_rows(room)
        if shutil.which("rt"):
            found["toolchain"] = call("rt", "version").strip().splitlines()[0]
            rows.append(rebuilt_row(room))
        else:
            rows.append(by_node_row(room))
            found["refused"] = refusals(room)
            for form in FORMS:
                file = file_of(form, RELEASE)
                if file and shutil.which(form.command):
                    rows += form_rows(form, file, tempfile.mkdtemp(dir=room))
            found["searches"] = search_rows(tempfile.mkdtemp(dir=room))
            versions = [f"Python {sys.version.split()[0]}", f"Node {call('node', '--version').strip()[1:]}"]
            found["system"] = f"Debian {Path('/etc/debian_version').read_text().strip()} with {' and '.join(versions)}"
    found["rows"] = [asdict(it) for it in rows]
    asked.file.write_text(json.dumps(found), encoding="utf-8")
    return 0


if __name__ == "__main__":
    try:
        sys.exit(run())
    except Wrong as why:
        print(f"check fresh: {why}", file=sys.stderr)
        sys.exit(1)

"""What is released runs in a Debian without the toolchain (ten minutes): ./check fresh [--write] [--tests] [--root FOLDER]

As root, on a machine with debootstrap: FOLDER (/var/tmp/dorydate-fresh) becomes a system of Debian's packages git,
python3, python3-venv, python3-pip, nodejs and npm, if it is none yet, which needs the network. In it, without a network,
- a clone runs README's commands, and the static program, the wheel and the packages for npm and Debian are installed;
- each runs every example as stored, and what its first and second call take is measured;
- what can't run is refused in one line that names another way (workshop.checks.fresh_inside);
- then a clone does the same with the toolchain on the path, and has a program built once a source was changed.

--write makes docs/measured/fresh.md of it. --tests runs tools/fresh in a copy of that system, which needs the network,
in place of all this. It is no part of the gate.
"""

from __future__ import annotations

import json
import os
import shutil
import subprocess
import sys
import time
from pathlib import Path
from typing import Any

from workshop.builds.unproved import kept_for_sources
from workshop.checks.installed import complete, sources_in
from workshop.checks.wrong import Wrong, call
from workshop.parts import ROOT
from workshop.words import Words

PAGE = f"{ROOT}/docs/measured/fresh.md"
SYSTEM = ("git", "python3", "python3-venv", "python3-pip", "nodejs", "npm", "ca-certificates")
MIRROR = "http://deb.debian.org/debian"
# mounts /proc, and the toolchain where it has to be there, and runs words within the folder
ENTER = """
set -e
root=$1 kit=$2
shift 2
mount -t proc proc "$root/proc"
if [ -n "$kit" ]; then mkdir -p "$root$kit" && mount --bind -o ro "$kit" "$root$kit"; fi
path=${kit:+$kit/bin:}/usr/local/sbin:/usr/local/bin:/usr/sbin:/usr/bin:/sbin:/bin
exec chroot "$root" env -i PATH="$path" HOME=/root LANG=C.UTF-8 "$@"
"""
HEAD = "| What | First call | Second call | Examples as stored |\n|---|---|---|---|\n"
SEARCHES = "| Search | Native | By Node | Times |\n|---|---|---|---|\n"


class Fresh:
    """A system in a folder."""

    def __init__(self, folder: str) -> None:
        self.folder = folder

    def within(self, *words: str, network: bool = False, kit: str = "") -> None:
        """Runs a command in it, whose output is seen."""
        apart = ["unshare", "--mount", "--pid", "--fork", *([] if network else ["--net"])]
        ran = subprocess.run([*apart, "sh", "-c", ENTER, "sh", self.folder, kit, *words], check=False)
        if ran.returncode:
            raise Wrong(f"in {self.folder}, `{' '.join(words)[:200]}` ended with {ran.returncode}")

    def make(self) -> None:
        """Makes it, unless it is there."""
        if os.path.exists(f"{self.folder}/usr/bin/npm"):
            return
        if not shutil.which("debootstrap"):
            raise Wrong("there is no debootstrap (apt-get install debootstrap)")
        call("debootstrap", "--variant=minbase", "bookworm", self.folder, MIRROR)
        shutil.copyfile("/etc/resolv.conf", f"{self.folder}/etc/resolv.conf")
        quiet = "DEBIAN_FRONTEND=noninteractive apt-get install -y -qq --no-install-recommends"
        install = f"apt-get update -qq && {quiet} {' '.join(SYSTEM)} > /dev/null 2>&1"
        self.within("sh", "-c", install, network=True)

    def put(self, release: str) -> None:
        """Puts the repository, a clone that checks, and all forms of a release into it."""
        shutil.rmtree(f"{self.folder}/srv")
        os.makedirs(f"{self.folder}/srv/release")
        call("git", "clone", "--quiet", "--bare", ROOT, f"{self.folder}/srv/dorydate.git")
        call("git", "clone", "--quiet", f"{self.folder}/srv/dorydate.git", f"{self.folder}/srv/checker")
        if left := complete(release, f"{self.folder}/srv/release"):
            print(f"check fresh: not packed here: {', '.join(left)}")

    def checked(self, kit: str = "") -> dict[str, Any]:
        """What workshop.checks.fresh_inside finds there."""
        inside = "cd /srv/checker/python && python3 -B -m workshop.checks.fresh_inside"
        self.within("sh", "-c", f"{inside} /srv/found.json", kit=kit)
        found: dict[str, Any] = json.loads(Path(f"{self.folder}/srv/found.json").read_text(encoding="utf-8"))
        return found


def seconds(value: float) -> str:
    return f"{value:.2f} s"


def took(it: dict[str, float]) -> str:
    """A call's time, with that of the processor."""
    return f"{seconds(it['clock'])} ({it['processor']:.2f})"


def table(rows: list[dict[str, Any]]) -> str:
    """The rows of calls."""
    lines = (f"| {it['what']} | {took(it['first'])} | {took(it['second'])} | {it['examples'] or ''} |" for it in rows)
    return HEAD + "\n".join(lines) + "\n"


def searches(rows: list[dict[str, Any]]) -> str:
    """The rows of searches."""
    cells = ((it["what"], it["native"], it["by_node"]) for it in rows)
    lines = (f"| {what} | {seconds(own)} | {seconds(node)} | {node / own:.1f} |" for what, own, node in cells)
    return SEARCHES + "\n".join(lines) + "\n"


def page(without: dict[str, Any], with_it: dict[str, Any], load: float) -> str:
    """The page of what was measured."""
    system, processors, with_kit = without["system"], os.cpu_count(), with_it["toolchain"]
    day = time.strftime("%d %B %Y").lstrip("0")
    refused = "".join(f"- {what}: `{line}`\n" for what, line in without["refused"].items())
    return f"""# What is released, on a system without the toolchain

`./check fresh --write` has written this page on {day}, at a load of {load:.0f} on {processors} processors. \
The system is a folder with Debian's packages, {system}. It has no network. \
Each form was installed there from its file, and ran every example. \
Calls are of `examples/first-message` where nothing else is said. \
Times are by the clock, and between brackets of the processor.

{table(without['rows'])}
A search by the wheel, native and by one process of Node that stays, in seconds of the processor:

{searches(without['searches'])}
What can't run says so in one line:

{refused}
## With the toolchain

The same system, with the folder of the toolchain ({with_kit}) mounted into it and `rt` on the path. \
A clone takes the released program here, too, until a source is changed.

{table(with_it['rows'])}"""


def run_tests(fresh: Fresh) -> None:
    """Runs tools/fresh in a copy of the system, with the network."""
    copy = Fresh(f"{fresh.folder}-tests")
    if not os.path.exists(copy.folder):
        call("cp", "-a", fresh.folder, copy.folder)
    copy.put(f"{ROOT}/released")
    copy.within("/srv/checker/tools/fresh", network=True)


def released() -> str:
    """The folder of a release of these sources: what ./release has made here, else what lies in the repository."""
    made = f"{ROOT}/out/release"
    if sources_in(f"{ROOT}/released") != kept_for_sources().split("/")[-2]:
        raise Wrong("released/ is of other sources, so no clone takes it: ./release makes it of these")
    return made if sources_in(made) == sources_in(f"{ROOT}/released") else f"{ROOT}/released"


def kit() -> str:
    """The folder of the toolchain."""
    rt = shutil.which("rt")
    if rt is None:
        raise Wrong("the toolchain's command rt is not on the path here, so no clone was tried with it")
    return os.path.dirname(os.path.dirname(os.path.realpath(rt)))


def main() -> int:
    words = Words(__doc__)
    words.add_argument("--write", action="store_true")
    words.add_argument("--tests", action="store_true")
    words.add_argument("--root", default="/var/tmp/dorydate-fresh")
    asked = words.parse_args()
    fresh = Fresh(os.path.abspath(asked.root))
    try:
        fresh.make()
        if asked.tests:
            run_tests(fresh)
            return 0
        fresh.put(released())
        load = os.getloadavg()[0]
        without = fresh.checked()
        made = page(without, fresh.checked(kit()), load)
    except (Wrong, OSError, subprocess.CalledProcessError) as why:
        print(f"check fresh: {why}", file=sys.stderr)
        return 1
    print(made)
    if asked.write:
        Path(PAGE).write_text(made, encoding="utf-8")
    print("check fresh: every form runs every example as stored")
    return 0

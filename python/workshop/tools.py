"""The tools that checks use where they are there, and what checks leave out for want of one.

A check that leaves something out calls `left_out`. That says so, and notes it in the file that the variable
DORYDATE_LEFT_OUT names, whose lines the gate prints at its end.
"""

from __future__ import annotations

import os
import shutil
import subprocess
import sys
from collections.abc import Iterable
from dataclasses import dataclass

NOTED = "DORYDATE_LEFT_OUT"


@dataclass(frozen=True)
class Tool:
    """A tool by its name: Debian's packages that have it, and the commands of which one has to be there, or the modules
    of Python which all have to be."""

    name: str
    packages: str
    commands: tuple[str, ...] = ()
    modules: tuple[str, ...] = ()

    def is_there(self) -> bool:
        return any(map(shutil.which, self.commands)) if self.commands else python_with(*self.modules) is not None


TOOLS = (
    Tool("Node", "nodejs", ("node", "nodejs")),
    Tool("npm", "npm", ("npm",)),
    Tool("tsc", "node-typescript", ("tsc",)),
    Tool("mypy", "mypy", ("mypy",)),
    Tool("pyflakes", "pyflakes3", ("pyflakes3",)),
    Tool("tshark", "tshark", ("tshark",)),
    Tool("rustc", "rustc", ("rustc",)),
    Tool("a C compiler", "gcc libc6-dev", ("cc", "clang")),
    Tool("wasm2c", "wabt", ("wasm2c",)),
    Tool("man", "man-db", ("man",)),
    Tool("Agda", "agda-bin", ("agda",)),
    Tool("venv", "python3-venv", modules=("ensurepip",)),
    Tool("setuptools", "python3-setuptools python3-wheel", modules=("setuptools", "wheel")),
    Tool("jsonschema", "python3-jsonschema", modules=("jsonschema",)),
    Tool("markdown", "python3-markdown", modules=("markdown",)),
    Tool("Jupyter", "python3-nbclient python3-ipykernel", modules=("nbclient", "ipykernel")),
)


def python_with(*modules: str) -> str | None:
    """A Python that has these modules: the one that runs, or else the system's."""
    for python in filter(os.path.exists, (sys.executable, "/usr/bin/python3")):
        ran = subprocess.run([python, "-c", f"import {', '.join(modules)}"], capture_output=True, check=False)
        if ran.returncode == 0:
            return python
    return None


def left_out(check: str, what: str, why: str) -> None:
    """Says, and notes for the gate, what a check leaves out."""
    line = f"check {check}: DID NOT RUN: {what}: {why}"
    print(line, flush=True)
    if path := os.environ.get(NOTED):
        with open(path, "a", encoding="utf-8") as file:
            file.write(f"{line}\n")


def absence(name: str) -> str:
    """That a tool isn't there, in words."""
    (packages,) = (it.packages for it in TOOLS if it.name == name)
    return f"{name} is not installed (apt-get install {packages})"


def lacking(check: str, what: str, name: str) -> None:
    """Says, and notes for the gate, what a check leaves out for want of a tool."""
    left_out(check, what, absence(name))


def installed(tools: Iterable[Tool]) -> str:
    """Has apt-get install tools, each by itself, after another that holds its lock. Gives why it may not; "" where it may."""
    if os.geteuid() or not shutil.which("apt-get"):
        return "only root may install packages" if os.geteuid() else "there is no apt-get"
    env = {**os.environ, "DEBIAN_FRONTEND": "noninteractive"}
    subprocess.run(["apt-get", "update", "-qq"], capture_output=True, env=env, check=False)
    lacking = [*tools]
    for number, tool in enumerate(lacking, 1):
        print(f"check tools: {number} of {len(lacking)}: {tool.name} ({tool.packages})", flush=True)
        words = [
            "apt-get",
            "install",
            "-y",
            "-qq",
            "--no-install-recommends",
            "-o",
            "DPkg::Lock::Timeout=300",
            *tool.packages.split(),
        ]
        done = subprocess.run(words, capture_output=True, text=True, env=env, check=False)
        if done.returncode:
            print(f"check tools: apt-get says: {(done.stderr.strip() or 'nothing').splitlines()[-1]}", flush=True)
    return ""

"""Each example and stored input prints what its file says, and a kept program is that of the sources (seconds, once a program is there).

Runs each input of examples/, cases/ and logs/ through the program, and compares how it ends with what is stored beside it
(python/workshop/checks/cases.py says how). Then checks how ./arpasim starts the program, and that a program of other sources is never taken
for the present one: tools/check/examples.
"""

from __future__ import annotations

import subprocess

from workshop.parts import ROOT


def main() -> int:
    return subprocess.run([f"{ROOT}/tools/check/examples"]).returncode

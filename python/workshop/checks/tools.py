"""The tools that checks use where they are there (seconds): ./check tools [--install | --packages]

Names those that lack. With --install apt-get installs these, where that may be done: as root, on Debian. What a check
then leaves out it says itself, and the gate says it again at its end. --packages prints their packages only.
"""

from __future__ import annotations


from workshop.tools import TOOLS, installed
from workshop.words import Words


def main() -> int:
    words = Words(__doc__)
    how = words.add_mutually_exclusive_group()
    how.add_argument("--install", action="store_true", help="install those that lack")
    how.add_argument("--packages", action="store_true", help="print Debian's packages of those that lack")
    asked = words.parse_args()
    lacking = [it for it in TOOLS if not it.is_there()]
    if asked.packages:
        print(*(it.packages for it in lacking))
        return 0
    if lacking and asked.install:
        if why := installed(lacking):
            print(f"check tools: nothing was installed: {why}")
        lacking = [it for it in lacking if not it.is_there()]
    print(f"check tools: {len(TOOLS) - len(lacking)} of {len(TOOLS)} tools are there")
    for it in lacking:
        print(f"check tools: {it.name} is not there (apt-get install {it.packages})")
    return 0

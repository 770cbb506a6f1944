"""Dialogues with a host's program that somebody else wrote, and what a right one may answer in each.

    python -m dorydate.conformance python3 examples/ncp.py

The program hears and answers lines (dorydate.coupling), however it is reached. In `DIALOGUES` it runs on a stranger's
host of a proved subnet, beside a host with the proved program and a second stranger; in `UNDERWAY` over mailboxes, with
answers held back and messages lost; in random worlds beside hosts that do whatever the contract allows. What is right
is what docs/hosts.md says; where the Host/Host Protocol leaves a program free, as to answer an error, either is.
"""

from dorydate.conformance.dialogues import DIALOGUES
from dorydate.conformance.steps import Dialogue, Step
from dorydate.conformance.trial import Finding, Trial, tried
from dorydate.conformance.underway import UNDERWAY, UnderWay, tried_underway

__all__ = [
    "DIALOGUES", "UNDERWAY", "Dialogue", "Finding", "Step", "Trial", "UnderWay", "tried", "tried_underway",
]  # fmt: skip

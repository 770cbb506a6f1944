"""What a check of a release says where something is wrong, and commands that have to succeed."""

from __future__ import annotations

import subprocess
from typing import Any


class Wrong(Exception):
    """What is not as it has to be."""


def call(*words: str, **how: Any) -> str:
    """What a command prints, which has to succeed."""
    ran = subprocess.run(words, stdout=subprocess.PIPE, stderr=subprocess.PIPE, text=True, **how)
    if ran.returncode:
        raise Wrong(f"{' '.join(words)[:200]} failed: {ran.stdout.strip()[-1000:]} {ran.stderr.strip()[-2000:]}")
    return str(ran.stdout)

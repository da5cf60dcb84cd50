"""What git says of this clone."""
from __future__ import annotations

import shutil
import subprocess

from lib.libraries import TOP


def git(*words: str) -> str:
    """What git prints in this folder."""
    return subprocess.run(["git", *words], cwd=TOP, capture_output=True, text=True, check=False).stdout.strip()


def commit() -> str:
    """The commit of this clone, if this is one: a folder in the clone of another repository is none."""
    if not shutil.which("git") or git("rev-parse", "--show-toplevel") != str(TOP):
        return "no clone"
    found = git("rev-parse", "--verify", "-q", "HEAD") or "no commit"
    return f"{found} and changes" if git("status", "--porcelain") else found


def commits() -> list[str]:
    """The commits up to that of this clone."""
    return git("rev-list", "HEAD").split()

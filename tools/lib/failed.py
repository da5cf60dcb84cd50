"""What a script says if it can't go on: why, and last the counts, which each script of the gate has."""
from __future__ import annotations

import subprocess
from collections.abc import Callable


class Failed(Exception):
    """Why a test failed, or what isn't so that a script needs."""


def ended(main: Callable[[], int]) -> int:
    """Runs a script: its exit status, which is 1 if it raises Failed, or if a file or a command isn't there or fails. That is one failure
    then, whatever was counted before."""
    try:
        return main()
    except (Failed, OSError, subprocess.SubprocessError) as why:
        print(f"{why}\n0 passed, 1 failed")
        return 1

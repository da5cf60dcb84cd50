"""The shared object for Python: all archives in one, as `archives.py --shared` and test_callers.py link it by the C compiler."""
from __future__ import annotations

import pathlib
import subprocess

from lib.exported import HEAP, archive_of, libraries
from lib.failed import Failed

SHARED = "libtls_codec.so"


def put_shared(archives: pathlib.Path, folder: pathlib.Path) -> pathlib.Path:
    """Links the archives of a folder to a shared object in another, or in the same."""
    shared, linked = folder / SHARED, [str(archives / it) for it in [*map(archive_of, libraries()), HEAP]]
    words = ["cc", "-shared", "-o", str(shared), "-Wl,--whole-archive", *linked, "-Wl,--no-whole-archive"]
    output = subprocess.run(words, stdin=subprocess.DEVNULL, stdout=subprocess.PIPE, stderr=subprocess.STDOUT, text=True, errors="replace")
    if output.returncode:
        raise Failed(f"{SHARED}: {output.stdout[-3000:]}")
    return shared

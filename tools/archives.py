#!/usr/bin/env python3
"""archives.py [--shared] [FOLDER [TARGET]]: proves the static libraries and puts their archives into a folder, c/out if none is given.

They are built over the libraries that `rt ci` left in crates/*/out/rlib. Where some aren't there, or a file that they are proved from is
newer, `rt lib` first proves and builds all those below an archive, which takes longer. Beside them is libtls_codec_heap.a, which decoders
need: malloc and free by Rattle's names for them. And tls_codec.version has the version of the headers, so that a mix with those of another
commit is noticed; tls_codec.built names the commit, the kit and the archives. With --shared the C compiler links all of them to
libtls_codec.so, for Python. What an earlier run left in the folder, libtls_codec*, is removed first. TARGET is x86_64-unknown-linux-gnu if
none is given. For aarch64-unknown-linux-gnu the kit has no such heap, and there is no --shared.
"""
from __future__ import annotations

import hashlib
import pathlib
import shutil
import subprocess
import sys
import tempfile

from lib.clone import commit
from lib.exported import HEAP, archive_of
from lib.exports_c import MARK, mark
from lib.failed import Failed
from lib.libraries import CRATES, TOP, Libraries, run
from lib.shared_object import SHARED, put_shared

TARGET = "x86_64-unknown-linux-gnu"
# Up to which cost LLVM copies a function into its callers; its own bound is 225. Messages of one archive share the validators of their
# parts, and by that bound most of these stay functions of their own (docs/DECISIONS.md, "How are the archives compiled?").
INLINED = 1500
# What says from which commit the archives of a folder were built.
BUILT = "tls_codec.built"
# The folders of a crate that its proof is read from.
SOURCES = ("src", "specs", "proofs")


def is_stale(libraries: Libraries, crate: str) -> bool:
    """Whether a file that the library is proved from is newer than it, as after `git pull`.

    The time is that of the library's folder, which `rt ci` makes anew. Its files may be other names of those that an earlier run kept.
    """
    sources = [it for part in SOURCES for it in (CRATES / crate / part).rglob("*") if it.is_file()]
    built = libraries.rlib(crate).stat().st_mtime_ns
    return any(it.stat().st_mtime_ns > built for it in [TOP / "crates.txt", *sources])


def is_left_by_ci(libraries: Libraries, crate: str) -> bool:
    """Whether `rt ci` built all the libraries below a static one, from the files that are there now."""
    below = libraries.below(crate)
    if libraries.lacking(crate) or any(map(libraries.is_stamped, below)):
        return False
    return not any(is_stale(libraries, it) for it in below)


def need(crate: str, ended: tuple[int, str]) -> None:
    """What a command over a crate ended with, which must be 0."""
    status, printed = ended
    if status:
        raise Failed(f"{crate}: {printed[-3000:]}")


def toolchain(kit: pathlib.Path, folder: pathlib.Path) -> pathlib.Path:
    """The kit's toolchain, with a clang that copies more functions into their callers."""
    own = kit / "toolchain"
    (folder / "bin").mkdir()
    (folder / "lib").symlink_to(own / "lib")
    for it in (own / "bin").iterdir():
        if it.name != "clang":
            (folder / "bin" / it.name).symlink_to(it)
    clang = folder / "bin" / "clang"
    clang.write_text(f'#!/bin/sh\nexec {own}/bin/clang "$@" -mllvm -inline-threshold={INLINED}\n', encoding="utf-8")
    clang.chmod(0o755)
    return folder


def build_below(libraries: Libraries, crate: str) -> None:
    """Proves and builds all the libraries below a static one, by `rt lib`, which keeps what it built, and builds anew what others did."""
    for it in libraries.uses[crate]:
        if it in libraries.uses:
            need(it, run(["rt", "lib"], CRATES / it))
    if libraries.lacking(crate):
        raise Failed(f"{crate}: rt lib left no {libraries.lacking(crate)}")


def build(libraries: Libraries, crate: str, folder: pathlib.Path, target: str = TARGET) -> None:
    """Proves a static library, and puts its archive into the folder, by its name for callers."""
    if not is_left_by_ci(libraries, crate):
        build_below(libraries, crate)
    with tempfile.TemporaryDirectory(prefix="toolchain-") as made:
        archive = pathlib.Path(made) / f"lib{crate}.a"
        words = ["--target", target, "--toolchain", str(toolchain(libraries.kit, pathlib.Path(made))), "-o", str(archive)]
        need(crate, libraries.rattle("build", crate, words, CRATES / crate))
        shutil.copyfile(archive, folder / archive_of(crate))


def clear(folder: pathlib.Path) -> None:
    """Removes what an earlier run left in the folder: no archive and no shared object of it comes beside the mark of another commit."""
    for it in {*folder.glob("libtls_codec*"), *(folder / name for name in (HEAP, MARK, BUILT))}:
        it.unlink(missing_ok=True)


def put_archives(libraries: Libraries, folder: pathlib.Path, target: str = TARGET) -> None:
    """Proves the static libraries, and puts their archives into the folder, with the heap that they need, in place of an earlier run's."""
    clear(folder)
    if target == TARGET:
        shutil.copyfile(libraries.kit / "c" / "liblibc_c.a", folder / HEAP)
    for crate in libraries.static:
        build(libraries, crate, folder, target)
        print(folder / archive_of(crate), flush=True)


def put_mark(folder: pathlib.Path) -> None:
    """Writes down which headers the archives are of, and what they were built from."""
    (folder / BUILT).write_text(built_from(folder), encoding="utf-8")
    (folder / MARK).write_text(f"{mark()}\n", encoding="utf-8")


def built_from(folder: pathlib.Path) -> str:
    """The commit, with `and changes` if there are some, the kit, and the SHA-256 of each archive, as `sha256sum -c` reads it."""
    kit = subprocess.run(["rt", "version"], stdin=subprocess.DEVNULL, capture_output=True, text=True, check=False).stdout.strip()
    lines = [f"# commit: {commit()}", f"# {kit or 'unknown'}"]
    archives = sorted([*folder.glob("libtls_codec*.a"), *folder.glob(SHARED)])
    return "\n".join([*lines, *(f"{hashlib.sha256(it.read_bytes()).hexdigest()}  {it.name}" for it in archives)]) + "\n"


def lacking(target: str, is_shared: bool) -> str:
    """Why nothing can be built, which is said before an earlier run's archives are removed; "" if it can be."""
    if is_shared and target != TARGET:
        return f"--shared links for {TARGET} alone"
    tools = ["rt", "cc"] if is_shared else ["rt"]
    return "\n".join(f"{it} isn't on the path" for it in tools if not shutil.which(it))


def main() -> int:
    words = [it for it in sys.argv[1:] if it != "--shared"]
    folder = pathlib.Path(words[0]) if words else TOP / "c" / "out"
    target, is_shared = words[1] if words[1:] else TARGET, "--shared" in sys.argv[1:]
    why = lacking(target, is_shared)
    if why:
        print(why)
        return 1
    try:
        # (cached: what can't be read fails here, before the proofs)
        mark()
        folder.mkdir(parents=True, exist_ok=True)
        put_archives(Libraries(), folder, target)
        if is_shared:
            print(put_shared(folder, folder), flush=True)
        put_mark(folder)
    except (Failed, OSError) as error:
        print(error)
        return 1
    return 0


if __name__ == "__main__":
    sys.exit(main())

#!/usr/bin/env python3
"""test_callers.py [ARCHIVES]: tests what callers in C, C++, Rust and Python are given. It runs after `rt ci`, over what that proved.

The archives are built (archives.py), unless a folder with them is given. Then: an archive exports just what its header has, and needs
nothing that isn't listed; a C program, the Rust crate and the Python module answer the rows of `test_outcome`, of `test_places` and of
c/tests/*.tsv, and C those of captured messages too, and whatever bit of a row is turned; each request for memory is refused in turn;
validators and decoders are compared for three seconds; the examples run, and the commands of the READMEs in c/, rust/ and python/; the C
of docs/CALLERS.md is compiled, and python/tests/vectors.py reads rows; archives of other headers, or without a mark of theirs, are refused.
`cc`, `c++`, `nm` and `cargo` have to be there. CMake, pkg-config and valgrind are tried where they are. Last 'N passed, N failed'.
"""
from __future__ import annotations

import argparse
import json
import os
import pathlib
import re
import shutil
import sys
import tempfile
from collections.abc import Callable

import archives
from lib import exported
from lib.caller_examples import boundary, hello, readmes, sender, stream
from lib.caller_inputs import PLACES, SIGNED, USED, captured, hellos, vector, written_in_c
from lib.caller_room import ALL, C, COMMIT, DECODERS, PYTHON, SANITIZED, WARNINGS, Room
from lib.exports_c import MARK, minor
from lib.failed import Failed, ended
from lib.libraries import ROWS, TOP, Libraries
from lib.shared_object import SHARED

# What an archive may need of whoever links it, and what one of decoders may.
MEMORY = {"memcpy", "memmove", "memset", "memcmp", "bcmp"}
HEAP = {"rattle_alloc", "rattle_realloc", "rattle_dealloc"}
# A project of CMake that links one archive.
ONE = """\
cmake_minimum_required(VERSION 3.16)
project(one LANGUAGES C)
add_subdirectory({C} tls_codec)
add_executable(one {C}/examples/boundary.c)
target_link_libraries(one PRIVATE tls_codec::mls)
"""
# One that finds what is installed, and no version before it, and links all archives.
FOUND = """\
cmake_minimum_required(VERSION 3.16)
project(found LANGUAGES C)
find_package(tls_codec 0.1 QUIET)
if(tls_codec_FOUND)
  message(FATAL_ERROR "another version is found")
endif()
find_package(tls_codec {minor} REQUIRED)
add_executable(found {C}/tests/rows.c)
target_link_libraries(found PRIVATE {targets})
"""
# The files of rust/tests, and those that test nothing without the feature `decode`.
RUST_TESTS = ["places", "rows", "signed"]
RUST_TESTS_OF_DECODERS = ["decoders"]


def names(room: Room, crate: str, which: str) -> set[str]:
    """The names that an archive defines for others, or needs."""
    output = room.run(["nm", which, "--format=posix", room.archives / exported.archive_of(crate)]).decode()
    return {line.split()[0] for line in output.splitlines() if len(line.split()) > 1}


def archive_has_its_exports(room: Room, crate: str) -> None:
    """The archive defines what its source exports, and needs no more than it may."""
    defined, wanted = names(room, crate, "--defined-only"), {it.name for it in exported.exports_of(crate)}
    is_global = names(room, crate, "--extern-only") & defined
    if is_global != wanted:
        raise Failed(f"it defines {sorted(is_global ^ wanted)} beside or instead of what its source exports")
    beyond = names(room, crate, "--undefined-only") - MEMORY - (HEAP if crate in DECODERS else set())
    if beyond:
        raise Failed(f"it wants {sorted(beyond)}")


def captured_rows(room: Room) -> pathlib.Path:
    """Rows of all captured messages."""
    rows = [f"tls13_handshake\t{it.hex()}\t0 {len(it)} 0 0\n" for it in captured()]
    if len(rows) < 40:
        raise Failed(f"{len(rows)} captured messages were found")
    path = room.folder / "captured"
    path.write_text("".join(rows))
    return path


def rows_in_c(room: Room) -> None:
    program = room.program("tests/rows.c", ALL)
    for rows in (*ROWS, captured_rows(room)):
        room.run([program, rows])


def rows_with_sanitizers(room: Room) -> None:
    """The same, with the checks of the C compiler."""
    program = room.program("tests/rows.c", ALL, flags=SANITIZED)
    for rows in ROWS:
        room.run([program, rows])


def places_in_c(room: Room) -> None:
    """The rows of places and lengths, and again with the checks of the C compiler."""
    for flags in (WARNINGS, SANITIZED):
        program = room.program("tests/places.c", ALL, flags=flags)
        for rows in PLACES:
            room.run([program, rows])


def numbers_in_c(room: Room) -> None:
    """The readers of numbers in lengths.h, with the checks of the C compiler."""
    room.run([room.program("tests/numbers.c", ALL, flags=SANITIZED)])


def signed_in_c(room: Room) -> None:
    """What is written to be signed, and again with the checks of the C compiler."""
    for flags in (WARNINGS, SANITIZED):
        room.run([room.program("tests/signed.c", ALL, flags=flags), SIGNED])


def memory_refused(room: Room) -> None:
    program = room.program("tests/memory.c", ALL, "-Wl,--wrap=malloc,--wrap=realloc,--wrap=free")
    for rows in ROWS:
        output = room.run([program, rows]).decode().splitlines()[-1]
        if not re.fullmatch(r"[1-9]\d+ rows, [1-9]\d+ requests refused, 0 failed", output):
            raise Failed(output)


def page_in_c(room: Room) -> None:
    """The C of docs/CALLERS.md is compiled."""
    functions, source = written_in_c(), room.folder / "page.c"
    source.write_text("\n".join([USED, *functions]))
    room.run(["cc", *WARNINGS, "-I", C / "include", "-c", "-o", room.folder / "page.o", source])
    if len(functions) < 3:
        raise Failed(f"the page has {len(functions)} blocks")


def cplusplus(room: Room) -> None:
    room.run([room.program("tests/cplusplus.cc", ALL, compiler="c++", flags=["-std=c++11", "-Wall", "-Wextra", "-Werror"])])


def rust(room: Room) -> None:
    """The tests and the documentation's example of the Rust crate, by the validators alone and with the decoders; and its layout."""
    env = {**os.environ, "TLS_CODEC_ARCHIVES": str(room.archives.resolve()), "CARGO_TARGET_DIR": str(room.folder / "cargo")}
    files = sorted(it.stem for it in (TOP / "rust" / "tests").glob("*.rs"))
    if files != sorted(RUST_TESTS + RUST_TESTS_OF_DECODERS):
        raise Failed(f"rust/tests has {files}")
    for features, tests in (([], RUST_TESTS), (["--features", "decode"], files)):
        output = room.run(["cargo", "test", "--offline", "--quiet", *features], cwd=TOP / "rust", env=env).decode()
        # a result for each file with a test, and for the examples of the documentation
        if len(re.findall(r"test result: ok\. [1-9]", output)) < len(tests) + 1:
            raise Failed(output)
    if shutil.which("rustfmt"):
        room.run(["cargo", "fmt", "--check"], cwd=TOP / "rust")


def python(room: Room) -> None:
    """The rows by the Python module."""
    shared = room.shared_object()
    for script, files in (("rows", ROWS), ("places", PLACES), ("signed", [SIGNED])):
        for rows in files:
            room.run([sys.executable, PYTHON / "tests" / f"{script}.py", shared, rows])


def vectors(room: Room) -> None:
    """Rows as the MLS working group's test vectors have them; in a second vector a commit has a proposal whose type has no case."""
    path, whole = room.folder / "vectors.json", vector()
    words = [sys.executable, PYTHON / "tests" / "vectors.py", room.shared_object(), path]
    path.write_text(json.dumps([whole]))
    if room.run(words) != b"11 passed, 0 failed\n":
        raise Failed("messages that rows accept have another outcome")
    path.write_text(json.dumps([whole, {**whole, "commit": f"{whole['commit'][:4]}01{whole['commit'][6:]}"}]))
    if room.run(words, status=1) != b"vector 1, commit: UnknownValue (259) at byte 2 of 66\n21 passed, 1 failed\n":
        raise Failed("a commit that is rejected has another outcome")


def mix(room: Room) -> None:
    """Archives of other headers, and those without a mark: Rust, Python and CMake fail."""
    folder = room.folder / "mix"
    shutil.copytree(room.archives, folder)
    shutil.copy(room.shared_object(), folder)
    call = [sys.executable, "-c", "import sys, tls_codec_validators; tls_codec_validators.Validators(sys.argv[1])", folder / SHARED]
    env = {**os.environ, "TLS_CODEC_ARCHIVES": str(folder.resolve()), "CARGO_TARGET_DIR": str(room.folder / "mixed")}
    env["PYTHONPATH"] = str(PYTHON)
    room.run(call, env=env)
    refused = [(call, 1), (["cargo", "check", "--offline", "--quiet"], 101)]
    if shutil.which("cmake"):
        refused.append((["cmake", "-S", C, "-B", room.folder / "unbuilt", f"-DTLS_CODEC_ARCHIVES={folder}"], 1))
    (folder / MARK).write_text("0.1.0 0\n")
    for said in ("0.1.0 0", str(folder / MARK)):
        for words, status in refused:
            # CMake breaks lines
            if said not in " ".join(room.run(words, status=status, cwd=TOP / "rust", env=env).decode().split()):
                raise Failed(f"{words[0]} doesn't say {said}")
        (folder / MARK).unlink(missing_ok=True)


def cmake(room: Room) -> None:
    build, installed = room.folder / "cmake", room.folder / "installed"
    where = [f"-DTLS_CODEC_ARCHIVES={room.archives.resolve()}", f"-DCMAKE_INSTALL_PREFIX={installed.resolve()}"]
    room.run(["cmake", "-S", C, "-B", build, *where])
    room.run(["cmake", "--build", build])
    room.run(["cmake", "--install", build])
    lacking = {*os.listdir(room.archives), "cmake", "pkgconfig"} - {SHARED} ^ set(os.listdir(installed / "lib"))
    if lacking or f"prefix={installed.resolve()}\n" not in (installed / "lib" / "pkgconfig" / "tls_codec.pc").read_text(encoding="utf-8"):
        raise Failed(f"of these files some aren't installed, or others are: {sorted(lacking)}")
    program, archive = room.folder / "installed_boundary", installed / "lib" / exported.archive_of("mls_c")
    room.run(["cc", "-I", installed / "include", "-o", program, C / "examples" / "boundary.c", archive])
    for example in ("boundary", "sender"):
        room.run([build / example], bytes.fromhex(COMMIT.read_text()))
    room.run([build / "hello"], hellos()[0][0])
    output = room.run(["ctest", "--output-on-failure"], cwd=build).decode()
    if "100% tests passed, 0 tests failed out of 8\n" not in output:
        raise Failed(output)
    user = room.folder / "found"
    user.mkdir()
    targets = " ".join(f"tls_codec::{exported.module_of(it)}" for it in ALL)
    (user / "CMakeLists.txt").write_text(FOUND.format(C=C, minor=minor(), targets=targets))
    room.run(["cmake", "-S", user, "-B", user / "build", f"-DCMAKE_PREFIX_PATH={installed.resolve()}"])
    room.run(["cmake", "--build", user / "build"])
    room.run([user / "build" / "found", ROWS[1]])
    (installed / "lib" / MARK).write_text("0.1.0 0\n")
    room.run(["cmake", "-S", user, "-B", user / "mixed", f"-DCMAKE_PREFIX_PATH={installed.resolve()}"], status=1)
    room.run(["cmake", "-S", C, "-B", room.folder / "without", f"-DTLS_CODEC_ARCHIVES={room.folder / 'nowhere'}"], status=1)


def cmake_of_one(room: Room) -> None:
    """A project that links one archive, where the others aren't there; and c/ with that one."""
    folder = room.folder / "one"
    folder.mkdir()
    for it in (exported.archive_of("mls_c"), MARK):
        shutil.copy(room.archives / it, folder)
    (folder / "CMakeLists.txt").write_text(ONE.format(C=C))
    room.run(["cmake", "-S", folder, "-B", folder / "build", f"-DTLS_CODEC_ARCHIVES={folder.resolve()}"])
    room.run(["cmake", "--build", folder / "build"])
    room.run(["cmake", "-S", C, "-B", folder / "alone", f"-DTLS_CODEC_ARCHIVES={folder.resolve()}"])


def pkg_config(room: Room) -> None:
    """The headers and archives under one prefix, as a package has them."""
    prefix = room.folder / "prefix"
    shutil.copytree(C / "include", prefix / "include")
    shutil.copytree(room.archives, prefix / "lib")
    for path in C.glob("*.pc.in"):
        (prefix / path.stem).write_text(path.read_text(encoding="utf-8").replace("@PREFIX@", str(prefix.resolve())))
    env = {**os.environ, "PKG_CONFIG_PATH": str(prefix)}
    for name, source, words, stdin in (
        ("tls_codec", "examples/boundary.c", [], bytes.fromhex(COMMIT.read_text())),
        ("tls_codec_decode", "tests/rows.c", [ROWS[1]], b""),
    ):
        flags = room.run(["pkg-config", "--cflags", "--libs", name], env=env).decode().split()
        program = room.folder / f"by_pkg_config_{name}"
        room.run(["cc", "-o", program, C / source, *flags])
        room.run([program, *words], stdin)


def valgrind(room: Room) -> None:
    program = room.program("tests/rows.c", ALL)
    short = room.folder / "short"
    rows = [line for path in ROWS for line in path.read_text().splitlines(True) if len(line) < 400]
    short.write_text("".join(rows[::12]))
    room.run(["valgrind", "--quiet", "--error-exitcode=9", "--leak-check=full", program, short])
    places = room.program("tests/places.c", ALL)
    for rows in PLACES:
        room.run(["valgrind", "--quiet", "--error-exitcode=9", "--leak-check=full", places, rows])


TESTS = [rows_in_c, rows_with_sanitizers, places_in_c, numbers_in_c, signed_in_c, memory_refused, page_in_c, cplusplus]
TESTS += [boundary, stream, hello, sender, readmes, rust, python, vectors, mix]


def build(folder: pathlib.Path) -> None:
    """Builds the archives, as archives.py does, where an earlier run left a shared object, which Python would load with their mark."""
    folder.mkdir()
    (folder / SHARED).touch()
    archives.put_archives(Libraries(), folder)
    if (folder / SHARED).exists():
        raise Failed(f"{SHARED} of an earlier run is still there")


def archives_wanted() -> pathlib.Path | None:
    """The folder of the archives that the script is to test, or none, if it is to build them."""
    parser = argparse.ArgumentParser(allow_abbrev=False)
    parser.add_argument("archives", nargs="?", type=pathlib.Path)
    folder = parser.parse_args().archives
    if folder and not any(folder.glob("libtls_codec_*.a")):
        parser.error(f"{folder} has no libtls_codec_*.a")
    return folder


def all_tests(are_given: bool) -> dict[str, Callable[[Room], None]]:
    """The tests by their names, without those of tools that aren't there. Archives that are built here get their mark first."""
    tests: dict[str, Callable[[Room], None]] = {} if are_given else {MARK: lambda room: archives.put_mark(room.archives)}
    tests |= {exported.archive_of(it): lambda room, it=it: archive_has_its_exports(room, it) for it in ALL}
    tests |= {it.__name__: it for it in TESTS}
    for it, command in ((cmake, "cmake"), (cmake_of_one, "cmake"), (pkg_config, "pkg-config"), (valgrind, "valgrind")):
        if shutil.which(command):
            tests[it.__name__] = it
        else:
            print(f"{command} is not there, and was not tried")
    return tests


def main() -> int:
    failed = 0
    given = archives_wanted()
    with tempfile.TemporaryDirectory(prefix="callers-") as folder:
        room = Room(pathlib.Path(folder), given or pathlib.Path(folder, "archives"))
        if not given:
            build(room.archives)
        tests = all_tests(bool(given))
        for name, test in tests.items():
            try:
                test(room)
                print(f"{name}: ok", flush=True)
            except (Failed, OSError) as error:
                failed += 1
                print(f"{name}: FAILED: {error}", flush=True)
    print(f"{len(tests) - failed} passed, {failed} failed")
    return 1 if failed else 0


if __name__ == "__main__":
    sys.exit(ended(main))

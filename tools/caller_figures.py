#!/usr/bin/env python3
"""caller_figures.py [ARCHIVES [BENCH]]: the figures of docs/CALLERS.md, of the archives in a folder, c/out if none is given.

The size of each archive; how much stack calls touch at most, over the rows that test_callers.py has; and by `valgrind --tool=callgrind`
the instructions of `NAME_validate_prefix` from C on the key package and the private message of tls_codec_bench. With BENCH, the built
program of that crate, those of `tls_validate_prefix` in Rattle too, which takes a minute.
"""
from __future__ import annotations

import json
import pathlib
import re
import subprocess
import sys
import tempfile

import instructions
from lib import exported
from lib.libraries import CRATES, ROWS, TOP

TIMED = {"mls_key_package": "KeyPackage", "mls_private_message": "PrivateMessage"}


def output_of(words: list[object]) -> str:
    return subprocess.run([str(it) for it in words], stdout=subprocess.PIPE, stderr=subprocess.STDOUT, text=True, check=True).stdout


def size(archive: pathlib.Path) -> int:
    """The bytes of code and constants."""
    return sum(int(line.split()[0]) for line in output_of(["size", archive]).splitlines()[1:])


def bench_bytes(case: str) -> bytes:
    """The message of a case of tls_codec_bench, in the rows that this prints."""
    text = (CRATES / "tls_codec_bench" / "stdout").read_text(encoding="utf-8")
    return bytes(json.loads(re.search(rf"^{case} \[\d*\]\t(\[.*\])$", text, re.M).group(1)))


def stack(program: pathlib.Path) -> None:
    most: dict[str, list[int]] = {}
    for rows in ROWS:
        for line in output_of([program, rows]).splitlines():
            name, *calls = line.split()
            family = name.partition("_")[0]
            most[family] = [max(pair) for pair in zip(map(int, calls), most.get(family, [0, 0]))]
    for family, (validator, decoder) in most.items():
        print(f"stack of {family}: validators {validator} bytes, decoders {decoder}")


def counted(program: pathlib.Path, row: pathlib.Path, call: str) -> int:
    """The instructions of one call."""
    words = ["valgrind", "--tool=callgrind", "--callgrind-out-file=/dev/null", f"--toggle-collect={call}", program, row]
    return int(re.search(r"Collected : (\d+)", output_of(words)).group(1))


def main() -> int:
    archives = pathlib.Path(sys.argv[1]) if sys.argv[1:] else TOP / "c" / "out"
    built = [archives / exported.archive_of(it) for it in exported.libraries()]
    if not all(it.is_file() for it in built):
        print(f"not all archives are in {archives}: run tools/archives.py", file=sys.stderr)
        return 2
    for it in built:
        print(f"{it.name}: {size(it)} bytes")
    in_rattle = instructions.rows(str(pathlib.Path(sys.argv[2]).resolve()), False) if sys.argv[2:] else {}
    with tempfile.TemporaryDirectory(prefix="caller_figures-") as folder:
        program, row = pathlib.Path(folder) / "figures", pathlib.Path(folder) / "row"
        source = TOP / "c" / "tests" / "figures.c"
        words = ["cc", "-std=c99", "-O2", "-pthread", "-I", TOP / "c" / "include", "-o", program, source, *built]
        output_of([*words, archives / exported.HEAP, "-Wl,-z,now"])
        stack(program)
        for message, case in TIMED.items():
            data = bench_bytes(case)
            row.write_text(f"{message}\t{data.hex()}\n")
            beside = in_rattle.get(case, {})
            beside_it = f", in Rattle {beside['validate']:.0f}" if beside else ""
            call = f"{message}_validate_prefix"
            print(f"{call} of {len(data)} bytes: {counted(program, row, call)} instructions{beside_it}")
    return 0


if __name__ == "__main__":
    sys.exit(main())

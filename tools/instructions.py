#!/usr/bin/env python3
"""instructions.py [--same-calls] PROGRAM [OTHER]: the instructions of a call in each row of the built tls_codec_bench, by callgrind.

It runs `PROGRAM run` under `valgrind --tool=callgrind`, which writes what it counted after each row, and divides what the calls
that are timed took, with all that they call, by how often they were called. With OTHER, a build of another commit, it prints
both and their ratio. What malloc takes is in it and depends on what was freed before, and the C library copies by one loop or
another: compare two builds with --same-calls, which puts those of data/same_calls.c (by cc) in their place. A minute a program.
"""
from __future__ import annotations

import collections
import os
import pathlib
import re
import subprocess
import sys
import tempfile

from lib.libraries import TOP

CALLS = ("encode", "encode_into", "decode_slice", "decode_reader", "decode_outside", "validate", "view")
TIMED = re.compile(r"tls_codec_bench::calls::(\w+)::")


def counted(path: pathlib.Path) -> dict[str, float]:
    """For each timed call of one row: the instructions of one call."""
    found: dict[str, list[int]] = collections.defaultdict(lambda: [0, 0])
    callee, number = "", None
    for line in path.read_text().splitlines():
        if line.startswith("cfn="):
            callee = line[4:]
        elif line.startswith("calls="):
            number = int(line[6:].split()[0])
        elif number is not None:
            timed = TIMED.match(callee)
            if timed:
                found[timed.group(1)][0] += number
                found[timed.group(1)][1] += int(line.split()[1])
            number = None
    return {call: cost / number for call, (number, cost) in found.items()}


def with_same_calls(room: str) -> dict[str, str]:
    """The environment of a program that calls the functions of same_calls.c."""
    built = str(pathlib.Path(room, "same_calls.so"))
    source = str(TOP / "tools" / "data" / "same_calls.c")
    subprocess.run(["cc", "-O2", "-fno-builtin-malloc", "-shared", "-fPIC", "-o", built, source], check=True)
    return {**os.environ, "LD_PRELOAD": built}


def rows(program: str, is_same: bool) -> dict[str, dict[str, float]]:
    """The instructions of each timed call, by the row's name."""
    names = subprocess.run(["nm", program], capture_output=True, text=True, check=True).stdout
    dumps = [f"--dump-after={it}" for it in re.findall(r" t (tls_codec_bench::figures::measure::<.*>)$", names, re.M)]
    with tempfile.TemporaryDirectory() as room:
        words = ["valgrind", "--tool=callgrind", "--callgrind-out-file=count", "--compress-strings=no", "--compress-pos=no"]
        how = {"env": with_same_calls(room) if is_same else None, "cwd": room, "capture_output": True, "text": True, "check": True}
        ran = subprocess.run([*words, *dumps, program, "run"], **how)
        lines = [line.split("\t")[0] for line in ran.stdout.splitlines() if "\t" in line]
        return {name: counted(pathlib.Path(room, f"count.{at}")) for at, name in enumerate(lines, 1)}


def main() -> None:
    programs = [it for it in sys.argv[1:] if it != "--same-calls"]
    if not programs:
        print(__doc__, file=sys.stderr)
        sys.exit(2)
    found = [rows(str(pathlib.Path(program).resolve()), len(programs) < len(sys.argv) - 1) for program in programs[:2]]
    for name, calls in found[0].items():
        costs_of_calls = []
        for call in CALLS:
            costs = [it.get(name, {}).get(call) for it in found]
            if None not in costs:
                ratio = f" = {costs[0] / costs[1]:.2f}" if len(costs) > 1 else ""
                costs_of_calls.append(f"{call} " + " / ".join(f"{cost:.0f}" for cost in costs) + ratio)
        if costs_of_calls:
            print(f"{name}: " + ", ".join(costs_of_calls))


if __name__ == "__main__":
    main()

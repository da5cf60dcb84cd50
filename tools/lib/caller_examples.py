"""The tests of c/examples/, and of the commands that the READMEs of c/, rust/ and python/ print. test_callers.py runs them."""
from __future__ import annotations

import os
import pathlib
import select
import shutil
import subprocess

from lib.caller_inputs import SENT, hellos
from lib.caller_room import COMMIT, SANITIZED, WARNINGS, Room
from lib.failed import Failed
from lib.page_commands import begins, copy_of_clone, difference, script_of

# The pages whose commands are run, and how many each has at least, without those of CMake.
READMES = {"c/README.md": 6, "rust/README.md": 4, "python/README.md": 3}


def boundary(room: Room) -> None:
    program = room.program("examples/boundary.c", ["mls_c"])
    message = bytes.fromhex(COMMIT.read_text())
    if room.run([program], message) != message:
        raise Failed("a message isn't let through as it is")
    said = "TrailingData at byte 94 of 95: Bytes come after the message, or after a part that was to fill a length.\n"
    if room.run([program], message + b"\0", status=1) != said.encode():
        raise Failed("a byte after a message has another outcome")
    said = "EndOfStream at byte 2 of 3: The message, or a list in it, ends within a field.\n"
    if room.run([program], message[:3], status=1) != said.encode():
        raise Failed("a message that is cut short has another outcome")
    said = "UnknownValue (6) at byte 2 of 94: A number names no case of this message, or isn't the value that a field must have.\n"
    if room.run([program], message[:3] + b"\6" + message[4:], status=1) != said.encode():
        raise Failed("a message of another kind has another outcome")
    with open("/dev/full", "wb") as full:
        if not subprocess.run([program], input=message, stdout=full).returncode:
            raise Failed("a message that can't be written is let through")


def printed_after_each(program: pathlib.Path, pieces: list[bytes]) -> list[bytes]:
    """What a program prints after each piece of its input, while it is open, and then at its end. A wait ends after 30 seconds."""
    pipes = {"stdin": subprocess.PIPE, "stdout": subprocess.PIPE, "bufsize": 0}
    printed = []
    with subprocess.Popen([program], **pipes) as process:
        for piece in pieces:
            process.stdin.write(piece)
            is_there = select.select([process.stdout], [], [], 30)[0]
            printed.append(os.read(process.stdout.fileno(), 4096) if is_there else b"")
        process.stdin.close()
        printed.append(process.stdout.read())
    return printed


def stream(room: Room) -> None:
    program = room.program("examples/stream.c", ["tls13_c"])
    records = bytes.fromhex("16030100050100000100" + "1503030002022a")
    if room.run([program], records) != b"10\n7\n0 left\n":
        raise Failed("two records have other outcomes")
    if room.run([program], records[:-1], status=1) != b"10\n6 left\n":
        raise Failed("a record that is cut short has another outcome")
    # more than the buffer has, whose end is in a record
    many = 1 << 14
    if room.run([program], records * many) != b"10\n7\n" * many + b"0 left\n":
        raise Failed("more records than the buffer has room for have other outcomes")
    # a record and a piece of the next one, while more may come
    if printed_after_each(program, [records[:12], records[12:]]) != [b"10\n", b"7\n", b"0 left\n"]:
        raise Failed("records that come in pieces aren't printed as they come")


def hello(room: Room) -> None:
    """Records with a ClientHello, or with none, and again with the checks of the C compiler."""
    for flags in (WARNINGS, SANITIZED):
        program = room.program("examples/hello.c", ["tls13_c", "tls_codec_c"], flags=flags)
        for records, printed in hellos():
            output = room.run([program], records, status=0 if printed.startswith("extension") else 1).decode()
            if output != printed:
                raise Failed(f"of {records[:1000].hex()} it prints {output}, and not {printed}")


def sender(room: Room) -> None:
    program = room.program("examples/sender.c", ["mls_c", "tls_codec_c"])
    begin = bytes.fromhex("00010001" + "01fa0000000000000007")
    for rest, printed in SENT.items():
        output = room.run([program], begin + bytes.fromhex(rest)).decode()
        if output != f"public message\n{printed}\n":
            raise Failed(f"of {rest} it prints {output}")
    if room.run([program], bytes.fromhex(COMMIT.read_text())) != b"public message\nmember 2\ncommit\nsignature of 1 bytes\n":
        raise Failed("a member's commit has another outcome")
    if room.run([program], bytes.fromhex("0001000201fa0000000000000007010001a102a2a3")) != b"private message\n":
        raise Failed("a private message has another outcome")
    if room.run([program], begin + bytes.fromhex("050000000202fbfc0102a1a201d101e1"), status=1) != b"message: UnknownValue at byte 14\n":
        raise Failed("an unknown kind of sender has another outcome")


class Built:
    """What is done with the commands of a README, in place of the lines of tools/data/commands.txt: the archives are there already."""

    def of(self, _kind: str) -> list[tuple[int, list[str]]]:
        return []

    def is_left_out(self, command: str) -> bool:
        return begins(command, "tools/archives.py") or begins(command, "cmake") and not shutil.which("cmake")

    def in_place(self, command: str, _clone: str) -> str:
        return command


def readmes(room: Room) -> None:
    """The commands that the READMEs print, each page in a copy of this tree with the archives in c/out."""
    for page, least in READMES.items():
        folder = room.folder / page.replace("/", "-")
        clone, answers = folder / "tls_codec", folder / "answers"
        clone.mkdir(parents=True), answers.mkdir()
        shutil.copytree(room.archives, copy_of_clone(clone) / "c" / "out")
        shutil.copy(room.shared_object(), clone / "c" / "out")
        script, wanted = script_of(page, Built(), clone, answers)
        subprocess.run(["timeout", "600", "bash", "-c", script], stdin=subprocess.DEVNULL, check=False)
        found = [(what, difference(answers, at, lines)) for at, (what, lines) in enumerate(wanted)]
        failed = [f"{page}: {what}: {why}" for what, why in found if why is not None]
        if failed or len(wanted) < least:
            raise Failed("\n".join([*failed, f"{len(wanted)} commands of {page}"]))

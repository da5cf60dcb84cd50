"""vectors.py LIBRARY FILE: whether each message of a test vector of the MLS working group is accepted, all of it.

FILE is test-vectors/messages.json of the repository mlswg/mls-implementations, or one like it: a list of objects, each with messages in hex
by their names. Prints a line for each that is rejected, or whose name isn't known; the last line is 'N passed, N failed'.
"""
from __future__ import annotations

import json
import pathlib
import sys

sys.dont_write_bytecode = True
sys.path.insert(0, str(pathlib.Path(__file__).resolve().parent.parent))
from tls_codec_validators import Rejected, Validators

# The message that each name has.
MESSAGES = {
    "mls_welcome": "mls_message",
    "mls_group_info": "mls_message",
    "mls_key_package": "mls_message",
    "public_message_application": "mls_message",
    "public_message_proposal": "mls_message",
    "public_message_commit": "mls_message",
    "private_message": "mls_message",
    "ratchet_tree": "mls_ratchet_tree",
    "group_secrets": "mls_group_secrets",
    "commit": "mls_commit",
}
# A proposal there has no type: its number is put before it.
PROPOSALS = {
    "add_proposal": 1,
    "update_proposal": 2,
    "remove_proposal": 3,
    "pre_shared_key_proposal": 4,
    "re_init_proposal": 5,
    "external_init_proposal": 6,
    "group_context_extensions_proposal": 7,
}


def rejection(validators: Validators, name: str, data: bytes) -> str:
    """Why a message is rejected; empty if it isn't."""
    if name in PROPOSALS:
        message, data = "mls_proposal", PROPOSALS[name].to_bytes(2, "big") + data
    elif name in MESSAGES:
        message = MESSAGES[name]
    else:
        return "no message of this name is known"
    try:
        validators.validate(message, data)
    except Rejected as rejected:
        return f"{rejected} of {len(data)}"
    return ""


def main() -> int:
    validators, counts = Validators(sys.argv[1]), {True: 0, False: 0}
    with open(sys.argv[2], encoding="utf-8") as file:
        vectors = json.load(file)
    for number, vector in enumerate(vectors):
        for name, digits in vector.items():
            found = rejection(validators, name, bytes.fromhex(digits))
            counts[not found] += 1
            if found:
                print(f"vector {number}, {name}: {found}")
    print(f"{counts[True]} passed, {counts[False]} failed")
    return 0 if counts[True] and not counts[False] else 1


if __name__ == "__main__":
    sys.exit(main())

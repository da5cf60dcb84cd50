"""How a tree shows counts, texts, dates and numbers. It shares no code with `tlsdump`."""
from __future__ import annotations

import datetime

# 9999-12-30T22:00:00Z, the last second that `tlsdump` shows as a date. It prints dates by `jiff`, whose timestamps end 25:59:59 before the
# year 10000, so that no time zone's offset, of at most 25:59:59, leads past the year 9999.
LAST_SECOND = 253402207200


def counted(count: int, of: str) -> str:
    """A number with what it counts."""
    return f"{count} {of}{'' if count == 1 else 's'}"


def text_of(label: str | None, data: bytes) -> str | None:
    """The text that bytes are, if they are one that is shown."""
    if label not in ("identity", "application_id", "label") or not data:
        return None
    try:
        text = data.decode()
    except UnicodeDecodeError:
        return None
    printed = all((" " <= one <= "~" and one not in '"\\') or (one > "~" and one.isalnum()) for one in text)
    return text if printed else None


def date(label: str | None, number: int) -> str | None:
    """The date that a number is, if its field has dates, up to LAST_SECOND."""
    scale = {"not_before": 1, "not_after": 1, "timestamp": 1000}.get(label)
    if scale is None or number // scale > LAST_SECOND:
        return None
    moment = datetime.datetime(1970, 1, 1) + datetime.timedelta(seconds=number // scale)
    part = f".{number % scale:03}".rstrip("0") if number % scale else ""
    return f"{moment.isoformat()}{part}Z"


def number_text(label: str | None, number: int) -> str:
    """A number as it is shown."""
    return f"{number} ({date(label, number)})" if date(label, number) else str(number)

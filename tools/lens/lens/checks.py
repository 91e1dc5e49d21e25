"""A check of `examples/common/check.h` that failed: what it printed before it trapped."""
from __future__ import annotations

import re

CHECK = re.compile(r'(?P<place>.+:[0-9]+): check failed: (?P<text>.*)')


def failed_check(console: bytes) -> str | None:
    """What is said of the check that printed the last line of a console; None where none did."""
    found = last_check(console)
    return f'The check at {found["place"]} failed: {found["text"]}.' if found else None


def failed_place(console: bytes) -> str | None:
    """The place of that check, as `prog.c:21`."""
    found = last_check(console)
    return found['place'].rpartition('/')[2] if found else None


def last_check(console: bytes) -> re.Match[str] | None:
    """What the last line of a console says, where a check printed it."""
    lines = console.decode('utf-8', 'replace').splitlines()
    return CHECK.fullmatch(lines[-1]) if lines else None

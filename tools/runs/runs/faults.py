"""What a reader can't read, in words for the person who asked."""
from __future__ import annotations

FAULT_STATUS = 2


class RunsFault(Exception):
    """One line that says what is wrong; a command ends with it and with this status."""

    status = FAULT_STATUS

"""Says on a stream how far a search is, once a second at most."""
from __future__ import annotations

import time
from typing import TextIO

INTERVAL = 1.0
NEW_LINE = '\r\x1b[K'
"""To the beginning of a terminal's line, and empties it."""


class Progress:
    """On a terminal each line takes the place of the one before; elsewhere they come one after the other."""

    def __init__(self, stream: TextIO | None):
        self.stream = stream
        self.due = time.monotonic() + INTERVAL
        self.is_shown = False

    def say(self, words: str) -> None:
        now = time.monotonic()
        if self.stream is None or now < self.due:
            return
        self.due = now + INTERVAL
        is_terminal = self.stream.isatty()
        self.stream.write(f'{NEW_LINE}{words}' if is_terminal else f'{words}\n')
        self.stream.flush()
        self.is_shown = is_terminal

    def clear(self) -> None:
        """Takes away the line that a terminal shows."""
        if self.stream is not None and self.is_shown:
            self.stream.write(NEW_LINE)
            self.stream.flush()
            self.is_shown = False

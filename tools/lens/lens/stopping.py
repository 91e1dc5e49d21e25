"""When a search is to stop before its end: a signal came, the time is over, or enough was tried."""
from __future__ import annotations

import signal
import time
from collections.abc import Iterator
from contextlib import contextmanager
from types import FrameType

SIGNALS = {signal.SIGINT: 'Ctrl-C', signal.SIGTERM: 'SIGTERM'}
SIGNALLED = 128
"""A process that a signal ends has this status and the signal's number, as a shell says it."""


class Stopped(Exception):
    """No more is tried."""


class Stop:
    """Says why a search is to stop, once it is."""

    def __init__(self, seconds: int | None = None, tries: int | None = None):
        self.began = time.monotonic()
        self.seconds = seconds
        self.tries = tries
        self.reason: str | None = None
        self.status = 0
        """The status with which the command is to end: 0 where it was asked to stop by an option."""

    def elapsed(self) -> float:
        return time.monotonic() - self.began

    def check(self, tried: int = 0) -> None:
        """Raises Stopped where the search is to stop."""
        if self.reason is None and self.seconds is not None and self.elapsed() >= self.seconds:
            self.reason = f'--seconds {self.seconds}'
        if self.reason is None and self.tries is not None and tried >= self.tries:
            self.reason = f'the limit of {self.tries} trials'
        if self.reason is not None:
            raise Stopped

    @contextmanager
    def on_signals(self) -> Iterator[None]:
        """SIGINT and SIGTERM ask the search to stop meanwhile."""
        before = {number: signal.signal(number, self.note) for number in SIGNALS}
        try:
            yield
        finally:
            for number, handler in before.items():
                signal.signal(number, handler)

    def note(self, number: int, _: FrameType | None) -> None:
        """Notes the signal that came first."""
        if self.status == 0:
            self.reason, self.status = SIGNALS[signal.Signals(number)], SIGNALLED + number

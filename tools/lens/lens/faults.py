"""What this program can't do, in words for the person who asked."""
from __future__ import annotations

from runs.faults import FAULT_STATUS, RunsFault

__all__ = ['FAULT_STATUS', 'Interrupted', 'LensFault']

LensFault = RunsFault
"""That of the readers, so that whoever catches one catches both."""


class Interrupted(LensFault):
    """A signal came before there was anything to show."""

    def __init__(self, words: str, status: int):
        super().__init__(words)
        self.status = status

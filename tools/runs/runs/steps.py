"""The lines of a log."""
from __future__ import annotations

import re
from functools import cache
from typing import NamedTuple

RUN, EXEC, DRAIN, PREEMPT, TAKE, DONE, SIGNAL = 'run', 'exec', 'drain', 'preempt', 'take', 'done', 'signal'
KINDS = (RUN, EXEC, DRAIN, PREEMPT, TAKE, DONE, SIGNAL)
HARTS = 8
PC_DIGITS = 16
LINE = re.compile(rf'([0-7]) ({"|".join(KINDS)}) ([0-9]+) ([0-9a-f]{{{PC_DIGITS}}})')


class Step(NamedTuple):
    """One line of the log: the event of a hart, and its thread and pc before the event. Steps count from
    1."""

    number: int
    hart: int
    kind: str
    thread: int
    pc: int

    def line(self) -> str:
        return line_of(*self[1:])

    def short_line(self) -> str:
        """The same event, without the thread and the pc that the program would compare."""
        return f'{self.hart} {self.kind} {self.thread}' if self.kind == RUN else f'{self.hart} {self.kind}'


@cache
def line_of(hart: int, kind: str, thread: int, pc: int) -> str:
    """A line of a log. (A log has the same line again and again.)"""
    return f'{hart} {kind} {thread} {pc:0{PC_DIGITS}x}'


@cache
def fields_of(line: bytes) -> tuple[int, str, int, int] | None:
    """What a line `HART KIND THREAD PC` says; None where it isn't of this form. (A log has the same line
    again and again.)"""
    found = LINE.fullmatch(line.decode('ascii', 'replace'))
    if found is None:
        return None
    hart, kind, thread, pc = found.groups()
    return int(hart), kind, int(thread), int(pc, 16)

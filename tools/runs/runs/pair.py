"""Reads what `rseq_run pair` prints: the consoles of two processes, their log, how each of them stands, and the end."""
from __future__ import annotations

from dataclasses import dataclass

from .reader import Reader

PROCESSES = (1, 2)


@dataclass(frozen=True)
class PairOutline:
    """A text of `pair`, its log not taken apart: that is a script."""

    name: str
    consoles: tuple[bytes, bytes]
    log: bytes
    states: tuple[str, str]
    end: str


def is_pair(name: str, text: bytes) -> bool:
    """Whether a text that begins with a console has a second one behind it."""
    reader = Reader(name, text)
    reader.console()
    return reader.rest.startswith(b'console ')


def pair_outline(name: str, text: bytes) -> PairOutline:
    """The parts of a text; a fault that names it where it is no whole text of `pair`."""
    reader = Reader(name, text)
    consoles = reader.console(), reader.console()
    log = reader.lines(reader.number('log'))
    first, second = (read_state(reader, process) for process in PROCESSES)
    return PairOutline(name, consoles, log, (first, second), reader.end())


def read_state(reader: Reader, process: int) -> str:
    """How a process stands: what a line `process N STATE` has behind its number."""
    line, head = reader.line(f'a line "process {process} STATE"'), f'process {process} '
    if not line.startswith(head):
        raise reader.fault(f'a line "{head}STATE" is due behind the log, and {line[:40]!r} came')
    return line.removeprefix(head)

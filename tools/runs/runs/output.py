"""Reads an output text of rseq_run: the console, the lines of the log, and the end."""
from __future__ import annotations

import sys
from dataclasses import dataclass
from functools import cached_property
from pathlib import Path

from .faults import RunsFault
from .reader import Reader
from .steps import Step, fields_of

CONSOLE_SHOWN = 60


@dataclass(frozen=True)
class Output:
    """The parts of an output text."""

    name: str
    console: bytes
    steps: list[Step]
    end: str

    @property
    def harts(self) -> list[int]:
        """The harts that did something, in order."""
        return sorted({step.hart for step in self.steps})

    @property
    def threads(self) -> list[int]:
        """The threads that ran, in order."""
        return sorted({step.thread for step in self.steps if step.thread})

    @property
    def was_killed(self) -> bool:
        return self.end.startswith('killed')


@dataclass(frozen=True)
class Outline:
    """An output text, its log not yet taken apart."""

    name: str
    console: bytes
    log: bytes
    """The log as it stands in the text, which is a script."""
    end: str

    @cached_property
    def lines(self) -> list[bytes]:
        return self.log.split(b'\n')[:-1]

    def output(self) -> Output:
        """The same with each line of the log read."""
        steps = []
        for number, line in enumerate(self.lines, 1):
            fields = fields_of(line)
            if fields is None:
                shown = line.decode('ascii', 'replace')[:40]
                raise RunsFault(
                    f'{self.name}: line {number} of its log is {shown!r}, and "HART KIND THREAD PC" is due'
                )
            steps.append(Step(number, *fields))
        return Output(self.name, self.console, steps, self.end)


def outline(name: str, text: bytes) -> Outline:
    """The parts of a text; a fault that names it where it is no whole output."""
    if text.startswith(b'fault '):
        first = text.splitlines()[0].decode('ascii', 'replace')
        raise RunsFault(
            f'{name}: the program refused what it was asked ("{first}"), so there is no run to show'
        )
    reader = Reader(name, text)
    return Outline(name, reader.console(), reader.log(), reader.end())


def parse_output(name: str, text: bytes) -> Output:
    """The parts of a text with each line of its log; a fault that names it where it is no whole output."""
    return outline(name, text).output()


def read_output(path: str) -> Output:
    """Reads the output text in a file, or on standard input where the path is `-`."""
    return parse_output(*read_bytes(path))


def read_bytes(path: str) -> tuple[str, bytes]:
    """The name and the bytes of a file, or of standard input where the path is `-`."""
    if path == '-':
        return 'standard input', sys.stdin.buffer.read()
    try:
        return path, Path(path).read_bytes()
    except OSError as error:
        raise RunsFault(f'{path}: {error.strerror}') from None


def shown_console(console: bytes) -> str:
    """The bytes as a literal, the first of them where there are many."""
    more = len(console) - CONSOLE_SHOWN
    text = repr(console[:CONSOLE_SHOWN])[1:]
    return f'{text} and {more} bytes more' if more > 0 else text

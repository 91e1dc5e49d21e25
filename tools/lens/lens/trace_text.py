"""Reads what `trace` prints: each line of a log, and below it the facts of its event."""
from __future__ import annotations

import re
from collections.abc import Iterator
from dataclasses import dataclass
from functools import cache
from typing import NamedTuple, TypeVar

from .facts import Fact, fact_of
from .faults import LensFault
from .output import Step, fields_of

Kind = TypeVar('Kind')
END = 'end '
BETWEEN = '\n  line \n'
RECORD = re.compile(r'(.*)\n  line ([0-9]+)\n((?:  .*\n)*)')
"""A log line, its number, and the lines below that, with BETWEEN between them."""
SLEEPER = re.compile(r'thread (?P<thread>[0-9]+) waiting (?P<at>[0-9a-f]{16})')


class NotATrace(LensFault):
    """A text that isn't one of `trace`."""


class Record(NamedTuple):
    """A line of the log, and the lines below it but for the first, which tell the facts of its event."""

    step: Step
    lines: str

    @property
    def facts(self) -> tuple[Fact, ...]:
        """The facts in their order, read when they are first asked for."""
        return facts_of(self.lines)

    def of_kind(self, kind: type[Kind]) -> Iterator[Kind]:
        """Its facts of one kind."""
        return (fact for fact in self.facts if isinstance(fact, kind))

    def first(self, kind: type[Kind]) -> Kind | None:
        """The first of its facts of one kind; None where it has none."""
        return next(self.of_kind(kind), None)


@dataclass(frozen=True)
class Trace:
    """The records of a run in order; `waiting` has the word at which each live thread sleeps where all do."""

    records: list[Record]
    waiting: dict[int, int]
    end: str


def parse_trace(name: str, text: bytes) -> Trace:
    """The records of a text; a fault that names it where it is no whole text of `trace`."""
    shown = text.decode('ascii', 'replace')
    lines, _, last = shown[:-1].rpartition('\n')
    if not shown.endswith('\n') or not last.startswith(END):
        raise NotATrace(f'{name}: it is no whole text of `trace`: a line "end REASON" is due where it ends')
    told, waiting = without_sleepers(lines)
    return Trace(records(name, told), waiting, last.removeprefix(END))


def without_sleepers(lines: str) -> tuple[str, dict[int, int]]:
    """Takes the lines `thread T waiting AT` from the end, and says what they say."""
    waiting = {}
    before, _, last = lines.rpartition('\n')
    while found := SLEEPER.fullmatch(last):
        waiting[int(found['thread'])] = int(found['at'], 16)
        lines = before
        before, _, last = lines.rpartition('\n')
    return lines, dict(reversed(waiting.items()))


def records(name: str, text: str) -> list[Record]:
    """One for each log line, with the lines up to the next. The last has no newline."""
    whole = f'{text}\n' if text else ''
    found = RECORD.findall(whole)
    fields = [words for line, _, _ in found if (words := of_line(line))]
    told = sum([len(line) + len(number) + len(lines) for line, number, lines in found])
    if len(fields) < len(found) or told + len(BETWEEN) * len(found) < len(whole):
        raise fault(name, whole)
    steps = [Step(int(number), *words) for (_, number, _), words in zip(found, fields)]
    return [Record(step, lines) for step, (_, _, lines) in zip(steps, found)]


@cache
def of_line(line: str) -> tuple[int, str, int, int] | None:
    """What a log line says; None where it is none."""
    return fields_of(line.encode())


@cache
def facts_of(lines: str) -> tuple[Fact, ...]:
    """What the lines below a log line say. (A run tells the same again and again.)"""
    return tuple([fact_of(line[2:]) for line in lines.splitlines()])


def fault(name: str, text: str) -> NotATrace:
    """What is wrong behind the records that can be read."""
    end = 0
    while (found := RECORD.match(text, end)) and of_line(found[1]):
        end = found.end()
    number, lines = text.count('\n', 0, end) + 1, text[end:].split('\n')
    due = 'a log line "HART KIND THREAD PC"'
    if of_line(lines[0]):
        number, lines, due = number + 1, lines[1:], 'a line "  line N"'
    return NotATrace(
        f'{name}: it is no text of `trace`: {due} is due in line {number}, and {lines[0][:40]!r} came'
    )

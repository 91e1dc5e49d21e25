"""Calls of a run that this machine hasn't, and that answered ENOSYS: a program that fails may do so for one of
them."""
from __future__ import annotations

from collections.abc import Iterable, Iterator

from .calls import UNBUILT
from .facts import Answer, Called
from .output import Step
from .program import Program
from .trace_text import Record

OPERATION = 0x7F
"""What of the second argument of futex says what is done."""


def of_unbuilt(program: Program, records: Iterable[Record]) -> Iterator[str]:
    """Each call that isn't there, with the step in which it was made first, and how often it was made."""
    made: dict[str, list[Step]] = {}
    for record in records:
        called, answer = record.first(Called), record.first(Answer)
        if called and answer and answer.error == 'ENOSYS':
            made.setdefault(name_of(called), []).append(record.step)
    for name, steps in made.items():
        first = steps[0]
        spot = f'{program.spot(first.pc)} (step {first.number})'
        often = f', the first of {len(steps)} times' if len(steps) > 1 else ''
        yield f'This machine has no {name}: thread {first.thread} got ENOSYS at {spot}{often}.'


def name_of(called: Called) -> str:
    """The name of a call with its number, or of futex with its operation."""
    if called.name == 'futex':
        return f'futex with operation {called.arguments[1] & OPERATION}'
    if not called.name.isdecimal():
        return called.name
    number = int(called.name)
    return f'{UNBUILT[number]} ({number})' if number in UNBUILT else f'call {number}'

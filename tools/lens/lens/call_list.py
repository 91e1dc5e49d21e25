"""The system calls of a run, with their arguments and answers, as strace prints them.

The log has neither. So the place before each call is asked for its arguments, and the place at which its
thread goes on for its answer (`inspect`). What an address points to isn't known there, but for the bytes of
`write`, which are those of the console.
"""
from __future__ import annotations

from collections.abc import Iterator, Sequence
from concurrent.futures import ThreadPoolExecutor
from dataclasses import dataclass
from os import cpu_count

from . import calls
from .history import History
from .machine import Machine
from .output import EXEC, PREEMPT, SIGNAL, Step
from .place import OPEN
from .program import Program

A0, A7 = 10, 17
ARGUMENTS = 6
LARGEST_ERROR = 4_095
TEXT_SHOWN = 32


@dataclass(frozen=True)
class Call:
    """A call: its step, its number, its arguments, and what a0 had when its thread went on; None where it
    didn't."""

    step: Step
    number: int
    arguments: list[int]
    answer: int | None

    @property
    def is_error(self) -> bool:
        return self.answer is not None and self.answer >= 2**64 - LARGEST_ERROR


def list_calls(history: History, machine: Machine, thread: int | None) -> Iterator[str]:
    """A line for each call of a thread, or of all."""
    made = (step for step in history.output.steps if step.number in history.calls)
    steps = [step for step in made if thread in (None, step.thread)]
    with ThreadPoolExecutor(cpu_count()) as pool:
        found = list(pool.map(lambda step: read_call(history, machine, step), steps))
    yield f'{"step":>7}  {"thread":>6}  call'
    printed = 0
    for call in found:
        text = None
        if call.number in calls.WRITES and not call.is_error and call.answer is not None and thread is None:
            text = history.output.console[printed : printed + call.answer]
            printed += call.answer
        yield f'{call.step.number:>7}  {call.step.thread:>6}  {told(history, call, text)}'
    yield ''
    yield f'{len(found)} calls; end {history.output.end}'


def read_call(history: History, machine: Machine, step: Step) -> Call:
    before = registers(history, machine, step.number - 1, step.hart)
    number = before[A7] & 0xFFFF_FFFF
    arguments = before[A0 : A0 + ARGUMENTS]
    return Call(step, number, arguments, answer_of(history, machine, step, number))


def answer_of(history: History, machine: Machine, step: Step, number: int) -> int | None:
    """What a0 has before the next event of the thread of a call, where that isn't the delivery of a signal.
    """
    later = history.output.steps[step.number :]
    if number in calls.WITHOUT_ANSWER:
        return None
    own = (other for other in later if other.thread == step.thread)
    following = next((other for other in own if other.kind in (EXEC, PREEMPT, SIGNAL)), None)
    if following is None:
        still = registers(history, machine, len(history.output.steps), step.hart)
        is_last = not any(other.hart == step.hart for other in later)
        is_known = still and is_last and history.output.end == OPEN and number != calls.MEMBARRIER
        return still[A0] if is_known else None
    return registers(history, machine, following.number - 1, following.hart)[A0]


def registers(history: History, machine: Machine, count: int, hart: int) -> list[int]:
    """The registers of a hart behind so many steps; none where no thread runs there."""
    place = machine.inspect([step.line() for step in history.output.steps[:count]])
    return place.harts[hart].registers if hart in place.harts else []


def told(history: History, call: Call, text: bytes | None) -> str:
    """A call as strace prints it, and behind it the place where it stands."""
    program = history.program
    return f'{asked(program, call.number, call.arguments, text)} = {answer_word(program, call)}  ({program.spot(call.step.pc)})'


def asked(program: Program, number: int, arguments: Sequence[int], text: bytes | None = None) -> str:
    """A call with its arguments, of which the second is shown as a text where one is given."""
    form = calls.form_of(number, arguments)
    counted = form if form is not None else zip('x' * ARGUMENTS, arguments)
    words = [word(program, kind, value) for kind, value in counted]
    if text is not None and form:
        words[1] = literal(text)
    return f'{calls.name_of(number)}({", ".join(words)})'


def answer_word(program: Program, call: Call) -> str:
    if call.answer is None:
        return '?'
    if call.is_error:
        error = 2**64 - call.answer
        return f'-1 {calls.ERRORS.get(error, f"error {error}")}'
    return word(program, calls.ANSWERS.get(call.number, 'd'), call.answer)


def word(program: Program, kind: str, value: int) -> str:
    """A value as its kind of argument is written."""
    if kind == 'd':
        low = value & 0xFFFF_FFFF
        return str(low - 2**32 if low >> 31 else low)
    if kind == 'u':
        return str(value)
    if kind == 'p':
        return 'NULL' if value == 0 else program.variable(value)
    names = calls.NAMES_OF.get(kind)
    return names(value) if names else f'{value:#x}'


def literal(text: bytes) -> str:
    """Bytes as C writes them, the first of them where there are many."""
    escapes = {0x0A: '\\n', 0x09: '\\t', 0x22: '\\"', 0x5C: '\\\\'}
    shown = ''.join(
        escapes.get(byte) or (chr(byte) if 0x20 <= byte < 0x7F else f'\\{byte:03o}')
        for byte in text[:TEXT_SHOWN]
    )
    return f'"{shown}"' + ('...' if len(text) > TEXT_SHOWN else '')

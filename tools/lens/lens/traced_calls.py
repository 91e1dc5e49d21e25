"""The system calls of a run by its trace: arguments and answers without asking `inspect`, and what each wrote
and whom it woke."""
from __future__ import annotations

from collections.abc import Iterator

from . import calls
from .call_list import A0, Call, told
from .facts import CREATED, WOKEN, Answer, BarrierReturns, Called, Register, ThreadState
from .output import Step
from .trace_text import Record
from .values import Values

NUMBERS = {name: number for number, name in calls.NAMES.items()}
ERRORS = {name: number for number, name in calls.ERRORS.items()}
BELOW = ' ' * 17


def list_traced_calls(values: Values, thread: int | None) -> Iterator[str]:
    """A line for each call of a thread, or of all, and one below it where it wrote or woke."""
    history, printed, shown = values.history, 0, 0
    yield f'{"step":>7}  {"thread":>6}  call'
    for call in traced_calls(values):
        text = None
        if call.number in calls.WRITES and not call.is_error and call.answer is not None:
            text = history.output.console[printed : printed + call.answer]
            printed += call.answer
        if thread in (None, call.step.thread):
            shown += 1
            yield f'{call.step.number:>7}  {call.step.thread:>6}  {told(history, call, text)}'
            yield from (f'{BELOW}{words}' for words in effects(values, call.step))
    yield ''
    yield f'{shown} calls; end {history.output.end}'


def traced_calls(values: Values) -> Iterator[Call]:
    for record in values.trace.records:
        called = record.first(Called)
        if called:
            number = NUMBERS.get(called.name)
            known = int(called.name) if number is None and called.name.isdecimal() else number or 0
            yield Call(record.step, known, list(called.arguments), answer_of(values, record, called))


def answer_of(values: Values, record: Record, called: Called) -> int | None:
    """What a0 has when the thread of a call goes on; None where it doesn't."""
    answer = record.first(Answer)
    if answer is None or not answer.is_later:
        failed = answer.error if answer else None
        return 2**64 - ERRORS.get(failed, 0) if failed else answer.value if answer else None
    thread = record.step.thread
    at_once = register_after(record, thread, called.arguments[0])
    for later in values.trace.records[record.step.number :]:
        if goes_on(later, thread):
            return register_after(later, thread, at_once)
    return None


def goes_on(record: Record, thread: int) -> bool:
    """Whether an event wakes a thread, or its barrier returns."""
    is_own = record.step.thread == thread and record.first(BarrierReturns) is not None
    return is_own or any(
        fact.thread == thread and fact.state == WOKEN for fact in record.of_kind(ThreadState)
    )


def register_after(record: Record, thread: int, before: int) -> int:
    """The a0 of a thread behind an event, which tells it where it changed."""
    told_of = thread if record.step.thread != thread else None
    changed = (fact for fact in record.of_kind(Register) if (fact.thread, fact.number) == (told_of, A0))
    return next((fact.value for fact in changed), before)


def effects(values: Values, step: Step) -> Iterator[str]:
    """What a call wrote, created and woke, on one line; nothing where it did none of it."""
    record, parts = values.record(step), []
    if words := values.words(step):
        parts.append(words)
    for fact in record.of_kind(ThreadState):
        if fact.state in (CREATED, WOKEN):
            parts.append(f'thread {fact.thread} {fact.state}')
    if parts:
        yield '; '.join(parts)

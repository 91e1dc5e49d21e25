"""Why nobody wakes a thread that sleeps in a futex, for `lens why`: what its word holds, who wrote it last, and
whether a wake of it came."""
from __future__ import annotations

from collections.abc import Iterator

from .calls import FUTEX_CLOCK, FUTEX_PRIVATE
from .facts import SLEEPS, Called, ThreadState, Wrote
from .output import DRAIN, Step
from .values import Values

FUTEX, WAKES = 'futex', (1, 3, 4, 10)
"""The operations that wake: FUTEX_WAKE, FUTEX_REQUEUE, FUTEX_CMP_REQUEUE and FUTEX_WAKE_BITSET."""
WORD = 4


def of_sleeper(values: Values, thread: int, word: int) -> Iterator[str]:
    """What is known of the word at which a thread sleeps, a sentence a line."""
    slept = last_sleep(values, thread, word)
    if slept is None:
        return
    if slept.thread != thread:
        yield f'    It waited at another word before: {by(values, slept)}, moved it here.'
        yield f'    The word: {last_writer(values, word)}.'
        yield f'    {last_wake(values, slept, word)}.'
        return
    before, now = value_when_asleep(values, slept), value_now(values, slept, word)
    is_now = 'is still' if now == before else f'was {before} then, and is {now} now'
    held = f'{is_now} {before}' if now == before else is_now
    yield f'    The word {held}: {last_writer(values, word)}.'
    yield f'    {last_wake(values, slept, word)}.'


def last_sleep(values: Values, thread: int, word: int) -> Step | None:
    """The call at which a thread fell asleep, or began to sleep at this word by a call of another thread."""
    for record in reversed(values.trace.records):
        if ThreadState(thread, SLEEPS, word) in record.facts:
            return record.step
    return None


def value_when_asleep(values: Values, slept: Step) -> int:
    """What the word held when its thread fell asleep, since the call compares it with its third argument."""
    called = values.record(slept).first(Called)
    return called.arguments[2] & 0xFFFF_FFFF if called else 0


def value_now(values: Values, slept: Step, word: int) -> int:
    """What the word holds at the end: the value when its thread fell asleep, with what was written since."""
    held = bytearray(value_when_asleep(values, slept).to_bytes(WORD, 'little'))
    for record in values.trace.records[slept.number :]:
        for fact in record.of_kind(Wrote):
            content = fact.value.to_bytes(fact.size, 'little')
            for at in range(max(word, fact.at), min(word + WORD, fact.at + fact.size)):
                held[at - word] = content[at - fact.at]
    return int.from_bytes(held, 'little')


def last_writer(values: Values, word: int) -> str:
    """Who wrote a word last."""
    for record in reversed(values.trace.records):
        for fact in record.of_kind(Wrote):
            if fact.at < word + WORD and word < fact.at + fact.size:
                step = record.step
                store = values.history.drained[step.number] if step.kind == DRAIN else step
                spot = values.history.program.spot(store.pc)
                return f'the last to write it was the {values.writer(step.number)}, at {spot}'
    return 'nobody has written it'


def last_wake(values: Values, slept: Step, word: int) -> str:
    """When the last wake of a word came."""
    wakes = [record.step for record in values.trace.records if is_wake(record.first(Called), word)]
    later = [step for step in wakes if step.number > slept.number]
    if later:
        return f'The last wake of it, by {by(values, later[-1])}, woke others'
    none_later = f'No wake of it came after step {slept.number}'
    return f'{none_later}; the last came before, by {by(values, wakes[-1])}' if wakes else none_later


def is_wake(called: Called | None, word: int) -> bool:
    """Whether a call wakes threads that sleep at a word (a requeue of none doesn't)."""
    if called is None or called.name != FUTEX or called.arguments[0] != word:
        return False
    operation = called.arguments[1] & 0xFFFF_FFFF & ~(FUTEX_PRIVATE | FUTEX_CLOCK)
    return operation in WAKES and called.arguments[2] & 0xFFFF_FFFF != 0


def by(values: Values, step: Step) -> str:
    spot = values.history.program.spot(step.pc)
    return f'thread {step.thread} in step {step.number}, at {spot}'

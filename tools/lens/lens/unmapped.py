"""Which call took a page away, or its rights, for `lens why`."""
from __future__ import annotations

from collections.abc import Iterator
from dataclasses import dataclass

from .calls import NAMES_OF
from .facts import Answer, Called, Faulted
from .output import Step
from .trace_text import Record
from .values import Values

PAGE = 4_096


@dataclass(frozen=True)
class Change:
    """The last call that changed a page: its step, its name, and the rights of the page behind it; None where
    no page is there."""

    step: Step
    name: str
    rights: str | None


def of_fault(values: Values) -> Iterator[str]:
    """Who took the page away, or its rights, at which the run's last instruction faulted; nothing where no
    call did."""
    fault = values.trace.records[-1].first(Faulted)
    change = last_change(values, fault.at) if fault else None
    if change is None:
        return
    last, step = values.trace.records[-1].step, change.step
    what = 'No page is there since' if change.rights is None else f'The page has {change.rights} since'
    before = f'in step {step.number}, {counted(last.number - step.number)} before'
    spot = values.history.program.spot(step.pc)
    yield f'{what} {change.name} by thread {step.thread} {before}, at {spot}.'


def counted(steps: int) -> str:
    return f'{steps} step' if steps == 1 else f'{steps} steps'


def last_change(values: Values, address: int) -> Change | None:
    """The last call that changed the page of an address."""
    found, end = None, 0
    for record in values.trace.records:
        called, answer = record.first(Called), record.first(Answer)
        if called is None or answer is None or answer.value is None:
            continue
        if called.name == 'brk':
            found = of_break(record, address, end, answer.value) or found
            end = answer.value
        else:
            found = of_call(record, called, answer.value, address) or found
    return found


def of_call(record: Record, called: Called, answer: int, address: int) -> Change | None:
    """What a call that maps, unmaps or protects pages does to that of an address."""
    match called.name, called.arguments:
        case 'munmap', (start, length, *_) if is_in(address, start, length):
            return Change(record.step, 'munmap', None)
        case 'mprotect', (start, length, rights, *_) if is_in(address, start, length):
            return Change(record.step, 'mprotect', NAMES_OF['prot'](rights))
        case 'mmap', (_, length, rights, *_) if is_in(address, answer, length):
            return Change(record.step, 'mmap', NAMES_OF['prot'](rights))
    return None


def of_break(record: Record, address: int, before: int, after: int) -> Change | None:
    """What a break that moves does to the page of an address."""
    low, high = up(min(before, after)), up(max(before, after))
    if not before or not low <= address < high:
        return None
    return Change(record.step, 'brk', None if after < before else 'PROT_READ|PROT_WRITE')


def is_in(address: int, start: int, length: int) -> bool:
    """Whether an address is in the pages of some bytes."""
    return start <= address < up(start + length)


def up(address: int) -> int:
    """The first page boundary from an address on."""
    return -(-address // PAGE) * PAGE

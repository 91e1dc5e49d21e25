"""Each access to a variable, in the order of the run: `lens watch`."""
from __future__ import annotations

import re
from collections.abc import Iterator
from dataclasses import dataclass
from typing import NamedTuple

from .facts import Read, Waits, Wrote, Zeroed
from .faults import LensFault
from .layout import PATH
from .listing import Selection
from .output import DRAIN, Step
from .program import Program
from .values import Values, joined

WATCHED = re.compile(r'(?P<name>[^+:]+)(\+(?P<offset>0x[0-9a-fA-F]+|[0-9]+))?(:(?P<size>[1-9][0-9]*))?')
ADDRESS = re.compile(r'0x[0-9a-fA-F]{1,16}')
WORD = 8
READS, WAITS, ENTERS, KERNEL = 'reads', 'waits', 'enters', 'kernel'
HEADS = ('value', 'from', 'at')
EVERY = Selection()


@dataclass(frozen=True)
class Range:
    """The bytes that are watched."""

    at: int
    size: int

    def has(self, at: int, size: int) -> bool:
        """Whether one of so many bytes is watched."""
        return at < self.at + self.size and self.at < at + size


class Access(NamedTuple):
    """One access: a read, a store that waits, a write that enters memory, or one of the kernel."""

    step: Step
    kind: str
    at: int
    size: int
    value: int
    source: str


def watched(program: Program, words: str) -> Range:
    """The bytes that `NAME`, `NAME+OFF`, a member as C writes it (`NAME[1].MEMBER`), or an address names,
    with `:SIZE` so many of them, and else up to its end (of an address 8)."""
    found = WATCHED.fullmatch(words)
    if found is None:
        raise LensFault(f'{words!r} is none of NAME, NAME+OFF, NAME:SIZE, NAME+OFF:SIZE')
    name, offset = found['name'], int(found['offset'] or '0', 0)
    start, size = (int(name, 16), offset + WORD) if ADDRESS.fullmatch(name) else place_of(program, name)
    left = int(found['size'] or size - offset)
    if left < 1:
        raise LensFault(f'{name} has {size} bytes, and none at {offset:#x}')
    return Range(start + offset, left)


def place_of(program: Program, name: str) -> tuple[int, int]:
    """The address and the size of a variable, or of a member of one."""
    member = None if any(found.name == name for found in program.variables) else PATH.fullmatch(name)
    if member:
        address, _ = place_of(program, member['variable'])
        return program.layout.member(address, member['variable'], member['members'])
    named = {(found.address, found.size) for found in program.variables if found.name == name}
    if not named:
        raise LensFault(f'{program.path} has no variable {name!r} (an address is written 0x..)')
    if len(named) > 1:
        places = ', '.join(f'{address:#x}' for address, _ in sorted(named))
        raise LensFault(f'{program.path} has several variables {name!r}: name one by its address ({places})')
    return named.pop()


def accesses(values: Values, range_: Range) -> Iterator[Access]:
    """Each access to one of the bytes, in order."""
    for record in values.trace.records:
        step, facts = record.step, record.facts
        reads = [fact for fact in facts if type(fact) is Read]
        if reads:
            whole = joined(reads)
            if range_.has(whole.at, whole.size):
                own = [read for read in reads if range_.has(read.at, read.size)]
                yield Access(step, READS, whole.at, whole.size, whole.value, values.sources(own))
        for fact in facts:
            if isinstance(fact, (Waits, Wrote, Zeroed)) and range_.has(fact.at, fact[1]):
                yield written(values, step, fact)


def written(values: Values, step: Step, fact: Waits | Wrote | Zeroed) -> Access:
    match fact:
        case Waits(at, size, value):
            return Access(step, WAITS, at, size, value, '')
        case Zeroed(at, length):
            return Access(step, KERNEL, at, length, 0, values.event(step))
        case Wrote(at, size, value, old, line):
            if not values.is_own(step):
                return Access(step, KERNEL, at, size, value, values.event(step))
            store = f'store of step {line}' if step.kind == DRAIN else values.mnemonic(step)
            source = f'{store}, in place of {values.before(at, size, old or 0)}'
            return Access(step, ENTERS, at, size, value, source)


def watch(values: Values, words: str, selection: Selection = EVERY) -> Iterator[str]:
    """A line for each access in the steps that are chosen."""
    history, range_ = values.history, watched(values.history.program, words)
    every = list(accesses(values, range_))
    chosen = {step.number for step in selection.steps(history.output.steps)}
    shown = [access for access in every if access.step.number in chosen]
    rows = [(access, cells(values, range_, access)) for access in shown]
    widths = [max([len(head), *(len(row[at]) for _, row in rows)]) for at, head in enumerate(HEADS)]
    heads = '  '.join(head.ljust(width) for head, width in zip(HEADS, widths))
    yield f'{"step":>7}  {"hart":>4}  {"thread":>6}  {"access":<6}  {heads}  source'
    for (step, kind, *_), row in rows:
        told = '  '.join(cell.ljust(width) for cell, width in zip(row, [*widths, 0]))
        yield f'{step.number:>7}  {step.hart:>4}  {step.thread or "":>6}  {kind:<6}  {told}'.rstrip()
    yield ''
    size = f'{range_.size} bytes' if range_.size > 1 else '1 byte'
    often = f'{len(rows)}' if len(rows) == len(every) else f'{len(rows)} of {len(every)}'
    yield f'{often} accesses to the {size} at {range_.at:#x}; end {history.output.end}'


def cells(values: Values, range_: Range, access: Access) -> tuple[str, str, str, str]:
    """The value, with the place of an access that isn't to all of the bytes alone; where it came from; where
    its instruction stands."""
    program, step = values.history.program, access.step
    is_all = (access.at, access.size) == (range_.at, range_.size)
    is_one = len(values.held(access.at, access.size, 0)) == 1
    put = values.put(access.at, access.size, access.value)
    value = values.number(access.value, access.size) if is_all and is_one else put
    pc = values.history.drained[step.number].pc if step.kind == DRAIN else step.pc
    return value, access.source, program.where(pc), program.source(pc)

"""Pairs of accesses of two harts that nothing orders, one of them a plain store: `lens races`."""
from __future__ import annotations

import re
from collections import defaultdict
from collections.abc import Iterator
from dataclasses import dataclass, field

from .marks import Marks
from .ordering import ATOMIC, CONDITIONAL, KERNEL, RESERVING, STORE, Access, Orders
from .values import Values

WORD = 8
INDEX = re.compile(r'\[[0-9]+\]')
OFFSET = re.compile(r'(\+0x[0-9a-f]+)?(:[0-9]+)?$')
ON_PURPOSE = {ATOMIC: 'atomic', RESERVING: 'atomic', CONDITIONAL: 'atomic', KERNEL: 'kernel'}
"""How accesses are marked of which no line of the source has to say it."""
Seen = dict[int, dict[int, dict[tuple[int, str, int, int], Access]]]
"""By word of memory and hart: the last access of each instruction to each place there."""


@dataclass
class Race:
    """Two lines of the source that access a variable, or a member of one, unordered: the first example, the
    places of all, and how often."""

    first: Access
    second: Access
    places: list[str] = field(default_factory=list)
    times: int = 0

    @property
    def heading(self) -> str:
        """Its first place, how many others there are, and how often."""
        others = len(set(self.places)) - 1
        more = f' and {others} more {"place" if others == 1 else "places"}' if others else ''
        return f'{self.places[0]}{more}, {"once" if self.times == 1 else f"{self.times} times"}:'


def races(values: Values) -> list[Race]:
    """The pairs of source lines, in the order of their first examples."""
    found: dict[tuple[str, ...], Race] = {}
    seen: Seen = defaultdict(dict)
    orders = Orders(values)
    for access in orders.accesses():
        for other in unordered(seen, access, orders.harts):
            names = sorted(f'{line_of(values, one)} {one.kind}' for one in (access, other))
            place = place_of_both(values, other, access)
            of_all = INDEX.sub('[]', OFFSET.sub('', place) or place)
            race = found.setdefault((of_all, *names), Race(other, access))
            race.places.append(place)
            race.times += 1
        key = access.pc, access.kind, access.at, access.size
        for word in words_of(access):
            seen[word].setdefault(access.step.hart, {})[key] = access
    return list(found.values())


def place_of_both(values: Values, one: Access, other: Access) -> str:
    """The variable, the element or the member that two accesses have in common."""
    at, end = max(one.at, other.at), min(one.at + one.size, other.at + other.size)
    program = values.history.program
    return program.bytes_of(at, end - at) if program.variable_at(at) else program.variable(at)


def words_of(access: Access) -> range:
    return range(access.at // WORD, (access.at + access.size - 1) // WORD + 1)


def unordered(seen: Seen, access: Access, harts: int) -> Iterator[Access]:
    """The accesses of other harts to bytes of this one that don't come before it, where one of the two is a
    plain store."""
    hart, is_store = access.step.hart, access.kind == STORE
    for word in words_of(access):
        for other_hart, others in seen[word].items():
            if other_hart == hart:
                continue
            for other in others.values():
                other_is_store = other.kind == STORE
                is_here = word == max(access.at, other.at) // WORD
                if not (is_store or other_is_store) or not overlap(access, other) or not is_here:
                    continue
                if access.clock[other_hart + harts * other_is_store] < other.step.number:
                    yield other


def overlap(one: Access, other: Access) -> bool:
    return one.at < other.at + other.size and other.at < one.at + one.size


def line_of(values: Values, access: Access) -> str:
    """The source line of an access, or its instruction where the file has none."""
    program = values.history.program
    return program.line_name(access.pc) or program.where(access.pc)


def list_races(values: Values, is_plain: bool = False) -> Iterator[str]:
    """An example of each pair, the earlier access first. With `is_plain` those aren't shown both of whose
    accesses are marked."""
    history, found, marks = values.history, races(values), Marks(values.history.program)
    shown = 0
    for race in found:
        both = [(access, mark_of(marks, access)) for access in (race.first, race.second)]
        if is_plain and all(mark for _, mark in both):
            continue
        shown += 1
        yield race.heading
        yield from (f'    {words_of_access(values, *one)}'.rstrip() for one in both)
        yield ''
    pairs = '1 pair of lines' if len(found) == 1 else f'{len(found)} pairs of lines'
    hidden = len(found) - shown
    are = 'is' if hidden == 1 else 'are'
    left_out = f'; {hidden} of them {are} on purpose on both sides, and left out' if hidden else ''
    yield f'{pairs} that nothing orders in this run{left_out}; end {history.output.end}'
    yield 'Of other runs this says nothing, and not each such pair is a bug.'


def mark_of(marks: Marks, access: Access) -> str:
    return ON_PURPOSE.get(access.kind) or marks.mark(access.pc, access.at, access.size)


def words_of_access(values: Values, access: Access, mark: str) -> str:
    program, step = values.history.program, access.step
    steps = f'{access.store} to {step.number}' if access.store else f'{step.number}'
    where = f'{program.where(access.pc):<16}  {program.source(access.pc)}'
    return f'step {steps:<16}  hart {step.hart}  thread {step.thread:<3}  {access.kind:<6}  {mark:<8}  {where}'

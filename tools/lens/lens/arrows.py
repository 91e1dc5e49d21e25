"""Arrows of a trace: from a store to its drain and to the loads that saw it, and from a call of membarrier to
what answers it.

An arrow is a flow of the trace-event format: a start, steps on its way, and an end, which have one number.
"""
from __future__ import annotations

import itertools
from collections import defaultdict
from collections.abc import Iterator
from typing import Any, NamedTuple

from .calls import MEMBARRIER
from .facts import MEMORY, START, Read
from .history import History
from .output import DONE, DRAIN, EXEC, TAKE, Step
from .values import Values

Event = dict[str, Any]
HARTS_LANE = 1
ARROW_START, ARROW_STEP, ARROW_END = 's', 't', 'f'

ENTERS, SEEN, SEEN_EARLY = 'store enters memory', 'seen by a load', 'seen by a load of its hart'
ASKS, RETURNS = 'membarrier asks', 'membarrier done'


class Arrow(NamedTuple):
    """From the first of some steps by way of those between to the last."""

    name: str
    steps: tuple[Step, ...]


def arrow_events(history: History, values: Values | None) -> Iterator[Event]:
    """The events of all arrows. Each has a number of its own, since viewers take numbers alone."""
    arrows = itertools.chain(
        seen_arrows(history, values) if values else store_arrows(history), barrier_arrows(history)
    )
    for number, arrow in enumerate(arrows, 1):
        yield from flow(number, arrow)


def flow(number: int, arrow: Arrow) -> Iterator[Event]:
    first, *between, last = arrow.steps
    head = {'name': arrow.name, 'cat': arrow.name, 'id': number}
    yield {'ph': ARROW_START, **head, **on_hart(first)}
    for step in between:
        yield {'ph': ARROW_STEP, **head, **on_hart(step)}
    yield {'ph': ARROW_END, **head, 'bp': 'e', **on_hart(last)}


def on_hart(step: Step) -> Event:
    return {'pid': HARTS_LANE, 'tid': step.hart, 'ts': step.number}


def store_arrows(history: History) -> Iterator[Arrow]:
    for number, store in history.drained.items():
        yield Arrow(ENTERS, (store, history.output.steps[number - 1]))


def seen_arrows(history: History, values: Values) -> Iterator[Arrow]:
    """From each store to its drain, and from there on to the first load that saw it. Each further load has
    an arrow from the drain alone. A load that saw it while it waited has one from the store, and what saw
    another write (of an AMO, an SC, the kernel) one from there."""
    steps, early, late = history.output.steps, *loads_by_writer(values)
    for number, loads in early.items():
        yield from (Arrow(SEEN_EARLY, (steps[number - 1], load)) for load in loads)
    for number, store in history.drained.items():
        first = late[number][:1]
        yield Arrow(ENTERS, (store, steps[number - 1], *first))
    for number, loads in late.items():
        further = loads[1:] if steps[number - 1].kind == DRAIN else loads
        yield from (Arrow(SEEN, (steps[number - 1], load)) for load in further)


def loads_by_writer(values: Values) -> tuple[dict[int, list[Step]], dict[int, list[Step]]]:
    """The steps that saw a store while it waited, by the number of the store's step; and those that saw a
    write in memory, by the number of the step in which it entered."""
    early: dict[int, list[Step]] = defaultdict(list)
    late: dict[int, list[Step]] = defaultdict(list)
    for record in values.trace.records:
        sources = {(fact.source, fact.line or 0) for fact in record.of_kind(Read) if fact.source != START}
        for source, line in sorted(sources):
            (late if source == MEMORY else early)[line].append(record.step)
    return early, late


def barrier_arrows(history: History) -> Iterator[Arrow]:
    """A `take` of another hart answers every call of membarrier that waits, and a `done` ends the one of
    its hart."""
    waiting: dict[int, Step] = {}
    for step in history.output.steps:
        if history.calls.get(step.number) == MEMBARRIER:
            waiting[step.hart] = step
        elif step.kind == TAKE:
            yield from (Arrow(ASKS, (call, step)) for hart, call in waiting.items() if hart != step.hart)
        elif step.kind == DONE and step.hart in waiting:
            yield Arrow(RETURNS, (waiting.pop(step.hart), step))
        elif step.hart in waiting and step.kind == EXEC:
            del waiting[step.hart]

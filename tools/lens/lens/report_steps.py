"""Which steps of a run a page shows: all of a short one, and of a long one those that matter."""
from __future__ import annotations

import re
from collections.abc import Iterable, Iterator

from .facts import Read, SequenceEnds, Waits, Wrote, Zeroed
from .output import DONE, PREEMPT, RUN, SIGNAL, TAKE
from .report_changes import Watched
from .timeline import Timeline
from .trace_text import Record
from .values import Values

MOST = 2_000
"""So many steps are shown at most."""
NAMED = re.compile(r'\bstep (\d+)')
"""How a sentence names a step."""
ROUND, LAST, NEAR = 20, 300, 3
"""So many steps are shown on either side of one that is named; at the end; and on either side of an event."""
EVENTS = (RUN, PREEMPT, TAKE, DONE, SIGNAL)
CUT = 'cut'


def shown_steps(values: Values, timeline: Timeline, sentences: list[str], watches: list[Watched]) -> list[int]:
    """The numbers of the steps that are shown, in rising order."""
    size = timeline.size
    if size <= MOST:
        return list(range(1, size + 1))
    chosen: set[int] = set()
    for number in by_weight(values, timeline, sentences, watches):
        if len(chosen) == MOST:
            break
        if 1 <= number <= size:
            chosen.add(number)
    return sorted(chosen)


def by_weight(
    values: Values, timeline: Timeline, sentences: list[str], watches: list[Watched]
) -> Iterator[int]:
    """Steps, those first that matter most: the last one, those that sentences name, the end of the run, what
    touches what is watched, sequences that were cut, events, and calls; of each kind the latest first."""
    size = timeline.size
    yield size
    yield from around(named_steps(sentences), ROUND)
    yield from range(size, size - LAST, -1)
    yield from around(touching(values, watches), NEAR)
    yield from cut_steps(values)
    kinds = values.history.output.steps
    yield from around((step.number for step in reversed(kinds) if step.kind in EVENTS), NEAR)
    yield from around((call.line for call in reversed(timeline.calls)), NEAR)
    yield from range(size, 0, -1)


def named_steps(sentences: Iterable[str]) -> Iterator[int]:
    """The steps that sentences name."""
    for sentence in sentences:
        yield from (int(found[1]) for found in NAMED.finditer(sentence))


def around(numbers: Iterable[int], context: int) -> Iterator[int]:
    """Each number, with those on either side of it."""
    for number in numbers:
        yield from range(number - context, number + context + 1)


def touching(values: Values, watches: list[Watched]) -> Iterator[int]:
    """The steps that touch what is watched, the latest first."""
    if watches:
        records = reversed(values.trace.records)
        yield from (record.step.number for record in records if is_touching(record, watches))


def is_touching(record: Record, watches: list[Watched]) -> bool:
    touches = [(fact.at, fact[1]) for fact in record.facts if isinstance(fact, (Read, Waits, Wrote, Zeroed))]
    return any(watch.range.has(*touch) for watch in watches for touch in touches)


def cut_steps(values: Values) -> Iterator[int]:
    """The steps of restartable sequences that were cut, the latest first."""
    for record in reversed(values.trace.records):
        for fact in record.of_kind(SequenceEnds):
            if fact.form == CUT:
                yield record.step.number
                yield from range(fact.last, fact.first - 1, -1)

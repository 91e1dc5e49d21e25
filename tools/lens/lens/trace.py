"""A run in the trace-event format, which Perfetto (ui.perfetto.dev) and chrome://tracing open.

One step is one microsecond of the trace. Every hart and every thread has a lane; on the harts' lanes the
functions stand inside the stretches, and inside of these the steps that are told one by one. A viewer hangs
an arrow on the innermost slice at its time, which begins in the text before it.
"""
from __future__ import annotations

import itertools
import json
from collections.abc import Iterator

from .arrows import HARTS_LANE, Event, arrow_events, on_hart
from .calls import name_of
from .history import History, Stretch
from .listing import deed, source
from .output import DRAIN, EXEC, PREEMPT, RUN, SIGNAL, Step
from .values import Values
from .watching import Access, Range, accesses

THREADS_LANE = 2
COMPLETE, META = 'X', 'M'
EVERYWHERE = Range(0, 1 << 64)


def trace_events(history: History, values: Values | None = None) -> Iterator[Event]:
    yield from names(history)
    yield from stretch_slices(history)
    yield from function_slices(history)
    yield from step_slices(history, values)
    yield from arrow_events(history, values)


def trace_text(history: History, values: Values | None = None) -> Iterator[str]:
    """The whole trace as JSON, an event a line; with what each step read and wrote, where that is known."""
    yield '{"traceEvents": [\n'
    yield ',\n'.join(map(json.dumps, trace_events(history, values)))
    yield f'\n], "displayTimeUnit": "ns", "otherData": {json.dumps(about(history))}}}\n'


def about(history: History) -> Event:
    """What the run is of."""
    output = history.output
    return {
        'run': output.name,
        'program': history.program.path,
        'end': output.end,
        'console': output.console.decode(errors='backslashreplace'),
        'unit': '1 step = 1 us',
    }


def names(history: History) -> Iterator[Event]:
    for lane, name in ((HARTS_LANE, 'harts'), (THREADS_LANE, 'threads')):
        yield {'ph': META, 'name': 'process_name', 'pid': lane, 'tid': 0, 'args': {'name': name}}
    for hart in history.output.harts:
        yield {
            'ph': META,
            'name': 'thread_name',
            'pid': HARTS_LANE,
            'tid': hart,
            'args': {'name': f'hart {hart}'},
        }
    for thread in history.output.threads:
        yield {
            'ph': META,
            'name': 'thread_name',
            'pid': THREADS_LANE,
            'tid': thread,
            'args': {'name': f'thread {thread}'},
        }


def stretch_slices(history: History) -> Iterator[Event]:
    for stretch in history.stretches:
        yield stretch_slice(stretch, HARTS_LANE, stretch.hart, f'thread {stretch.thread}')
        yield stretch_slice(stretch, THREADS_LANE, stretch.thread, f'hart {stretch.hart}')


def stretch_slice(stretch: Stretch, lane: int, row: int, name: str) -> Event:
    return {
        'ph': COMPLETE,
        'name': name,
        'cat': 'stretch',
        'pid': lane,
        'tid': row,
        'ts': stretch.first,
        'dur': stretch.last - stretch.first + 1,
        'args': {
            'thread': stretch.thread,
            'hart': stretch.hart,
            'first': stretch.first,
            'last': stretch.last,
        },
    }


def function_slices(history: History) -> Iterator[Event]:
    """The functions that a hart was in, each from its first instruction on end to its last."""
    executed: dict[int, list[Step | None]] = {hart: [] for hart in history.output.harts}
    for step in history.output.steps:
        if step.kind in (RUN, PREEMPT):
            executed[step.hart].append(None)
        elif step.kind == EXEC:
            executed[step.hart].append(step)
    for steps in executed.values():
        named = itertools.groupby(steps, lambda step: step and history.program.function(step.pc))
        for name, group in named:
            if name is not None:
                inside = [step for step in group if step]
                yield {
                    'ph': COMPLETE,
                    'name': name,
                    'cat': 'function',
                    **on_hart(inside[0]),
                    'dur': inside[-1].number - inside[0].number + 1,
                }


def step_slices(history: History, values: Values | None) -> Iterator[Event]:
    """A slice of one step for each event that isn't a plain instruction (calls, drains and what the kernel
    does), for each store that enters memory, and for all that read or write, where that is known."""
    told = accesses(values, EVERYWHERE) if values else ()
    by_step = {number: list(group) for number, group in itertools.groupby(told, lambda one: one.step.number)}
    chosen = {*by_step, *history.calls, *(store.number for store in history.drained.values())}
    for step in history.output.steps:
        if step.kind != EXEC or step.number in chosen:
            own, slice_ = by_step.get(step.number), step_slice(history, step)
            if own and values:
                tell_accesses(slice_, values, step, own)
            yield slice_


def step_slice(history: History, step: Step) -> Event:
    """The slice of a step, with its thread and where it stands: of a drain that is where its store does."""
    store, name = history.drained.get(step.number), deed(history, step)
    pc = store.pc if store else step.pc
    about = {'thread': step.thread, 'pc': f'{step.pc:#x}', 'at': history.program.where(pc)}
    about['source'] = source(history, pc)
    if store:
        about['store'] = store.number
    if step.number in history.sent:
        words = 'handler' if step.kind == SIGNAL else 'restarted at'
        about[words] = history.program.where(history.sent[step.number])
    is_call = step.number in history.calls
    name = f'call {name_of(history.calls[step.number])}' if is_call else name
    return {'ph': COMPLETE, 'name': name, 'cat': step.kind, **on_hart(step), 'dur': 1, 'args': about}


def tell_accesses(slice_: Event, values: Values, step: Step, own: list[Access]) -> None:
    """Adds what a step read and wrote. Of an instruction or a drain that is the slice's name too."""
    if values.is_own(step):
        slice_['args']['instruction'] = slice_['name']
        slice_['name'] = f'{DRAIN} {values.words(step)}' if step.kind == DRAIN else values.words(step)
    slice_['args']['accesses'] = [access_words(values, access) for access in own]


def access_words(values: Values, access: Access) -> Event:
    """An access: what it is, the variable or its member, the address, how many bytes, their value, and where
    that came from."""
    words = {
        'access': access.kind,
        'place': values.place(access.at, access.size),
        'address': f'{access.at:#x}',
        'size': access.size,
        'value': values.number(access.value, access.size),
    }
    return {**words, 'from': access.source} if access.source else words

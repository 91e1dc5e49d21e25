"""A small validator of the trace-event format, as far as `lens trace` uses it.

Events are records with a phase `ph`. `M` names a lane; `X` is a slice from `ts` on, of `dur`; `s`, `t` and `f`
are the start, the steps and the end of a flow, which a viewer draws as arrows from slice to slice.
"""
from __future__ import annotations

import collections
import json
from collections.abc import Iterator

LANE = {'pid': int, 'tid': int}
FIELDS = {
    'M': {'name': str, **LANE, 'args': dict},
    'X': {'name': str, 'cat': str, **LANE, 'ts': int, 'dur': int},
    's': {'name': str, 'cat': str, 'id': int, **LANE, 'ts': int},
    't': {'name': str, 'cat': str, 'id': int, **LANE, 'ts': int},
    'f': {'name': str, 'cat': str, 'id': int, **LANE, 'ts': int, 'bp': str},
}
FLOW = ('s', 't', 'f')


def lane(event: dict) -> tuple[int, int]:
    return event['pid'], event['tid']


def wrongs(text: str) -> list[str]:
    """What is wrong with a text as a trace; nothing where it is one."""
    trace = json.loads(text)
    events = trace['traceEvents']
    return [*wrong_fields(events), *wrong_lanes(events), *wrong_slices(events), *wrong_flows(events)]


def wrong_fields(events: list[dict]) -> Iterator[str]:
    for event in events:
        due = FIELDS.get(event.get('ph'))
        if due is None:
            yield f'no such phase: {event}'
        elif not all(type(event.get(name)) is kind for name, kind in due.items()):
            yield f'a field lacks, or has another type: {event}'


def wrong_lanes(events: list[dict]) -> Iterator[str]:
    """Each lane is named once, and nothing is on another."""
    named = collections.Counter(lane(event) for event in events if event['name'] == 'thread_name')
    yield from (f'lane {one} is named {often} times' for one, often in named.items() if often > 1)
    used = {lane(event) for event in events if event['ph'] != 'M'}
    yield from (f'lane {one} has no name' for one in sorted(used - named.keys()))


def slices_by_lane(events: list[dict]) -> dict[tuple[int, int], list[dict]]:
    slices = collections.defaultdict(list)
    for event in events:
        if event['ph'] == 'X':
            slices[lane(event)].append(event)
    return slices


def wrong_slices(events: list[dict]) -> Iterator[str]:
    """On a lane a slice lies in another, which stands before it in the text, or beside it."""
    for slices in slices_by_lane(events).values():
        ends: list[int] = []
        for event in sorted(slices, key=lambda one: one['ts']):
            start, end = event['ts'], event['ts'] + event['dur']
            while ends and ends[-1] <= start:
                ends.pop()
            if end <= start or ends and ends[-1] < end:
                yield f'it has no length, or goes past the slice round it: {event}'
            ends.append(end)


def wrong_flows(events: list[dict]) -> Iterator[str]:
    """A flow has one start, then steps, and one end, each later than the one before, one name, and each on a
    slice."""
    flows, slices = collections.defaultdict(list), slices_by_lane(events)
    for event in events:
        if event['ph'] in FLOW:
            flows[event['id']].append(event)
    for number, flow in flows.items():
        phases = ''.join(event['ph'] for event in flow)
        if phases != f's{"t" * (len(flow) - 2)}f':
            yield f'flow {number} has the phases {phases}'
        if len({(event['name'], event['cat']) for event in flow}) > 1:
            yield f'flow {number} has several names'
        if any(one['ts'] >= next_['ts'] for one, next_ in zip(flow, flow[1:])):
            yield f'flow {number} goes back in time'
        if flow[-1].get('bp') != 'e':
            yield f'the end of flow {number} isn\'t bound to the slice round it'
    starts = {at: {event['ts'] for event in found} for at, found in slices.items()}
    for event in events:
        if event['ph'] in FLOW and event['ts'] not in starts.get(lane(event), ()):
            yield f'no slice begins where an arrow begins or ends: {event}'

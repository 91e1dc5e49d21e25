"""What the threads of a run are at, as a debugger lists them."""
from __future__ import annotations

from collections.abc import Iterator

from .timeline import LEFT, RUNNING, SLEEPING, SequenceMade, Timeline


def threads_text(timeline: Timeline, place: int) -> str:
    """All threads of a run at a place, as gdb reads them ("Thread List Format" in its manual)."""
    return f'<?xml version="1.0"?><threads>{"".join(thread_rows(timeline, place))}</threads>'


def thread_rows(timeline: Timeline, place: int) -> Iterator[str]:
    for thread in sorted(timeline.threads):
        hart = timeline.hart(thread, place)
        core = '' if hart is None else f' core="{hart}"'
        words = thread_words(timeline, thread, place)
        yield f'<thread id="{thread:x}"{core} name="thread {thread}">{words}</thread>'


def thread_words(timeline: Timeline, number: int, place: int) -> str:
    """What a thread is at, in a few words."""
    thread = timeline.threads[number]
    if place < thread.since:
        return 'not created yet'
    state = thread.state(place)
    if state.name == SLEEPING:
        words = f'waits in futex at {state.word:#x}'
    elif state.name == RUNNING and state.hart is not None:
        words = running_words(timeline, number, state.hart, place)
    else:
        words = state.name
    return words + sequence_words(thread.sequence(place), place, state.name == RUNNING)


def running_words(timeline: Timeline, thread: int, hart: int, place: int) -> str:
    count = timeline.memory.buffers[hart].count(place)
    waiting = f', {count} store{"s" if count > 1 else ""} waiting' if count else ''
    barrier = ', in a barrier' if timeline.is_in_barrier(thread, place) else ''
    return f'on hart {hart}{waiting}{barrier}'


def sequence_words(sequence: SequenceMade | None, place: int, is_running: bool) -> str:
    """That a thread is inside a restartable sequence, or was when it left its hart."""
    if sequence is None or sequence.form == LEFT and place >= sequence.last:
        return ''
    if is_running:
        return ', in a sequence'
    return f', was interrupted in a sequence (abort handler {sequence.abort:#x})'

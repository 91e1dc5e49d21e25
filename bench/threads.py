#!/usr/bin/env python3
"""Steps per second with 64 live threads, against the same program with one.

    bench/threads.py [PROGRAM]

PROGRAM is crates/rseq_run/out/rseq_run where it isn't given. Each row is the best of 5 runs, as in bench/solo.py. The program
that is run is bench/threads.S, built for 1 and for 64 threads that compute for ever. `solo` lets one thread after the other run,
each for 16 rounds, up to the step that is given. `play` plays a script of so many lines over two harts, in which a thread has a
hart for 20 instructions, is preempted and runs again when all others have run. The last column is the nanoseconds for each step
more than the row above made.
"""
from __future__ import annotations

import collections
import itertools
import sys
import tempfile
from collections.abc import Iterator
from pathlib import Path

from measured import HERE, MOST_STEPS, Run, head, program_named, row

PLAIN, STORE, YIELD = 'plain', 'store', 'yield'
"""What a hart does at an instruction of bench/threads.S."""
ROUND = [PLAIN, PLAIN, STORE, *7 * [PLAIN], STORE, PLAIN, PLAIN]
TURN = [PLAIN, *16 * ROUND, PLAIN, YIELD, PLAIN]

HARTS = 2
SLICE = 20
LENGTHS = 100_000, 200_000, 1_000_000
Ready = tuple[int, Iterator[str], int]
"""A thread that is ready, what it does from now on, and how many instructions its next turn has."""


class Hart:
    """A hart, and the lines of its turns: it takes the first ready thread, and gives it back."""

    def __init__(self, number: int, ready: collections.deque[Ready]) -> None:
        self.number, self.ready = number, ready
        self.turn: Iterator[str] = iter(())

    def line(self) -> str | None:
        """Its next line; None where no thread is ready."""
        what = next(self.turn, None)
        if what is None and self.ready:
            self.turn = self.slice(*self.ready.popleft())
            what = next(self.turn)
        return None if what is None else f'{self.number} {what}\n'

    def slice(self, thread: int, code: Iterator[str], length: int) -> Iterator[str]:
        """The lines of a thread's turn, with which it is ready again."""
        yield f'run {thread}'
        stores, what = 0, PLAIN
        for what in itertools.islice(code, length):
            if what is YIELD:
                break
            yield 'exec'
            stores += what is STORE
        yield from stores * ['drain']
        self.ready.append((thread, code, SLICE))
        yield 'exec' if what is YIELD else 'preempt'


def script(threads: int, length: int) -> str:
    """A script of so many lines: thread 1 makes the others on hart 0, and then all take turns on both harts."""
    begins = [PLAIN] * (3 + 10 * (threads - 1) + 1)
    ready: collections.deque[Ready] = collections.deque([(1, itertools.chain(begins, itertools.cycle(TURN)), len(begins))])
    first, *others = [Hart(number, ready) for number in range(HARTS)]
    lines = [line for _ in range(len(begins) + 1) if (line := first.line())]
    for thread in range(2, threads + 1):
        ready.append((thread, itertools.chain([PLAIN], itertools.cycle(TURN)), SLICE))
    turns = itertools.cycle([first, *others])
    lines += itertools.islice(filter(None, (hart.line() for hart in turns)), length - len(lines))
    return ''.join(lines)


def main() -> None:
    program = program_named(sys.argv[1:])
    head()
    with tempfile.TemporaryDirectory() as room:
        path, lines = Path(room) / 'text', Path(room) / 'script'
        for threads in (1, 64):
            elf = HERE / f'threads{threads}.elf'
            before: Run | None = None
            for steps in ('1', *map(str, LENGTHS)):
                before = row(f'solo, {threads}', program, ['solo', elf, '--steps', steps], path, before)
            before = None
            for length in LENGTHS:
                lines.write_text(script(threads, length))
                before = row(f'play, {threads}', program, ['play', elf, lines, '--steps', MOST_STEPS], path, before)


if __name__ == '__main__':
    main()

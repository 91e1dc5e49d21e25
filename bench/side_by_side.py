#!/usr/bin/env python3
"""Two or more programs side by side: the same words run on each, one program after the other in each round.

    bench/side_by_side.py [--rounds N] [--instructions] PROGRAM PROGRAM [PROGRAM ..]

The words are those of bench/threads.py, `solo` and `play` with 1 and with 64 threads, up to STEPS steps;
`solo` of bench/long.elf, and `play`, `blocks` and `inspect` of its log lines; and `run` with 1, 4 and 8
harts, where "2 processors" means the first two of those that there are, and threads1 makes FEW steps. A row
has a program's least seconds on the clock and of processor time among N rounds (5 where it isn't given),
the median of those on the clock, the nanoseconds of that processor time for each step, the start included,
the page faults of the quickest round, and the MiB at the peak. With --instructions it also has the machine
instructions of a step, between FEW and MANY steps, counted by valgrind (`apt-get install valgrind`), which
don't depend on other work. The text is written to a file.
"""
from __future__ import annotations

import argparse
import os
import re
import statistics
import subprocess
import sys
import tempfile
import time
from collections.abc import Callable, Iterator, Sequence
from pathlib import Path

from measured import HERE, MOST_STEPS, Run, Word, parts_of, peak
from threads import script

STEPS, FEW, MANY = int(MOST_STEPS), 100_000, 200_000
OfSteps = Callable[[int], list[Word]]
"""The words of a run of so many steps."""


class Side:
    """One run: seconds on the clock, seconds of processor time, page faults."""

    def __init__(self, program: Path, words: Sequence[Word], path: Path) -> None:
        with open(path, 'wb') as text:
            begun = time.perf_counter()
            process = subprocess.Popen([program, *words], stdin=subprocess.DEVNULL, stdout=text)
            _, status, usage = os.wait4(process.pid, 0)
            self.clock = time.perf_counter() - begun
        process.returncode = os.waitstatus_to_exitcode(status)
        if process.returncode != 0:
            sys.exit(f'{" ".join(map(str, words))}: status {process.returncode}')
        self.processor, self.faults = usage.ru_utime + usage.ru_stime, usage.ru_minflt


def thread_runs(room: Path) -> Iterator[tuple[str, OfSteps]]:
    """Each run of one thread and of 64: its name, and its words for so many steps."""
    for threads in (1, 64):
        elf = HERE / f'threads{threads}.elf'
        yield f'solo, {threads}', solo_of(elf)
        for steps in (FEW, MANY, STEPS):
            (room / f'{threads}-{steps}').write_text(script(threads, steps))
        yield f'play, {threads}', on_script('play', elf, room, f'{threads}')


def solo_of(elf: Path) -> OfSteps:
    return lambda steps: ['solo', elf, '--steps', str(steps)]


def on_script(command: str, elf: Path, room: Path, name: str, *options: str) -> OfSteps:
    """A command on the script of a name with so many lines."""
    return lambda steps: [command, elf, room / f'{name}-{steps}', *options, '--steps', str(STEPS)]


def long_runs(room: Path, program: Path) -> Iterator[tuple[str, OfSteps]]:
    """The same of one thread that works for long, on the lines that `solo` prints."""
    elf, text = HERE / 'long.elf', room / 'text'
    yield 'solo, long', solo_of(elf)
    for steps in (FEW, MANY, STEPS):
        Run(program, ['solo', elf, '--steps', str(steps)], text)
        (room / f'long-{steps}').write_bytes(parts_of(text)[1])
    for command in ('play', 'blocks', 'inspect'):
        yield f'{command}, long', on_script(command, elf, room, 'long', '--harts', '1')


def worker_runs() -> Iterator[tuple[str, list[Word], int, int]]:
    """Each run by workers: its name, its program, its harts, its steps, and how many processors it has."""
    every = len(os.sched_getaffinity(0))
    for name, threads, harts, steps, processors in (
            ('run, 1 hart', 64, 1, STEPS, every), ('run, 4 harts', 64, 4, STEPS, every),
            ('8, 2 processors', 64, 8, STEPS, 2), ('8, one thread', 1, 8, FEW, every)):
        elf = HERE / f'threads{threads}.elf'
        words: list[Word] = ['run', elf, '--harts', str(harts), '--seed', '1', '--steps', str(steps)]
        yield name, words, steps, processors


def counted(program: Path, words: Sequence[Word]) -> int:
    """The machine instructions of one run."""
    command: list[Word] = ['valgrind', '--tool=callgrind', '--callgrind-out-file=/dev/null', program, *words]
    ran = subprocess.run(command, stdout=subprocess.DEVNULL, stderr=subprocess.PIPE, text=True, check=True)
    found = re.search(r'Collected : (\d+)', ran.stderr)
    return int(found[1]) if found else sys.exit(f'valgrind counted nothing: {ran.stderr}')


def main() -> None:
    parser = argparse.ArgumentParser()
    parser.add_argument('--rounds', type=int, default=5)
    parser.add_argument('--instructions', action='store_true')
    parser.add_argument('programs', nargs='+', type=Path)
    asked = parser.parse_args()
    programs = [program.resolve() for program in asked.programs]
    columns = [('program', 7), ('clock s', 9), ('median', 9), ('cpu s', 9), ('ns a step', 9), ('faults', 7)]
    columns.append(('MiB', 7))
    print(f'{"run":<16}', *(f'{name:>{width}}' for name, width in columns), 'instructions')
    with tempfile.TemporaryDirectory() as place:
        room = Path(place)
        for name, of_steps in [*thread_runs(room), *long_runs(room, programs[0])]:
            rows(asked, programs, room, name, of_steps(STEPS), STEPS, of_steps)
        every = sorted(os.sched_getaffinity(0))
        for name, words, steps, processors in worker_runs():
            os.sched_setaffinity(0, every[:processors])
            rows(asked, programs, room, name, words, steps, None)
            os.sched_setaffinity(0, every)


def rows(
    asked: argparse.Namespace, programs: list[Path], room: Path, name: str, words: list[Word], steps: int, counts: OfSteps | None
) -> None:
    """Prints the rows of one run."""
    rounds = [[Side(program, words, room / 'text') for program in programs] for _ in range(asked.rounds)]
    for number, program in enumerate(programs):
        made = [one[number] for one in rounds]
        clock, median = min(one.clock for one in made), statistics.median(one.clock for one in made)
        processor, faults = min(one.processor for one in made), min(made, key=lambda one: one.clock).faults
        line = f'{name:<16} {number + 1:>7} {clock:9.3f} {median:9.3f} {processor:9.3f}'
        line += f' {processor * 1e9 / steps:9.1f} {faults:7}'
        line += f' {peak(program, words, room / "text"):>7}'
        if asked.instructions and counts:
            line += f' {(counted(program, counts(MANY)) - counted(program, counts(FEW))) / (MANY - FEW):12.1f}'
        print(line, flush=True)


if __name__ == '__main__':
    main()

#!/usr/bin/env python3
"""`blocks` on logs of a million lines, beside `play` of the same log: seconds, and the peak of memory.

    bench/blocks.py [PROGRAM]

PROGRAM is crates/rseq_run/out/rseq_run where it isn't given. Each row is the best of 5 runs, and the peak is that of one more run
under GNU time (`apt-get install time`), where it is there. A log is that of one `run` on 4 harts with seed 1: of bench/long.elf,
which has no restartable sequence, and of bench/sequences.elf (examples/percpu_counter for 100,000 rounds), in which threads run
little else. The last column is the nanoseconds for each line more than the command's row above has.
"""
from __future__ import annotations

import os
import subprocess
import sys
import tempfile
import time
from collections.abc import Sequence
from pathlib import Path

from measured import HERE, MOST_STEPS, RUNS, Word, parts_of, peak, program_named

PROGRAMS = ('long', 'sequences')
LENGTHS = ('10000', '100000', MOST_STEPS)


def seconds(program: Path, words: Sequence[Word], path: Path) -> float:
    """The clock's seconds of the best run."""
    def once() -> float:
        with open(path, 'wb') as text:
            begun = time.perf_counter()
            subprocess.run([program, *words], stdin=subprocess.DEVNULL, stdout=text, check=True)
            return time.perf_counter() - begun
    return min(once() for _ in range(RUNS))


def log_of(program: Path, elf: Path, steps: str, room: Path) -> tuple[Path, int]:
    """A script with the lines of a run's log, and how many there are."""
    text, script = room / 'text', room / 'script'
    with open(text, 'wb') as file:
        words: list[Word] = ['run', elf, '--harts', '4', '--seed', '1', '--steps', steps]
        subprocess.run([program, *words], stdin=subprocess.DEVNULL, stdout=file, check=True)
    lines, log = parts_of(text)
    script.write_bytes(log)
    return script, lines


def row(
    program: Path, command: str, elf: Path, script: Path, lines: int, room: Path, before: tuple[int, float] | None
) -> tuple[int, float]:
    """Measures and prints one line; gives its lines and seconds."""
    words: list[Word] = [command, elf, script, '--harts', '4', '--steps', MOST_STEPS]
    clock, most = seconds(program, words, room / 'out'), peak(program, words, room / 'out')
    added = f'{(clock - before[1]) * 1e9 / (lines - before[0]):9.0f}' if before else ' ' * 9
    print(f'{elf.stem:<12} {command:<8} {lines:>9,} {clock:9.3f} {most:>9} {added}', flush=True)
    return lines, clock


def main() -> None:
    program = program_named(sys.argv[1:])
    print(f'load before: {" ".join(f"{load:.1f}" for load in os.getloadavg())}')
    print(f'{"program":<12} {"command":<8} {"lines":>9} {"clock s":>9} {"peak MiB":>9} {"ns added":>9}')
    with tempfile.TemporaryDirectory() as folder:
        room = Path(folder)
        for name in PROGRAMS:
            before: dict[str, tuple[int, float]] = {}
            for length in LENGTHS:
                script, lines = log_of(program, HERE / f'{name}.elf', length, room)
                for command in ('play', 'blocks'):
                    before[command] = row(program, command, HERE / f'{name}.elf', script, lines, room, before.get(command))


if __name__ == '__main__':
    main()

#!/usr/bin/env python3
"""`gather` on logs of a million lines, beside `blocks` of the same log: seconds, and the peak of memory.

    bench/gather.py [PROGRAM]

PROGRAM is crates/rseq_run/out/rseq_run where it isn't given. Each row is the best of 5 runs, and the peak is that of one more run under
GNU time (`apt-get install time`), where it is there. The logs are of 8 harts. That of bench/sequences.elf (examples/percpu_counter for
100,000 rounds), in which threads run little else than short sequences, is one of `run` with seed 1. In that of bench/long_sequences.elf
eight threads, one on each hart, make an instruction each in turn, so that eight sequences of 100,005 entries lie across one another.
"""
from __future__ import annotations

import os
import subprocess
import sys
import tempfile
import time
from collections.abc import Sequence
from pathlib import Path

from measured import HERE, MOST_STEPS, RUNS, Word, parts_of, peak, program_named

HARTS = 8
BEFORE_ALL_RUN = 74
"""How many instructions the first thread of bench/long_sequences.elf makes until the other seven are there."""


def seconds(program: Path, words: Sequence[Word], path: Path) -> float:
    """The clock's seconds of the best run."""
    def once() -> float:
        with open(path, 'wb') as text:
            begun = time.perf_counter()
            subprocess.run([program, *words], stdin=subprocess.DEVNULL, stdout=text, check=True)
            return time.perf_counter() - begun
    return min(once() for _ in range(RUNS))


def of_run(program: Path, elf: Path, room: Path) -> tuple[Path, int]:
    """A script with the lines of a run's log, and how many there are."""
    text, script = room / 'text', room / 'script'
    with open(text, 'wb') as file:
        words: list[Word] = ['run', elf, '--harts', str(HARTS), '--seed', '1', '--steps', MOST_STEPS]
        subprocess.run([program, *words], stdin=subprocess.DEVNULL, stdout=file, check=True)
    lines, log = parts_of(text)
    script.write_bytes(log)
    return script, lines


def in_turn(program: Path, elf: Path, room: Path) -> tuple[Path, int]:
    """A script by which the first thread starts the others, and then each hart makes an instruction in turn; how many lines it has."""
    lines = ['0 run 1'] + ['0 exec'] * BEFORE_ALL_RUN + [f'{hart} run {hart + 1}' for hart in range(1, HARTS)]
    while len(lines) + HARTS <= int(MOST_STEPS):
        lines += [f'{hart} exec' for hart in range(HARTS)]
    script = room / 'script'
    script.write_text('\n'.join(lines) + '\n')
    return script, len(lines)


def row(program: Path, command: str, elf: Path, script: Path, lines: int, room: Path, beside: float | None) -> float:
    """Measures and prints one line; gives its seconds."""
    words: list[Word] = [command, elf, script, '--harts', str(HARTS), '--steps', MOST_STEPS]
    clock, most = seconds(program, words, room / 'out'), peak(program, words, room / 'out')
    times = f'{clock / beside:6.2f}' if beside else ' ' * 6
    print(f'{elf.stem:<15} {command:<8} {lines:>9,} {clock:9.3f} {most:>9} {times}', flush=True)
    return clock


def main() -> None:
    program = program_named(sys.argv[1:])
    print(f'load before: {" ".join(f"{load:.1f}" for load in os.getloadavg())}')
    print(f'{"program":<15} {"command":<8} {"lines":>9} {"clock s":>9} {"peak MiB":>9} {"times":>6}')
    with tempfile.TemporaryDirectory() as folder:
        room = Path(folder)
        for name, made in (('sequences', of_run), ('long_sequences', in_turn)):
            elf = HERE / f'{name}.elf'
            script, lines = made(program, elf, room)
            beside = row(program, 'blocks', elf, script, lines, room, None)
            row(program, 'gather', elf, script, lines, room, beside)


if __name__ == '__main__':
    main()

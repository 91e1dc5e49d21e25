#!/usr/bin/env python3
"""Steps a second of `run`, by the number of harts and of processors, against `solo` on the same program.

    bench/run.py [PROGRAM]

PROGRAM is crates/rseq_run/out/rseq_run where it isn't given. The program that is run is bench/threads64.elf, whose 64 threads all
compute; each row makes a million steps, and is the best of 5 runs with seed 1, its text written to nowhere. A step is a line of the
log. The time in which the program starts is taken off: it is that of the same command with one step. A row on two processors is
limited to the first two by the system, as by `taskset -c 0,1`.
"""
from __future__ import annotations

import os
import subprocess
import sys
import time
from pathlib import Path

HERE = Path(__file__).resolve().parent
BUILT = HERE.parent / 'crates' / 'rseq_run' / 'out' / 'rseq_run'
THREADS = HERE / 'threads64.elf'
STEPS = 1_000_000
RUNS = 5
ALL = sorted(os.sched_getaffinity(0))
ROWS = [(['solo'], ALL), *((['run', '--harts', str(harts), '--seed', '1'], ALL) for harts in (1, 2, 4, 8)),
        *((['run', '--harts', str(harts), '--seed', '1'], ALL[:2]) for harts in (1, 2, 4, 8))]


def timed(program: Path, words: list[str], steps: int, processors: list[int]) -> tuple[float, float]:
    """Seconds on the clock and of processor time of one run."""
    begun = time.perf_counter()
    command: list[str | Path] = [program, words[0], THREADS, *words[1:], '--steps', str(steps)]
    process = subprocess.Popen(command, stdin=subprocess.DEVNULL, stdout=subprocess.DEVNULL,
                               preexec_fn=lambda: os.sched_setaffinity(0, processors))
    _, status, usage = os.wait4(process.pid, 0)
    process.returncode = os.waitstatus_to_exitcode(status)
    if process.returncode != 0:
        sys.exit(f'{" ".join(map(str, command))}: status {process.returncode}')
    return time.perf_counter() - begun, usage.ru_utime + usage.ru_stime


def row(program: Path, words: list[str], processors: list[int]) -> None:
    """Measures and prints one line."""
    start = min(timed(program, words, 1, processors) for _ in range(RUNS))
    run = min(timed(program, words, STEPS, processors) for _ in range(RUNS))
    clock, processor = run[0] - start[0], run[1] - start[1]
    harts = words[2] if len(words) > 2 else '1'
    print(f'{words[0]:>7} {harts:>6} {len(processors):>10} {clock:9.3f} {processor:9.3f} {STEPS / clock:>12,.0f} '
          f'{clock * 1e9 / STEPS:>9,.0f}', flush=True)


def main() -> None:
    program = Path(sys.argv[1]).resolve() if len(sys.argv) > 1 else BUILT
    if not program.is_file():
        sys.exit(f'{program} is no file: build it with `rt ci` first')
    print(f'load before: {" ".join(f"{load:.1f}" for load in os.getloadavg())}')
    print(f'{"command":>7} {"harts":>6} {"processors":>10} {"clock s":>9} {"cpu s":>9} {"steps/s":>12} {"ns a step":>9}')
    for words, processors in ROWS:
        row(program, words, processors)


if __name__ == '__main__':
    main()

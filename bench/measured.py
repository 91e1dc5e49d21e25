"""Runs of the built program, measured: seconds, steps and the peak of memory. A step is a line of the log."""
from __future__ import annotations

import os
import subprocess
import sys
import time
from collections.abc import Sequence
from pathlib import Path

HERE = Path(__file__).resolve().parent
BUILT = HERE.parent / 'crates' / 'rseq_run' / 'out' / 'rseq_run'
GNU_TIME = '/usr/bin/time'
MOST_STEPS = '1000000'
RUNS = 5
Word = str | Path

sys.path.append(str(HERE.parent / 'tools' / 'runs'))

from runs import outline, read_bytes  # noqa: E402 (found by the line above)


class Run:
    """One run: seconds on the clock, seconds of processor time, steps, bytes of text."""

    def __init__(self, program: Path, words: Sequence[Word], path: Path) -> None:
        with open(path, 'wb') as text:
            begun = time.perf_counter()
            process = subprocess.Popen([program, *words], stdin=subprocess.DEVNULL, stdout=text)
            _, status, usage = os.wait4(process.pid, 0)
            self.clock = time.perf_counter() - begun
        process.returncode = os.waitstatus_to_exitcode(status)
        if process.returncode != 0:
            sys.exit(f'{" ".join(map(str, words))}: status {process.returncode}')
        self.processor = usage.ru_utime + usage.ru_stime
        self.bytes = path.stat().st_size
        self.steps, _ = parts_of(path)


def parts_of(path: Path) -> tuple[int, bytes]:
    """How many lines the log of an output has, and these lines, which are a script."""
    log = outline(*read_bytes(str(path))).log
    return log.count(b'\n'), log


def best(program: Path, words: Sequence[Word], path: Path) -> Run:
    return min((Run(program, words, path) for _ in range(RUNS)), key=lambda run: run.clock)


def peak(program: Path, words: Sequence[Word], path: Path) -> str:
    """The peak of memory in MiB, as text. (What os.wait4 says is never below the memory of this script.)"""
    if not Path(GNU_TIME).is_file():
        return '-'
    with open(path, 'wb') as text:
        timed: list[Word] = [GNU_TIME, '-f', '%M', program, *words]
        ran = subprocess.run(timed, stdin=subprocess.DEVNULL, stdout=text, stderr=subprocess.PIPE, check=True)
    return f'{int(ran.stderr) / 1024:.1f}'


def head() -> None:
    """Prints the names of the columns."""
    print(f'{"program":<16} {"steps":>9} {"bytes":>11} {"clock s":>9} {"cpu s":>9} {"peak MiB":>9} {"steps/s":>12} {"ns added":>9}')


def row(name: str, program: Path, words: Sequence[Word], path: Path, before: Run | None = None) -> Run:
    """Measures and prints one line; its last column is the clock's nanoseconds for each step more than `before` made."""
    run, most = best(program, words, path), peak(program, words, path)
    added = f'{(run.clock - before.clock) * 1e9 / (run.steps - before.steps):9.0f}' if before else ' ' * 9
    print(f'{name:<16} {run.steps:>9,} {run.bytes:>11,} {run.clock:9.3f} {run.processor:9.3f} {most:>9} '
          f'{run.steps / run.clock:>12,.0f} {added}')
    return run


def program_named(words: Sequence[str]) -> Path:
    """The program that the command line names, or the one that is built here."""
    program = Path(words[0]).resolve() if words else BUILT
    if not program.is_file():
        sys.exit(f'{program} is no file: build it with `rt ci` first')
    return program

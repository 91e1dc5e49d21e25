"""One job of a sweep: makes the runs of some seeds, and prints their outcomes as one line, or why there are none.

    worker.py FIRST COUNT SECONDS PROGRAM COMMAND ELF [OPTION ..]

By `draw` one process makes them all (`explore`), and the first run of each outcome is drawn again for its text. By `run` each is a
process.
"""
from __future__ import annotations

import subprocess
import sys
from dataclasses import dataclass, replace
from pathlib import Path

sys.path += [str(Path(__file__).resolve().parents[2] / name) for name in ('runs', 'lens', 'sweep')]

from lens.faults import LensFault  # noqa: E402 (found by the line above)
from lens.machine import said  # noqa: E402
from runs.explored import read_explored  # noqa: E402
from sweep.records import Record, Tally, fault_line, note, read_run  # noqa: E402

FAULT_STATUS = 2


@dataclass(frozen=True)
class Caller:
    """The program, its file and options, and how long a call may take."""

    program: str
    elf: str
    options: list[str]
    seconds: float

    def call(self, command: str, what: str, *words: str) -> bytes:
        """What a command prints; a fault that says what was made where there is no output."""
        line = [self.program, command, self.elf, *words, *self.options]
        try:
            ran = subprocess.run(line, stdin=subprocess.DEVNULL, capture_output=True, timeout=self.seconds)
        except OSError as error:
            raise LensFault(f'{self.program}: {error.strerror}') from None
        except subprocess.TimeoutExpired:
            raise LensFault(f'{what} had not ended after {self.seconds:g} seconds') from None
        if ran.returncode:
            answer = ran.stdout[:60].decode('ascii', 'replace').strip()
            raise LensFault(f'{what} gave status {ran.returncode}, "{answer}"{said(ran.stderr)}')
        return ran.stdout

    def run(self, command: str, seed: int) -> bytes:
        """The output text of the run of a seed."""
        return self.call(command, f'the run of seed {seed}', f'--seed={seed}')


def run_seeds(caller: Caller, command: str, first: int, count: int) -> Record:
    """The outcomes of some seeds, each run by a call of its own."""
    tally: Tally = {}
    for seed in range(first, first + count):
        note(tally, *read_run(seed, caller.run(command, seed)))
    return Record(first, tally)


def explore_seeds(caller: Caller, first: int, count: int) -> Record:
    """The same by one call of `explore`, where it tells all outcomes apart."""
    what = f'the runs of the seeds {first} to {first + count - 1}'
    words = (f'--seed={first}', f'--runs={count}', '--jobs=1')
    explored = read_explored(what, caller.call('explore', what, *words))
    if explored.others:
        return run_seeds(caller, 'draw', first, count)
    tally: Tally = {}
    for found in explored.found:
        outcome, met = read_run(found.seed, caller.run('draw', found.seed))
        note(tally, outcome, replace(met, runs=found.runs))
    return Record(first, tally)


def main() -> int:
    first, count, seconds, program, command, elf, *options = sys.argv[1:]
    caller = Caller(program, elf, options, float(seconds))
    try:
        if command == 'draw':
            record = explore_seeds(caller, int(first), int(count))
        else:
            record = run_seeds(caller, command, int(first), int(count))
    except LensFault as fault:
        sys.stdout.write(fault_line(str(fault)))
        return FAULT_STATUS
    sys.stdout.write(record.line(has_texts=True))
    return 0


if __name__ == '__main__':
    sys.exit(main())

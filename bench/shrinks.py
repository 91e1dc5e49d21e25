#!/usr/bin/env python3
"""Shortens failing runs of examples by `lens shrink`, and prints a table for docs/reference/PERFORMANCE.md.

    bench/shrinks.py [--program PROGRAM] [NAME ..]

Each run is the first one that fails of the seeds 1 to 2,000, on 2 harts. The seconds are those of processor time, with the program's; what
the run has and what is left of it is said as `lens shrink` says it. Names are those of examples.
"""
from __future__ import annotations

import argparse
import re
import resource
import subprocess
import sys
from pathlib import Path

from measured import BUILT, HERE

LENS = HERE.parent / 'tools' / 'bin' / 'lens'
EXAMPLES = HERE.parent / 'examples'
NAMES = ('peterson', 'dekker_plain', 'rcu_plain', 'hazard_plain', 'ring_wake_lost', 'percpu_counter_plain')
FAILED = re.compile(r'^runs \d+ seed (\d+) .*\nend (?!exit 0$)', re.MULTILINE)


def failing_seed(program: Path, elf: Path) -> str | None:
    """The first seed of an outcome that isn't `exit 0`."""
    call = [str(program), 'explore', str(elf), '--runs', '2000', '--by', 'end']
    found = FAILED.search(subprocess.run(call, capture_output=True, text=True, check=True).stdout)
    return found[1] if found else None


def row(program: Path, name: str) -> str:
    """The row of an example."""
    elf = EXAMPLES / name / f'{name}.elf'
    seed = failing_seed(program, elf)
    if seed is None:
        return f'| `{name}` | - | | | |'
    before = resource.getrusage(resource.RUSAGE_CHILDREN)
    ran = subprocess.run([LENS, 'shrink', '--seed', seed, elf, '--program', program], capture_output=True, text=True, check=True)
    after = resource.getrusage(resource.RUSAGE_CHILDREN)
    seconds = after.ru_utime + after.ru_stime - before.ru_utime - before.ru_stime
    first, last = ran.stderr.splitlines()[-2:]
    return f'| `{name}` | {seed} | {first.removeprefix("from ")} | {last.removeprefix("to ")} | {seconds:.1f} |'


def main() -> None:
    parser = argparse.ArgumentParser(description='Shortens failing runs of examples.')
    parser.add_argument('--program', type=Path, default=BUILT)
    parser.add_argument('names', nargs='*', metavar='NAME')
    arguments = parser.parse_args()
    print('| example | seed | the run | what is left | s |\n|---|---|---|---|---|')
    for name in arguments.names or NAMES:
        print(row(arguments.program, name))
        sys.stdout.flush()


if __name__ == '__main__':
    main()

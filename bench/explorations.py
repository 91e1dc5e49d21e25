#!/usr/bin/env python3
"""Runs a second of `explore`, on one processor and on several, and its peak of memory; and how soon a second outcome is there.

    bench/explorations.py [--jobs N] [--rounds N] [--found] [--memory] [--program PROGRAM]

Each row is the least of so many rounds (5): the seconds on the clock, and the runs a second of it; and of that round the runs a second of
processor time, and how many processors were busy. Where those are as many as there are jobs, nothing is lost by waiting; where the runs a
second of processor time are fewer than with one job, the processors themselves are slower together. The start is within. Without --jobs it
is measured with `--jobs 1`. With --found it makes the runs of each broken example until a second outcome is there (of `litmus`, which has
three right ones, until a fourth is), with all policies in turn. With --memory each program also makes as many runs, and ten times as
many, under GNU time.
"""
from __future__ import annotations

import argparse
import os
import subprocess
import sys
import time
from pathlib import Path

from draws import BROKEN
from measured import BUILT, GNU_TIME, HERE

TOP = HERE.parent
PROGRAMS = {
    'peterson': (TOP / 'examples' / 'peterson' / 'peterson.elf', 20_000),
    'hello': (TOP / 'examples' / 'hello' / 'hello.elf', 100_000),
    'three instructions': (TOP / 'crates' / 'rseq_run' / 'data' / 'exit7.elf', 200_000),
}


def command(words: argparse.Namespace, file: Path, *options: str) -> list[str]:
    return [words.program, 'explore', str(file), f'--jobs={words.jobs}', *options]


def seconds(words: argparse.Namespace, file: Path, *options: str) -> tuple[float, float]:
    """The least seconds on the clock of some rounds, and the seconds of processor time of that round."""
    rounds = []
    for _ in range(words.rounds):
        before, begun = os.times(), time.perf_counter()
        subprocess.run(command(words, file, *options), stdout=subprocess.DEVNULL, check=True)
        took, after = time.perf_counter() - begun, os.times()
        used = after.children_user - before.children_user + after.children_system - before.children_system
        rounds.append((took, used))
    return min(rounds)


def peak(words: argparse.Namespace, file: Path, runs: int) -> float:
    """The peak of memory in MiB."""
    timed = [GNU_TIME, '-f', '%M', *command(words, file, f'--runs={runs}')]
    ran = subprocess.run(timed, stdout=subprocess.DEVNULL, stderr=subprocess.PIPE, check=True)
    return int(ran.stderr) / 1024


def speeds(words: argparse.Namespace) -> None:
    print('| program | runs | s | runs a second | of processor time | processors busy |'
          + (' peak, MiB | of ten times as many |' if words.memory else ''))
    print('|---|---|---|---|---|---|' + ('---|---|' if words.memory else ''))
    for name, (file, runs) in PROGRAMS.items():
        took, used = seconds(words, file, f'--runs={runs}')
        cells = [name, f'{runs:,}', f'{took:.3f}', f'{runs / took:,.0f}', f'{runs / max(used, 0.001):,.0f}', f'{used / took:.2f}']
        if words.memory:
            cells += [f'{peak(words, file, many):.1f}' for many in (runs, 10 * runs)]
        print('| ' + ' | '.join(cells) + ' |', flush=True)


def finds(words: argparse.Namespace) -> None:
    print('| example | s until its bug is there |')
    print('|---|---|')
    for name in BROKEN:
        file = TOP / 'examples' / name / f'{name}.elf'
        enough = '--until=4' if name == 'litmus' else '--until=2'
        print(f'| `{name}` | {seconds(words, file, enough, "--steps=20000")[0]:.3f} |', flush=True)


def main() -> None:
    parser = argparse.ArgumentParser(description=(__doc__ or '').splitlines()[0])
    parser.add_argument('--jobs', type=int, default=1)
    parser.add_argument('--rounds', type=int, default=5)
    parser.add_argument('--found', action='store_true')
    parser.add_argument('--memory', action='store_true')
    parser.add_argument('--program', default=str(BUILT))
    words = parser.parse_args()
    if not Path(words.program).is_file():
        sys.exit(f'{words.program} is no file: build it with `rt ci` first')
    if words.found:
        finds(words)
    else:
        speeds(words)


if __name__ == '__main__':
    main()

#!/usr/bin/env python3
"""Searches for all outcomes of small examples, and prints a table for docs/reference/PERFORMANCE.md.

    bench/outcomes.py [--program PROGRAM] [--places N] [--all] [--spin] [NAME ..]

The examples are those of examples/all_outcomes.tsv for which a search ends within half a minute; with --all the others too, which are cut
short at 2,000,000 places, or at the N that --places names. Each is searched once, under GNU time (`apt-get install time`): the seconds are those of
processor time, and the peak is that of resident memory. With --spin the states of the model bench/peterson.pml are counted too, by Spin (`apt-get install spin`), with its
reduction of orders and without. The model's steps are loads, stores and drains, and no instructions.
"""
from __future__ import annotations

import argparse
import re
import subprocess
import sys
import tempfile
from pathlib import Path

from measured import BUILT, GNU_TIME, HERE

sys.path += [str(HERE.parent / 'tools' / name) for name in ('runs', 'lens', 'sweep', 'litmus')]

from litmus.rows import YES, Row, rows  # noqa: E402 (found by the line above)
from litmus.searching import Search, read_search  # noqa: E402

PLACES = 2_000_000


def searched(program: Path, row: Row, places: int) -> tuple[Search, float, float]:
    """The search of an example, its seconds of processor time, and its peak of memory in MiB."""
    words: list[str | Path] = [program, 'outcomes', row.elf, f'--harts={row.harts}', f'--places={places}', '--scripts=no']
    with tempfile.NamedTemporaryFile('r') as measures:
        ran = subprocess.run([GNU_TIME, '-o', measures.name, '-f', '%U %S %M', *words], stdout=subprocess.PIPE, check=True)
        user, system, kibibytes = measures.read().split()
    return read_search(row.example, ran.stdout), float(user) + float(system), int(kibibytes) / 1024


def line(program: Path, row: Row, places: int) -> str:
    """A row of the table."""
    search, seconds, mebibytes = searched(program, row, places)
    speed = f'{search.places / max(seconds, 0.01):,.0f}'
    numbers = [f'{search.places:,}', f'{search.deepest:,}', f'{seconds:.2f}', f'{mebibytes:,.0f}', speed]
    return ' | '.join([f'| `{row.example}`', str(row.harts), str(len(search.ended)), *numbers, search.closing]) + ' |'


def states_by_spin(*options: str) -> tuple[int, int]:
    """How many states Spin has of the model of peterson, and how often its assertion fails."""
    with tempfile.TemporaryDirectory() as room:
        for command in (['spin', '-a', str(HERE / 'peterson.pml')], ['gcc', '-O2', *options, '-o', 'pan', 'pan.c']):
            subprocess.run(command, cwd=room, check=True, stdout=subprocess.DEVNULL)
        told = subprocess.run(['./pan', '-c0'], cwd=room, check=True, capture_output=True, text=True).stdout
    return counted(r'(\d+) states, stored', told), counted(r'errors: (\d+)', told)


def counted(words: str, told: str) -> int:
    """The number in what Spin says."""
    found = re.search(words, told)
    return int(found[1]) if found else sys.exit(f'Spin says nothing of {words!r}: {told}')


def tell_spin() -> None:
    reduced, full = states_by_spin(), states_by_spin('-DNOREDUCE')
    print(f'\nSpin, bench/peterson.pml: {full[0]:,} states, and {reduced[0]:,} with its reduction; ', end='')
    print('an addition is lost' if full[1] and reduced[1] else 'no addition is lost')


def main() -> None:
    parser = argparse.ArgumentParser(description=__doc__, formatter_class=argparse.RawDescriptionHelpFormatter)
    parser.add_argument('--program', default=BUILT, type=Path)
    parser.add_argument('--places', default=PLACES, type=int, metavar='N')
    parser.add_argument('--all', action='store_true')
    parser.add_argument('--spin', action='store_true')
    parser.add_argument('names', nargs='*', metavar='NAME')
    words = parser.parse_args()
    chosen = [row for row in rows() if (row.example in words.names if words.names else row.closes == YES or words.all)]
    print('| example | harts | outcomes | places | deepest | s | peak, MiB | places a second | ends |')
    print('|---|---|---|---|---|---|---|---|---|')
    for row in chosen:
        print(line(words.program, row, words.places), flush=True)
    if words.spin:
        tell_spin()


if __name__ == '__main__':
    main()

#!/usr/bin/env python3
"""Searches random programs with the reduction of `outcomes` and without it, and prints a table for docs/reference/PERFORMANCE.md.

    bench/reductions.py [--program PROGRAM] [--tests N] [--first SEED] [--places N] [--harts N,..] [KIND ..]

The programs are those of tools/reductions, of 500 seeds unless N says otherwise. Each is searched on 1 and on 2 harts, with 20,000 places at
most. There is a row for each kind, or for those that are named: how many programs, how many pairs of searches found the same outcomes, how many didn't, and how many were
unfinished; the places of the complete pairs together, with the reduction and without; and the seconds of processor time of all searches. Ends
with 1 where two complete searches differ.
"""
from __future__ import annotations

import argparse
import os
import sys
from pathlib import Path

from measured import BUILT, HERE

sys.path[:0] = [str(HERE.parent / 'tools' / name) for name in ('runs', 'lens', 'sweep', 'litmus', 'reductions')]

from litmus.cli import harts_named  # noqa: E402 (found by the line above)
from litmus.searching import Searcher  # noqa: E402
from reductions.comparing import EQUAL, FULL, REDUCED, UNEQUAL, UNFINISHED, Comparison  # noqa: E402
from reductions.generator import KINDS, random_program  # noqa: E402

TESTS, PLACES = 500, 20_000


def seconds_of_children() -> float:
    """The processor time of all calls so far."""
    times = os.times()
    return times.children_user + times.children_system


def compared(words: argparse.Namespace, seeds: list[int]) -> tuple[Comparison, float]:
    """The comparison of the programs of some seeds, and the seconds of it."""
    begun = seconds_of_children()
    comparison = Comparison(Searcher(words.program, words.places), lambda line: print(line, file=sys.stderr))
    comparison.compare(map(random_program, seeds), words.harts)
    return comparison, seconds_of_children() - begun


def line(name: str, seeds: list[int], comparison: Comparison, seconds: float) -> str:
    """A row of the table."""
    counts = [str(comparison.counts[verdict]) for verdict in (EQUAL, UNEQUAL, UNFINISHED)]
    places = [f'{comparison.places[which]:,}' for which in (REDUCED, FULL)]
    return ' | '.join([f'| {name}', str(len(seeds)), *counts, *places, f'{seconds:.1f}']) + ' |'


def main() -> int:
    parser = argparse.ArgumentParser(description=__doc__, formatter_class=argparse.RawDescriptionHelpFormatter)
    parser.add_argument('--program', default=BUILT, type=Path)
    parser.add_argument('--tests', default=TESTS, type=int, metavar='N')
    parser.add_argument('--first', default=0, type=int, metavar='SEED')
    parser.add_argument('--places', default=PLACES, type=int, metavar='N')
    parser.add_argument('--harts', default='1,2', type=harts_named, metavar='N,..')
    parser.add_argument('kinds', nargs='*', metavar='KIND')
    words = parser.parse_args()
    print('| kind | programs | equal | unequal | unfinished | places | places without | s |')
    print('|---|---|---|---|---|---|---|---|')
    unequal = 0
    for kind in words.kinds or dict.fromkeys(KINDS):
        seeds = [it for it in range(words.first, words.first + words.tests) if KINDS[it % len(KINDS)] == kind]
        comparison, seconds = compared(words, seeds)
        unequal += comparison.counts[UNEQUAL]
        print(line(kind.replace('_', ' '), seeds, comparison, seconds), flush=True)
    return 1 if unequal else 0


if __name__ == '__main__':
    sys.exit(main())

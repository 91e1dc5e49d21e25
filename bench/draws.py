#!/usr/bin/env python3
"""Counts in how many drawn runs each example shows its bug, and prints a table for docs/tutorial/FINDING_A_BUG.md.

    bench/draws.py [--runs N] [--harts N] [--steps N] [--jobs N] [--program PROGRAM] [NAME ..]

Of each example `explore` makes N runs (400) by each of the five policies, those of the seeds 0 to N - 1, and 5 N runs by all in turn, on 2
harts with 20,000 steps; and `run` makes 5 N runs, each in a process of its own. A run shows the bug where it doesn't end with `exit 0`. A
right program has no such run. Without names: all examples whose folder has a broken twin, and these twins.

What `run` shows hangs on the machine: with other work beside it its workers seldom run at once. `chrt -r 1` lets them go before it.
"""
from __future__ import annotations

import argparse
import subprocess
import sys
import time
from pathlib import Path

TOP = Path(__file__).resolve().parent.parent
sys.path.append(str(TOP / 'tools' / 'runs'))

from runs import Explored, Found, Outline, outline, read_explored  # noqa: E402 (found by the line above)

BROKEN = ('litmus peterson dekker_plain rcu_plain percpu_counter_plain percpu_list_next_outside percpu_list_commit_not_last hazard_plain '
          'deque_plain ring_wake_lost handler_add_plain').split()
RIGHT = 'peterson_fenced dekker rcu percpu_counter percpu_list hazard deque ring_wake handler_add'.split()
POLICIES = ('one', 'stretch', 'short', 'stall', 'spread')
BOTH_ZERO = b'main read 0\nother read 0\n'


def shows_bug(name: str, found: Found | Outline) -> bool:
    """Whether an outcome shows what the example is about: of `litmus`, which always exits, that both loads gave 0."""
    return found.console == BOTH_ZERO if name == 'litmus' else found.end != 'exit 0'


def explored(words: argparse.Namespace, name: str, policy: str, runs: int) -> Explored:
    """The outcomes of so many runs of an example, from seed 0 on."""
    file = TOP / 'examples' / name / f'{name}.elf'
    limits = [f'--harts={words.harts}', f'--steps={words.steps}', *([f'--jobs={words.jobs}'] if words.jobs else [])]
    command = [words.program, 'explore', str(file), '--seed=0', f'--runs={runs}', f'--policy={policy}', *limits]
    return read_explored(name, subprocess.run(command, capture_output=True, check=True).stdout)


def count(words: argparse.Namespace, name: str, policy: str, runs: int) -> tuple[int, int, int]:
    """How many of the runs show the bug, how many met the limit, and how many came to outcomes that aren't told apart."""
    outcomes = explored(words, name, policy, runs)
    limits = sum(found.runs for found in outcomes.found if found.end == 'limit')
    return sum(found.runs for found in outcomes.found if shows_bug(name, found)), limits, outcomes.others


def count_by_workers(words: argparse.Namespace, name: str, runs: int) -> int:
    """In how many runs of workers the bug shows."""
    file = TOP / 'examples' / name / f'{name}.elf'
    command = [words.program, 'run', str(file), f'--harts={words.harts}', f'--steps={words.steps}']
    texts = (subprocess.run([*command, f'--seed={seed}'], capture_output=True, check=True).stdout for seed in range(runs))
    return sum(shows_bug(name, outline(name, text)) for text in texts)


def row(words: argparse.Namespace, name: str) -> list[object]:
    """The cells of an example."""
    start = time.time()
    counts = [count(words, name, policy, words.runs) for policy in POLICIES]
    together = 5 * words.runs
    counts.append(count(words, name, 'all', together))
    found = [one[0] for one in counts]
    often = f'{together / found[-1]:.1f}' if found[-1] else 'none'
    limits, others = (sum(one[at] for one in counts) for at in (1, 2))
    by_workers = count_by_workers(words, name, together)
    return [f'`{name}`', *found, often, by_workers, limits, others, f'{time.time() - start:.1f}']


def main() -> int:
    parser = argparse.ArgumentParser(description=(__doc__ or '').splitlines()[0])
    parser.add_argument('names', nargs='*', metavar='NAME')
    parser.add_argument('--runs', type=int, default=400)
    parser.add_argument('--harts', type=int, default=2)
    parser.add_argument('--steps', type=int, default=20000)
    parser.add_argument('--jobs', type=int)
    parser.add_argument('--program', default=str(TOP / 'crates/rseq_run/out/rseq_run'))
    words = parser.parse_args()
    print('| ' + ' | '.join(['example', *POLICIES, 'all', 'runs a find by all', 'run', 'met the limit', 'others', 's']) + ' |')
    print('|---' * (len(POLICIES) + 7) + '|')
    for name in words.names or BROKEN + RIGHT:
        print('| ' + ' | '.join(map(str, row(words, name))) + ' |', flush=True)
    return 0


if __name__ == '__main__':
    sys.exit(main())

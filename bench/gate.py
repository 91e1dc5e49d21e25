#!/usr/bin/env python3
"""Times the gate: runs `rt ci` at the top of this repository, and prints what each crate took of the processors.

    bench/gate.py [WORD..]

The words are those of `rt ci`; with none they are `--anew` where the kit keeps what passed, so that nothing is taken from earlier runs.
What `rt ci` prints goes to standard error. On standard output comes a table for docs/reference/PERFORMANCE.md: for each crate, in the order of crates.txt, how many processor
seconds its proof took, how many wrong bodies it has and what their tries took (with the check that they all begin with), and how many
tests it has and what proving them took; below it all together, the longest chain of crates of which each stands on the one before it,
by what their proofs took of one processor, with what they took on the clock; the clock, and what the system counted of all processes
of the run.

The seconds by crate are those of the provers, which are looked at five times a second: what one does after its last look isn't seen, so
their sum is a little below what the system counted. `taskset -c 0,1 bench/gate.py` times the gate on two processors.
"""
from __future__ import annotations

import os
import re
import resource
import subprocess
import sys
import threading
import time
from collections.abc import Iterator, Sequence
from pathlib import Path

TOP = Path(__file__).resolve().parent.parent
TICK = os.sysconf('SC_CLK_TCK')
NO_CHAIN: tuple[float, list[str]] = (0.0, [])
PROOF, EDITS, TESTS = 'proofs', 'wrong bodies', 'tests'
Seen = dict[tuple[str, str], tuple[str, str, float, float, float]]
"""Of each prover, by its number and its start: its crate, its work, its processor seconds, and when it was seen first and last."""


def kind_of(words: list[str], folder: str) -> str:
    """What a prover is at work on: a crate's proof, its tests, or a wrong body (in a copy of the crate's folder)."""
    if '/rt-edit-' in folder:
        return EDITS
    return TESTS if '--test' in words else PROOF


def below(process: Path) -> Iterator[Path]:
    """The processes that one started, and those that these started."""
    try:
        numbers = [it for task in process.glob('task/*/children') for it in task.read_text().split()]
    except OSError:
        return  # it ended meanwhile
    for number in numbers:
        yield Path('/proc', number)
        yield from below(Path('/proc', number))


def look(process: Path) -> tuple[str, str, str, float] | None:
    """Of a prover: when it started, its crate, what it does there, and its processor seconds so far; of another process None."""
    words = (process / 'cmdline').read_bytes().decode(errors='replace').split('\0')
    if os.path.basename(words[0]) != 'rattle' or '--crate-name' not in words:
        return None
    counts = (process / 'stat').read_text().rpartition(')')[2].split()
    crate = words[words.index('--crate-name') + 1]
    return counts[19], crate, kind_of(words, os.readlink(process / 'cwd')), (int(counts[11]) + int(counts[12])) / TICK


def watch(gate: int, ended: threading.Event, seen: Seen) -> None:
    """Notes of each prover of the gate what it was seen to have taken last, and when it was seen first and last, until the run has ended."""
    while not ended.wait(0.2):
        for process in below(Path('/proc', str(gate))):
            try:
                found = look(process)
                if found:
                    now = time.time()
                    first = seen[process.name, found[0]][3] if (process.name, found[0]) in seen else now
                    seen[process.name, found[0]] = (*found[1:], first, now)
            except (OSError, ValueError, IndexError):
                pass  # it ended meanwhile


def crates() -> list[str]:
    """The crates of crates.txt, in order."""
    lines = (TOP / 'crates.txt').read_text().splitlines()
    return [line.split(':')[0].split()[0] for line in lines if line.split('#')[0].strip()]


def count_of_tests(crate: str) -> int:
    files = (TOP / 'crates' / crate / 'src').rglob('*.rt')
    return sum(len(re.findall(r'^\s*#\[test\]', file.read_text(), re.M)) for file in files)


def table(seen: Seen) -> Iterator[str]:
    """The lines of the table, the last one for all crates together."""
    taken: dict[tuple[str, str], float] = {}
    for crate, kind, seconds, _, _ in seen.values():
        taken[crate, kind] = taken.get((crate, kind), 0) + seconds
    yield f'| crate | {PROOF}, s | {EDITS} | s | {TESTS} | s |'
    yield '|---|---|---|---|---|---|'
    rows = []
    for crate in crates():
        edits = len(list((TOP / 'crates' / crate / 'must-fail').glob('*.edit')))
        rows.append((taken.get((crate, PROOF), 0), edits, taken.get((crate, EDITS), 0), count_of_tests(crate), taken.get((crate, TESTS), 0)))
        yield line_of(f'`{crate}`', rows[-1])
    yield line_of('together', [sum(column) for column in zip(*rows)])


def libraries_of() -> dict[str, list[str]]:
    """Of each crate of crates.txt those that it stands on."""
    lines = [line.split('#')[0].split(':') for line in (TOP / 'crates.txt').read_text().splitlines() if line.split('#')[0].strip()]
    return {names.split()[0]: below.split() for names, below in lines}


def longest_chain(taken: dict[str, float], libraries: dict[str, list[str]]) -> list[str]:
    """The crates of which each stands on the one before it and which together took most, the lowest first."""
    chains: dict[str, tuple[float, list[str]]] = {}

    def chain(crate: str) -> tuple[float, list[str]]:
        if crate not in chains:
            below_it = [chain(it) for it in libraries[crate] if it in libraries]
            longest = max(below_it) if below_it else NO_CHAIN
            chains[crate] = longest[0] + taken.get(crate, 0.0), [*longest[1], crate]
        return chains[crate]

    return max([NO_CHAIN, *(chain(it) for it in libraries)])[1]


def told_chain(seen: Seen, libraries: dict[str, list[str]]) -> str:
    """The longest chain of proofs: what each took of one processor, and all together on the clock."""
    proofs = [it for it in seen.values() if it[1] == PROOF]
    taken: dict[str, float] = {}
    for crate, _, seconds, _, _ in proofs:
        taken[crate] = taken.get(crate, 0.0) + seconds
    chain = longest_chain(taken, libraries)
    times = [time for it in proofs if it[0] in chain for time in it[3:]]
    clock = max(times, default=0.0) - min(times, default=0.0)
    crates_told = ', '.join(f'`{it}` {taken.get(it, 0.0):.0f}' for it in chain)
    return (f'The longest chain: {sum(taken.get(it, 0.0) for it in chain) / 60:.1f} minutes of one processor, {clock / 60:.1f} on the clock '
            f'(seconds of each, the lowest first): {crates_told}')


def line_of(name: str, row: Sequence[float]) -> str:
    return f'| {name} | ' + ' | '.join(f'{value:.0f}' for value in row) + ' |'


def from_nothing() -> list[str]:
    """The words by which `rt ci` takes nothing from earlier runs: none where the kit keeps nothing."""
    told = subprocess.run(['rt', 'help'], capture_output=True, text=True)
    return ['--anew'] if '--anew' in told.stdout + told.stderr else []


def main() -> int:
    words, ended = sys.argv[1:] or from_nothing(), threading.Event()
    seen: Seen = {}
    start = time.time()
    gate = subprocess.Popen(['rt', 'ci', *words], cwd=TOP, stdout=sys.stderr, start_new_session=True)
    watcher = threading.Thread(target=watch, args=(gate.pid, ended, seen))
    watcher.start()
    try:
        status = gate.wait()
    finally:
        gate.terminate()
        ended.set()
        watcher.join()
    clock = time.time() - start
    print('\n'.join(table(seen)))
    print(f'\n{told_chain(seen, libraries_of())}')
    used = resource.getrusage(resource.RUSAGE_CHILDREN)
    kit = subprocess.run(['rt', 'version'], capture_output=True, text=True).stdout.strip()
    print(f'\n`{" ".join(["rt", "ci", *words])}` on {len(os.sched_getaffinity(0))} processors, {kit}, {time.strftime("%d %B %Y")}: '
          f'{clock / 60:.0f} minutes on the clock, {used.ru_utime + used.ru_stime:.0f} processor seconds, status {status}')
    return status


if __name__ == '__main__':
    sys.exit(main())

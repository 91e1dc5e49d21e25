"""Compares the outcomes that `rseq_run` finds of a test with all that there are."""
from __future__ import annotations

import subprocess
import tempfile
from collections.abc import Callable, Iterator
from dataclasses import dataclass
from pathlib import Path

from lens.faults import LensFault
from sweep.explored import read_explored

from .building import build
from .enumeration import Outcome
from .generator import random_litmus
from .instructions import Litmus, described
from .listing import assembler
from .showing import Shown, all_shown, told

EXPLORED_STEPS = 8000
"""More than any run of a test has that goes on fairly from a quarter of them on."""
TOLD_APART = 64
"""`explore` tells so many outcomes apart."""


@dataclass(frozen=True)
class Difference:
    """What was found of a test on so many harts and can't be, and what was not found."""

    litmus: Litmus
    harts: int
    extra: list[Shown]
    missing: list[Outcome]

    def words(self) -> Iterator[str]:
        for found in self.extra:
            yield f'found, and it can\'t be: end {found.end}, console {found.console.hex(" ") or "empty"}'
        for outcome in self.missing:
            yield f'not found: {told(outcome)}'


def difference(litmus: Litmus, harts: int, found: set[Shown]) -> Difference:
    """Compares what was found with all that there is."""
    due = all_shown(litmus, harts)
    extra, missing = sorted(found - set(due)), sorted(due[it] for it in set(due) - found)
    return Difference(litmus, harts, extra, missing)


def answered(words: list[str]) -> bytes:
    """The text of a call; a fault where its status isn't 0."""
    ran = subprocess.run(words, stdin=subprocess.DEVNULL, capture_output=True)
    if ran.returncode:
        said = ran.stderr.decode(errors='replace').strip()
        raise LensFault(f'{" ".join(words)}: status {ran.returncode}, {said}')
    return ran.stdout


class Explorer:
    """Finds outcomes by drawn runs: some of them, or all."""

    def __init__(self, program: str, runs: int):
        self.program = program
        self.runs = runs

    def found(self, elf: Path, harts: int) -> set[Shown]:
        limits = [f'--harts={harts}', f'--steps={EXPLORED_STEPS}', '--jobs=1']
        text = answered([self.program, 'explore', str(elf), f'--runs={self.runs}', *limits])
        return {Shown(found.console, found.end) for found in read_explored('explore', text).found}


def each_built(seeds: range) -> Iterator[tuple[int, Litmus, Path]]:
    """The tests of some seeds, each with its program, which is there until the next one is asked for."""
    with tempfile.TemporaryDirectory() as folder:
        elf = Path(folder) / 'litmus.elf'
        for seed in seeds:
            litmus = random_litmus(seed)
            yield seed, litmus, build(assembler(litmus), elf)


def explore_all(explorer: Explorer, seeds: range, say: Callable[[str], None]) -> int:
    """Explores the tests of some seeds on each number of harts up to their threads, and says what was found:
    how many explorations found an outcome that can't be."""
    whole, parts, wrong = 0, 0, 0
    for seed, litmus, elf in each_built(seeds):
        for harts in range(1, len(litmus.threads) + 1):
            found = difference(litmus, harts, explorer.found(elf, harts))
            whole, parts = whole + (not found.missing), parts + bool(found.missing)
            if found.extra:
                wrong += 1
                say(f'seed {seed}, harts {harts}: {described(litmus)}')
                for line in found.words():
                    say(f'    {line}')
    say(f'explorations that found all outcomes {whole}, some {parts}; with an outcome that can\'t be {wrong}')
    return wrong

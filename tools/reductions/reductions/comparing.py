"""Compares what `rseq_run outcomes` finds with its reduction and without it."""
from __future__ import annotations

import tempfile
from collections import Counter
from collections.abc import Callable, Iterable, Iterator, Sequence
from dataclasses import dataclass
from math import inf
from pathlib import Path
from time import monotonic

from litmus.building import build
from litmus.searching import Search, Searcher
from litmus.showing import Shown

from .program import Program, assembler

REDUCTION = 'local-steps'
EQUAL, UNEQUAL, UNFINISHED, LEFT_OUT = 'equal', 'unequal', 'unfinished', 'left out'
REDUCED, FULL = 'reduced', 'full'


@dataclass(frozen=True)
class Pair:
    """The search with the reduction, and the one without it, which isn't made where the first one is
    unfinished."""

    reduced: Search
    full: Search | None

    @property
    def are_complete(self) -> bool:
        return self.reduced.is_complete and self.full is not None and self.full.is_complete

    @property
    def verdict(self) -> str:
        if not self.are_complete:
            return UNFINISHED
        return UNEQUAL if any(self.words()) else EQUAL

    def words(self) -> Iterator[str]:
        """In what two complete searches differ, one line each."""
        if self.full is not None and self.are_complete:
            reduced, full = self.reduced, self.full
            for word, more, fewer in (('with', reduced, full), ('without', full, reduced)):
                for shown in sorted(more.shown - fewer.shown):
                    yield f'only {word} {REDUCTION}: {told(shown)}'
            if self.full.places < self.reduced.places:
                yield f'fewer places without {REDUCTION}: {self.full.places}, with it {self.reduced.places}'
            if bool(full.hopeless) != bool(reduced.hopeless):
                yield f'hopeless without {REDUCTION}: {full.hopeless}, with it {reduced.hopeless}'
            if full.endless != reduced.endless:
                words = {True: 'yes', False: 'no', None: 'unknown'}
                yield f'endless without {REDUCTION}: {words[full.endless]}, with it {words[reduced.endless]}'


def told(shown: Shown) -> str:
    return f'end {shown.end}, console {shown.console.hex(" ") or "empty"}'


class Comparison:
    """Compares searches of some programs, and counts."""

    def __init__(self, searcher: Searcher, say: Callable[[str], None], seconds: float = inf):
        self.searcher = searcher
        self.say = say
        self.last = monotonic() + seconds
        self.counts: Counter[str] = Counter()
        self.places: Counter[str] = Counter()

    def pair(self, elf: Path, harts: int) -> Pair:
        reduced = self.searcher.search(elf, harts)
        full = self.searcher.search(elf, harts, without=REDUCTION) if reduced.is_complete else None
        return Pair(reduced, full)

    def compare(self, programs: Iterable[Program], harts: Sequence[int]) -> int:
        """The programs, each on each of these numbers of harts: how many pairs of searches were unequal.
        After the seconds no further program is searched."""
        with tempfile.TemporaryDirectory() as folder:
            for program in programs:
                if monotonic() >= self.last:
                    self.counts[LEFT_OUT] += 1
                    continue
                elf = build(assembler(program), Path(folder) / 'program.elf')
                for number in harts:
                    self.count(f'{program.name}, harts {number}', self.pair(elf, number))
        self.say(self.summary())
        return self.counts[UNEQUAL]

    def count(self, name: str, pair: Pair) -> None:
        """Counts a pair of searches, and says in what it differs."""
        self.counts[pair.verdict] += 1
        if pair.full is not None and pair.are_complete:
            self.places[REDUCED] += pair.reduced.places
            self.places[FULL] += pair.full.places
        for line in [name, *(f'    {line}' for line in pair.words())] if pair.verdict == UNEQUAL else []:
            self.say(line)

    def summary(self) -> str:
        """How many pairs there were of each verdict, how many programs were left out, and how many places the
        pairs that are complete have together."""
        counts = ', '.join(f'{name} {self.counts[name]}' for name in (EQUAL, UNEQUAL, UNFINISHED))
        places = f'places {self.places[REDUCED]} of {self.places[FULL]}'
        return f'{counts}; programs {LEFT_OUT} {self.counts[LEFT_OUT]}; {places}'

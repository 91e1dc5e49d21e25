"""What `rseq_run outcomes` prints, read; and compared with all outcomes that there are."""
from __future__ import annotations

import re
import subprocess
import tempfile
from collections import Counter
from collections.abc import Callable, Sequence
from dataclasses import dataclass
from math import inf
from pathlib import Path
from time import monotonic

from lens.output import Reader

from .comparing import answered, difference, each_built
from .instructions import described
from .showing import Shown

COMPLETE = 'complete'
CLOSINGS = (COMPLETE, 'unfinished places', 'unfinished deep', 'unfinished memory')
PROMPT, ANY = 'prompt', 'any'
LIMITED = re.compile(r'complete preemptions \d+')
"""The last line where runs with more preemptions were left out."""
EQUAL, UNEQUAL, UNFINISHED, LEFT_OUT = 'equal', 'unequal', 'unfinished', 'seeds left out'


@dataclass(frozen=True)
class Ended:
    """An outcome: what it shows, and the script of a run that comes to it, where one is printed."""

    shown: Shown
    script: bytes | None


@dataclass(frozen=True)
class Search:
    """The outcomes that were found; how many places were visited; how many lines the longest way to one of
    them has; the last line, which says whether there may be other outcomes; from how many of the places no
    end can be reached, which is told at `complete` alone, with the script that leads to the nearest; and of which
    runs it speaks, by when the signals come that a thread causes itself."""

    ended: list[Ended]
    places: int
    deepest: int
    closing: str
    hopeless: int | None = None
    nearest: bytes | None = None
    signals: str = PROMPT
    endless: bool | None = None

    @property
    def is_complete(self) -> bool:
        return self.closing == COMPLETE

    @property
    def shown(self) -> set[Shown]:
        return {ended.shown for ended in self.ended}


def read_ended(reader: Reader, number: int) -> Ended:
    """The next outcome, which has this number."""
    if reader.number('outcome') != number:
        raise reader.fault(f'outcome {number} is due')
    line = reader.line('an end')
    if not line.startswith('end '):
        raise reader.fault(f'a line "end REASON" is due, and {line[:40]!r} came')
    console = reader.console()
    return Ended(Shown(console, line.removeprefix('end ')), read_script(reader))


def read_script(reader: Reader) -> bytes | None:
    """The script that comes next; None where none does."""
    if not reader.rest.startswith(b'script '):
        return None
    lines = (reader.line('a line of a script') for _ in range(reader.number('script')))
    return b''.join(line.encode() + b'\n' for line in lines)


def read_endless(reader: Reader) -> bool | None:
    """Whether some run executes instructions without end; None where it isn't told."""
    if not reader.rest.startswith(b'endless '):
        return None
    word = reader.line('a line "endless"').removeprefix('endless ')
    if word not in ('yes', 'no'):
        raise reader.fault(f'"endless {word[:40]}" is neither yes nor no')
    return word == 'yes'


def read_hopeless(reader: Reader) -> tuple[int | None, bytes | None]:
    """How many places are hopeless, and the script that leads to the nearest; None where it isn't told."""
    if not reader.rest.startswith(b'hopeless '):
        return None, None
    number = reader.number('hopeless')
    return number, read_script(reader) if number else None


def read_signals(reader: Reader) -> str:
    """Of which runs the search speaks: `prompt` or `any`."""
    line = reader.line('a line "signals prompt" or "signals any"')
    if line not in (f'signals {PROMPT}', f'signals {ANY}'):
        raise reader.fault(f'a line "signals prompt" or "signals any" is due, and {line[:40]!r} came')
    return line.removeprefix('signals ')


def is_closing(line: str) -> bool:
    return line in CLOSINGS or LIMITED.fullmatch(line) is not None


def read_search(name: str, text: bytes) -> Search:
    """The text of a search; a fault that names it where it is none, or finds the same outcome twice."""
    reader = Reader(name, text)
    ended = [read_ended(reader, number) for number in range(1, reader.number('outcomes') + 1)]
    places, deepest = reader.number('places'), reader.number('deepest')
    endless = read_endless(reader)
    hopeless, nearest = read_hopeless(reader)
    signals, closing = read_signals(reader), reader.line('the last line')
    told = {endless is not None, hopeless is not None}
    if not is_closing(closing) or told != {closing == COMPLETE} or reader.rest:
        raise reader.fault(f'{closing[:40]!r} and {len(reader.rest)} bytes are no end of a search')
    search = Search(ended, places, deepest, closing, hopeless, nearest, signals, endless)
    if len(search.shown) != len(ended):
        raise reader.fault('two outcomes are the same')
    return search


class Searcher:
    """Finds all outcomes of programs, as long as they have few places."""

    def __init__(self, program: str, places: int):
        self.program = program
        self.places = places

    def search(
        self,
        elf: Path,
        harts: int,
        has_scripts: bool = False,
        without: str | None = None,
        preemptions: int | None = None,
        signals: str = PROMPT,
    ) -> Search:
        """The search of a program, without a reduction where one is named, and of runs with so many preemptions
        at most where a number is given."""
        scripts = 'yes' if has_scripts else 'no'
        words = [f'--harts={harts}', f'--places={self.places}', f'--scripts={scripts}', f'--signals={signals}']
        words += [f'--without={without}'] if without else []
        words += [] if preemptions is None else [f'--preemptions={preemptions}']
        return read_search(elf.name, answered([self.program, 'outcomes', str(elf), *words]))

    def played(self, elf: Path, harts: int, ended: Ended) -> str | None:
        """What is wrong with a script: nothing where it plays to what it is said to."""
        if ended.script is None:
            return 'it isn\'t there'
        with tempfile.NamedTemporaryFile(suffix='.script') as file:
            file.write(ended.script)
            file.flush()
            words = [self.program, 'play', str(elf), file.name, f'--harts={harts}', '--steps=1000000']
            ran = subprocess.run(words, stdin=subprocess.DEVNULL, capture_output=True)
        if ran.returncode:
            return f'status {ran.returncode}: {ran.stderr.decode(errors="replace").strip()}'
        return wrong_in(ran.stdout, ended)


def wrong_in(text: bytes, ended: Ended) -> str | None:
    """In what the text of a run differs from the outcome that it is to have."""
    reader = Reader('play', text)
    console, log, end = reader.console(), reader.log(), reader.end()
    made = log.count(b'\n')
    if made != (ended.script or b'').count(b'\n'):
        return f'{made} events were made of its lines'
    if Shown(console, end) == ended.shown:
        return None
    return f'it ended with {end}, and {console!r} on the console'


class Comparison:
    """Compares the tests of some seeds, and counts."""

    def __init__(self, searcher: Searcher, say: Callable[[str], None], seconds: float = inf):
        self.searcher = searcher
        self.say = say
        self.last = monotonic() + seconds
        self.counts: Counter[str] = Counter()

    def compare(self, seeds: range, harts: Sequence[int]) -> int:
        """The tests of some seeds on each of these numbers of harts that they have threads for: how many
        searches were unequal."""
        for seed, litmus, elf in each_built(seeds):
            if monotonic() >= self.last:
                self.counts[LEFT_OUT] = seeds.stop - seed
                break
            for number in (it for it in harts if it <= len(litmus.threads)):
                search = self.searcher.search(elf, number)
                compared = difference(litmus, number, search.shown)
                lines = [*compared.words()] if search.is_complete or compared.extra else []
                self.count(f'seed {seed}, harts {number}: {described(litmus)}', search, lines)
        self.say(', '.join(f'{name} {self.counts[name]}' for name in (EQUAL, UNEQUAL, UNFINISHED, LEFT_OUT)))
        return self.counts[UNEQUAL]

    def count(self, name: str, search: Search, lines: list[str]) -> None:
        """Counts a search, and says in what it differs."""
        self.counts[UNEQUAL if lines else EQUAL if search.is_complete else UNFINISHED] += 1
        for line in [name, *(f'    {line}' for line in lines)] if lines else []:
            self.say(line)

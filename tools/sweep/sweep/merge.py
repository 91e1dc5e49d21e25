"""The command `sweep merge`: adds up what many explorations and sweeps left, as those of the jobs of an array on a cluster."""
from __future__ import annotations

import argparse
import json
import sys
from collections.abc import Iterator
from dataclasses import dataclass, field
from pathlib import Path

from lens.command_line import FAULT_STATUS, Parser
from lens.faults import LensFault
from lens.output import shown_console
from runs.explored import OUTCOMES, SEEDS, Explored, read_explored

from .records import RUNS, Folder, Met, Outcome, Rank, Tally, note

UNEXPECTED_STATUS = 1
NO_MATTER = (RUNS, 'first seed', 'seeds a job')
"""In which sweeps that are added up may differ."""


@dataclass(frozen=True)
class Part:
    """What a file or a sweep's folder has: from which seed on it has how many runs, and their outcomes; how many of them
    came to none that is told, and whether consoles aren't told."""

    name: str
    first: int
    runs: int
    tally: Tally
    others: int = 0
    is_by_end: bool = False


@dataclass
class Merged:
    """All parts together, and what lacks of them."""

    parts: list[Part] = field(default_factory=list)
    lacking: list[str] = field(default_factory=list)

    @property
    def runs(self) -> int:
        return sum(part.runs for part in self.parts)

    @property
    def others(self) -> int:
        return sum(part.others for part in self.parts)

    def tally(self) -> Tally:
        tally: Tally = {}
        for part in self.parts:
            for outcome, met in part.tally.items():
                note(tally, outcome, Met(met.runs, met.rank))
        return tally


def make_merge_parser() -> argparse.ArgumentParser:
    parser = Parser(
        prog='sweep merge',
        description='Adds up explorations and sweeps of other seeds each: FOLDER holds texts of explore, or is the folder '
        'of a sweep, or holds such folders. Ends with 1 where a run ended otherwise than --expect says, and with 2 where '
        'something lacks.',
    )
    parser.add_argument('folders', metavar='FOLDER', nargs='+')
    parser.add_argument('--expect', metavar='END', help="how each run is to end, as 'exit 0'")
    return parser


def merge(words: list[str]) -> int:
    """Prints the table of all parts, and says what lacks; the status."""
    arguments = make_merge_parser().parse_args(words)
    merged = Merged()
    asked: dict[str, object] = {}
    for folder in arguments.folders:
        read_folder(Path(folder), merged, asked)
    if not merged.parts:
        raise LensFault(f'{" ".join(arguments.folders)}: there is no exploration and no sweep')
    check_seeds(merged.parts)
    tally = merged.tally()
    print(''.join(f'{line}\n' for line in table(merged, tally)), end='')
    for lack in merged.lacking:
        print(f'sweep: {lack}', file=sys.stderr)
    if merged.lacking:
        return FAULT_STATUS
    is_unexpected = merged.others or any(outcome.end != arguments.expect for outcome in tally)
    return UNEXPECTED_STATUS if arguments.expect is not None and is_unexpected else 0


def read_folder(path: Path, merged: Merged, asked: dict[str, object]) -> None:
    """The sweep that a folder is, or what is in it: texts of `explore`, and folders. Other files are passed over; an empty
    one is what a job left that didn't end."""
    try:
        if (path / 'sweep.json').exists():
            read_sweep(path, merged, asked)
            return
        for inner in sorted(path.iterdir()):
            if inner.is_dir():
                read_folder(inner, merged, asked)
            else:
                read_file(inner, merged)
    except OSError as error:
        raise LensFault(f'{error.filename or path}: {error.strerror}') from None


def read_file(path: Path, merged: Merged) -> None:
    text = path.read_bytes()
    if not text:
        merged.lacking.append(f'{path} is empty: its job had not ended')
    elif text.startswith(OUTCOMES):
        merged.parts.append(part_of(read_explored(str(path), text)))


def part_of(explored: Explored) -> Part:
    """What an exploration found."""
    tally: Tally = {}
    for one in explored.found:
        note(tally, Outcome(one.end, one.console), Met(one.runs, Rank(one.steps, one.seed)))
    first = explored.found[0].seed if explored.found else 0
    is_by_end = any(one.is_by_end for one in explored.found)
    return Part(explored.name, first, explored.runs, tally, explored.others, is_by_end)


def read_sweep(path: Path, merged: Merged, asked: dict[str, object]) -> None:
    """The records of a sweep. It has to be of the same program, file and limits as those before it."""
    try:
        own = json.loads((path / 'sweep.json').read_text())
        wanted, first = own[RUNS], own['first seed']
    except (ValueError, KeyError, TypeError):
        raise LensFault(f'{path / "sweep.json"}: it is changed') from None
    if own.get('command') != 'draw':
        raise LensFault(f'{path}: it is a sweep by `run`, whose seeds make no run again')
    differing = sorted(key for key in own if key not in NO_MATTER and asked.get(key, own[key]) != own[key])
    if differing:
        raise LensFault(f'{path}: it differs from the sweeps before in {", ".join(differing)}')
    asked.update(own)
    records = Folder(path).records()
    for record in records.values():
        merged.parts.append(Part(str(path), record.first, record.runs, record.tally))
    kept = sum(record.runs for record in records.values())
    if kept < wanted:
        merged.lacking.append(f'{path} has {kept} of the {wanted} runs from seed {first} on: its sweep goes on')


def check_seeds(parts: list[Part]) -> None:
    """A fault where two parts have a run of the same seed, which would count twice, or where some tell consoles and others
    don't."""
    parts.sort(key=lambda part: part.first)
    for one, other in zip(parts, [*parts[1:], parts[0]]):
        end = one.first + one.runs
        wrapped = end - SEEDS if other is parts[0] else end
        if other is not one and other.first < wrapped:
            raise LensFault(f'{one.name} and {other.name} both have the run of seed {other.first}: name one of them')
    by_end = [part.name for part in parts if part.is_by_end]
    if by_end and len(by_end) < len(parts):
        raise LensFault(f'{by_end[0]} tells ends alone, and others tell consoles: they can\'t be added up')


def table(merged: Merged, tally: Tally) -> Iterator[str]:
    """The outcomes, the most frequent one first, each with the seed of the shortest run that is known."""
    rows = sorted(tally.items(), key=lambda row: (-row[1].runs, row[0].end, row[0].console))
    outcomes = 'outcome' if len(rows) == 1 else 'outcomes'
    yield f'{merged.runs} runs, seeds {", ".join(spans(merged.parts))}, {len(rows)} {outcomes}'
    yield f'{"runs":>12}  {"end":<12}  {"steps":>9}  {"seed":>20}  console'
    for outcome, met in rows:
        console = '' if merged.parts[0].is_by_end else shown_console(outcome.console)
        yield f'{met.runs:>12}  {outcome.end:<12}  {met.rank.steps:>9}  {met.rank.seed:>20}  {console}'.rstrip()
    if merged.others:
        yield f'{merged.others:>12}  others, of which explore told neither console nor end'


def spans(parts: list[Part]) -> Iterator[str]:
    """The seeds, those in a row together."""
    first, end = parts[0].first, parts[0].first + parts[0].runs
    for part in parts[1:]:
        if part.first != end:
            yield f'{first} to {end - 1}'
            first = part.first
        end = part.first + part.runs
    yield f'{first} to {(end - 1) % SEEDS}'

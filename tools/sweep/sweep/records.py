"""What a job of a sweep answers, and the folder in which a sweep keeps it."""
from __future__ import annotations

import base64
import hashlib
import json
import os
import zlib
from dataclasses import asdict, dataclass
from pathlib import Path
from typing import Any

from lens.faults import LensFault
from lens.output import Outline, outline

NAME_DIGITS = 8
ELF, RUNS = 'elf', 'runs'
"""In which a sweep may differ from that of its folder: another ELF begins anew, and more runs go on."""


@dataclass(frozen=True, order=True)
class Rank:
    """Which of the runs of an outcome is kept: the shortest, and of those the one of the least seed."""

    steps: int
    seed: int


@dataclass(frozen=True)
class Outcome:
    """A console and an end."""

    end: str
    console: bytes

    @property
    def name(self) -> str:
        """A name for its files: the end and the first digits of a digest."""
        digest = hashlib.sha256(self.end.encode() + b'\n' + self.console).hexdigest()
        return f'{self.end.replace(" ", "-")}-{digest[:NAME_DIGITS]}'


@dataclass
class Met:
    """How often an outcome was met, and the run of it that is kept, with its whole output text where that
    is at hand."""

    runs: int
    rank: Rank
    text: bytes = b''

    def add(self, other: Met) -> None:
        self.runs += other.runs
        if other.rank < self.rank:
            self.rank, self.text = other.rank, other.text


Tally = dict[Outcome, Met]


def note(tally: Tally, outcome: Outcome, met: Met) -> None:
    if outcome in tally:
        tally[outcome].add(met)
    else:
        tally[outcome] = met


@dataclass(frozen=True)
class Record:
    """The answer of a job: the outcomes of the seeds from `first` on."""

    first: int
    tally: Tally

    @property
    def runs(self) -> int:
        """How many runs it counts."""
        return sum(met.runs for met in self.tally.values())

    def line(self, has_texts: bool) -> str:
        """The record as one line, with or without the texts of the runs that are kept."""
        outcomes = [
            {
                'end': outcome.end,
                'console': packed(outcome.console),
                'runs': met.runs,
                **asdict(met.rank),
                'text': packed(met.text) if has_texts else '',
            }
            for outcome, met in self.tally.items()
        ]
        return json.dumps({'first': self.first, 'outcomes': outcomes}) + '\n'


def packed(text: bytes) -> str:
    return base64.b64encode(zlib.compress(text)).decode()


def unpacked(text: str) -> bytes:
    return zlib.decompress(base64.b64decode(text)) if text else b''


def read_record(line: str) -> Record | None:
    """The record of a line; None where the line isn't a whole one."""
    try:
        fields = json.loads(line)
        tally = {
            Outcome(one['end'], unpacked(one['console'])): Met(
                one['runs'], Rank(one['steps'], one['seed']), unpacked(one['text'])
            )
            for one in fields['outcomes']
        }
        return Record(fields['first'], tally)
    except (ValueError, KeyError, TypeError, zlib.error):
        return None


def read_run(seed: int, text: bytes) -> tuple[Outcome, Met]:
    """The outcome of an output text."""
    parts: Outline = outline(f'the run of seed {seed}', text)
    return Outcome(parts.end, parts.console), Met(1, Rank(len(parts.lines), seed), text)


FAULT = 'fault'


def fault_line(words: str) -> str:
    """That a job gave no record, as one line."""
    return f'{json.dumps({FAULT: words})}\n'


def read_fault(line: str) -> str | None:
    """Why a job gave no record; None where a line doesn't say that."""
    try:
        told = json.loads(line)
    except ValueError:
        return None
    words = told.get(FAULT) if isinstance(told, dict) else None
    return words if isinstance(words, str) else None


class Folder:
    """Where a sweep keeps what it was asked, its jobs, the job log of GNU parallel, the records, and a
    run of each outcome."""

    def __init__(self, path: str | Path):
        self.path = Path(path)
        self.asked = self.path / 'sweep.json'
        self.jobs = self.path / 'jobs'
        self.job_log = self.path / 'job.log'
        self.results = self.path / 'results'
        self.table = self.path / 'table.txt'

    def open(self, asked: dict[str, object]) -> bool:
        """Makes the folder, or takes it up again where it holds the same sweep, also one of fewer runs. Where it
        holds the sweep of another ELF, that is forgotten: whether it was."""
        try:
            self.path.mkdir(parents=True, exist_ok=True)
            if not self.asked.exists():
                if any(self.path.iterdir()):
                    raise LensFault(f'{self.path} holds something else than a sweep')
                begins_anew = False
            else:
                begins_anew = self.differs_in_elf(json.loads(self.asked.read_text()), asked)
            if begins_anew:
                self.forget()
            replace(self.asked, (json.dumps(asked, indent=1) + '\n').encode())
        except OSError as error:
            raise LensFault(f'{self.path}: {error.strerror}') from None
        return begins_anew

    def differs_in_elf(self, kept: dict[str, Any], asked: dict[str, Any]) -> bool:
        """Whether a sweep that is kept is that of another ELF. A fault where it differs in something else, or has more
        runs than are asked for."""
        differing = {key for key in kept.keys() | asked.keys() if kept.get(key) != asked.get(key)}
        others = sorted(differing - {ELF, RUNS})
        if others:
            raise LensFault(f'{self.path} holds a sweep that differs in {", ".join(others)}: name another folder')
        if ELF in differing:
            return True
        if RUNS in differing and kept[RUNS] > asked[RUNS]:
            raise LensFault(f'{self.path} holds a sweep of {kept[RUNS]} runs: ask for no fewer, or name another folder')
        return False

    def forget(self) -> None:
        """Removes what a sweep left, and nothing else."""
        outcomes = {outcome for record in self.records().values() for outcome in record.tally}
        runs = [path for outcome in outcomes for path in (self.output_of(outcome), self.script_of(outcome))]
        for path in (self.asked, self.results, self.job_log, self.jobs, self.table, *runs):
            path.unlink(missing_ok=True)

    def records(self) -> dict[int, Record]:
        """The records that are kept, by their first seeds. A last line that was cut off by an
        interruption is dropped from the file."""
        if not self.results.exists():
            return {}
        lines = self.results.read_text().splitlines(keepends=True)
        read = {line: read_record(line) for line in lines if line.endswith('\n')}
        whole = {line: record for line, record in read.items() if record}
        if len(whole) != len(lines):
            replace(self.results, ''.join(whole).encode())
        return {record.first: record for record in whole.values()}

    def keep(self, record: Record, tally: Tally) -> None:
        """Adds a record to the tally, its runs to the files where they are the better ones, and then its
        line."""
        for outcome, met in record.tally.items():
            is_better = outcome not in tally or met.rank < tally[outcome].rank
            note(tally, outcome, met)
            if is_better:
                replace(self.output_of(outcome), met.text)
                replace(self.script_of(outcome), outline(outcome.name, met.text).log)
        with self.results.open('a') as file:
            file.write(record.line(has_texts=False))

    def output_of(self, outcome: Outcome) -> Path:
        return self.path / f'{outcome.name}.output'

    def script_of(self, outcome: Outcome) -> Path:
        return self.path / f'{outcome.name}.script'


def replace(path: Path, content: bytes) -> None:
    """Writes a file whole, or leaves the one that was there, and nothing beside it."""
    beside = path.with_name(path.name + '.new')
    try:
        beside.write_bytes(content)
        os.replace(beside, path)
    except OSError:
        beside.unlink(missing_ok=True)
        raise

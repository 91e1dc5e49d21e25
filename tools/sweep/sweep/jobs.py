"""Runs the jobs of a sweep by GNU parallel."""
from __future__ import annotations

import shlex
import shutil
import signal
import subprocess
import sys
import tempfile
import threading
from collections.abc import Generator, Iterator
from contextlib import closing, contextmanager
from dataclasses import dataclass, field
from pathlib import Path
from typing import IO, cast

from lens.faults import LensFault

from .records import Folder, Record, Tally, note, read_fault, read_record, replace

WORKER = Path(__file__).with_name('worker.py')
PYTHON = '/usr/bin/python3'
PARALLEL = 'parallel'
TRIES = 4
"""So often a job is begun at most where other machines have part: each time on one on which it failed least."""
SSH = 'ssh -o BatchMode=yes -o ConnectTimeout=10 -o ServerAliveInterval=5 -o ServerAliveCountMax=3'
"""A machine that isn't heard for 15 seconds is given up, and its jobs fail there."""


@dataclass(frozen=True)
class Job:
    """Some seeds that are run one behind the other. Its number is that of its line in the file of jobs,
    from 1."""

    number: int
    first: int
    count: int


def make_jobs(first: int, runs: int, seeds_a_job: int) -> list[Job]:
    starts = range(first, first + runs, seeds_a_job)
    return [
        Job(number, start, min(seeds_a_job, first + runs - start)) for number, start in enumerate(starts, 1)
    ]


@dataclass(frozen=True)
class Parallel:
    """How GNU parallel is called."""

    jobs_at_once: int
    mebibytes: int
    logins: list[str]
    command: list[str]
    """The words of a job behind its first seed and its count."""

    def words(self, folder: Folder) -> list[str]:
        worker = shlex.join([python(), str(WORKER)])
        job = f'{worker} {{1}} {{2}} {shlex.join(self.command)}'
        logins = [word for login in self.logins for word in ('--sshlogin', login)]
        others = ['--retries', str(TRIES), '--ssh', SSH] if any(map(is_elsewhere, self.logins)) else []
        bar = ['--bar'] if sys.stderr.isatty() else []
        return [
            PARALLEL,
            '--will-cite',
            '--jobs',
            str(self.jobs_at_once),
            '--memfree',
            f'{self.mebibytes}M',
            '--joblog',
            str(folder.job_log),
            '--resume',
            '--halt',
            'soon,fail=1',
            *bar,
            *others,
            *logins,
            '--colsep',
            ' ',
            '--arg-file',
            str(folder.jobs),
            job,
        ]


def is_elsewhere(login: str) -> bool:
    """Whether a login of GNU parallel is that of another machine: behind the number of jobs, `:` is this one."""
    return login.rpartition('/')[2] != ':'


def python() -> str:
    return PYTHON if Path(PYTHON).exists() else sys.executable


@dataclass
class Swept:
    """What a sweep has: the outcomes that were met, whether every job gave its record, whether it was
    interrupted, and whether its time was over."""

    tally: Tally
    is_whole: bool = False
    was_interrupted: bool = False
    was_late: bool = False
    faults: list[str] = field(default_factory=list)
    """Why jobs gave no record, in the order in which they said so."""

    @property
    def runs(self) -> int:
        return sum(met.runs for met in self.tally.values())


@dataclass
class Interruption:
    """Whether an interrupt came, or the time was over, and the process that is interrupted then."""

    came: bool = False
    is_late: bool = False
    running: subprocess.Popen[str] | None = None

    def note(self, *_: object) -> None:
        self.came = True
        self.hand_on()

    def note_late(self) -> None:
        self.is_late = True
        self.hand_on()

    def hand_on(self) -> None:
        if self.running:
            self.running.send_signal(signal.SIGINT)

    def watch(self, running: subprocess.Popen[str]) -> None:
        """Hands interrupts on to a process, and the one that came while it was started too."""
        self.running = running
        if self.came or self.is_late:
            running.send_signal(signal.SIGINT)


@contextmanager
def noted_interrupts(within: float | None) -> Iterator[Interruption]:
    """Within it an interrupt is noted, whatever it comes upon, and breaks nothing off. It stays ignored
    where it was. The end of so many seconds is noted in the same way."""
    interruption = Interruption()
    before = signal.getsignal(signal.SIGINT)
    if before is not signal.SIG_IGN:
        signal.signal(signal.SIGINT, interruption.note)
    timer = threading.Timer(within or 0, interruption.note_late)
    timer.daemon = True
    try:
        if within is not None:
            timer.start()
        yield interruption
    finally:
        timer.cancel()
        signal.signal(signal.SIGINT, before)


def sweep_jobs(parallel: Parallel, folder: Folder, jobs: list[Job], within: float | None = None) -> Swept:
    """Runs the jobs whose records aren't kept yet, for so many seconds at most. The last job of a sweep of fewer runs
    may have had fewer seeds: it is run again."""
    if shutil.which(PARALLEL) is None:
        raise LensFault('GNU parallel isn\'t installed: apt-get install parallel')
    counts = {job.first: job.count for job in jobs}
    kept = {first: record for first, record in folder.records().items() if record.runs == counts.get(first)}
    swept = Swept({})
    for record in kept.values():
        for outcome, met in record.tally.items():
            note(swept.tally, outcome, met)
    try:
        replace(folder.jobs, ''.join(f'{job.first} {job.count}\n' for job in jobs).encode())
        prune_job_log(folder, {str(job.number) for job in jobs if job.first in kept})
        with noted_interrupts(within) as interruption:
            keep_records(parallel, folder, swept, kept, interruption)
    except OSError as error:
        runs = sum(counts[first] for first in kept)
        raise LensFault(
            f'{folder.path}: {error.strerror}; {runs} runs are kept there, and the same command goes on'
        ) from None
    swept.was_interrupted, swept.was_late = interruption.came, interruption.is_late
    swept.is_whole = all(job.first in kept for job in jobs)
    return swept


def keep_records(
    parallel: Parallel, folder: Folder, swept: Swept, kept: dict[int, Record], interruption: Interruption
) -> None:
    """Runs the jobs, and keeps the records of those that have none yet. Where one can't be kept, the jobs are
    ended."""
    with closing(answers_of(parallel.words(folder), interruption)) as answers:
        for answer in answers:
            if isinstance(answer, str):
                swept.faults.append(answer)
            elif answer.first not in kept:
                folder.keep(answer, swept.tally)
                kept[answer.first] = answer


def prune_job_log(folder: Folder, numbers: set[str]) -> None:
    """Takes jobs out of the job log whose records weren't kept, so that GNU parallel makes them again; and
    all of a log whose heading was cut off."""
    if not folder.job_log.exists():
        return
    heading, *lines = folder.job_log.read_text().splitlines(keepends=True) or ['']
    if not heading.endswith('\n'):
        folder.job_log.unlink()
        return
    left = [line for line in lines if line.endswith('\n') and line.split('\t')[0] in numbers]
    replace(folder.job_log, ''.join([heading, *left]).encode())


def answers_of(words: list[str], interruption: Interruption) -> Generator[Record | str, None, None]:
    """The records that GNU parallel prints, as they come, and why jobs gave none; after an interruption, those that
    it still prints. Where no more of them are wanted, it is interrupted. What it says itself is passed on at its end
    where no job said what is wrong; on a terminal at once."""
    with tempfile.TemporaryFile('w+') as said, subprocess.Popen(
        words,
        stdin=subprocess.DEVNULL,
        stdout=subprocess.PIPE,
        stderr=None if sys.stderr.isatty() else said,
        text=True,
    ) as running:
        interruption.watch(running)
        is_told = False
        try:
            for line in cast(IO[str], running.stdout):
                answer = read_record(line) or read_fault(line)
                if answer:
                    is_told = is_told or isinstance(answer, str)
                    yield answer
        except GeneratorExit:
            running.send_signal(signal.SIGINT)
            raise
        running.wait()
        said.seek(0)
        sys.stderr.write('' if is_told else said.read())


def seconds_of_jobs(folder: Folder) -> float:
    """What the jobs of the job log took, added up."""
    lines = folder.job_log.read_text().splitlines()[1:] if folder.job_log.exists() else []
    return sum(float(line.split('\t')[3]) for line in lines)

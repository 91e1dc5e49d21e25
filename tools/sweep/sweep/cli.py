"""The command `sweep`."""
from __future__ import annotations

import argparse
import contextlib
import hashlib
import shlex
import sys
import time
from collections.abc import Iterator
from dataclasses import dataclass, replace as changed
from pathlib import Path

from lens.arguments import limits_of
from lens.command_line import FAULT_STATUS, INTERRUPTED_STATUS, end
from lens.faults import LensFault
from lens.machine import Machine

from .jobs import Parallel, Swept, make_jobs, seconds_of_jobs, sweep_jobs
from .junit import junit_text
from .limits import jobs_that_fit, mebibytes_a_run
from .merge import merge
from .records import ELF, RUNS, Folder, replace
from .reports import Failure, Report
from .table import again, sorted_outcomes, table_of
from .words import SEEDS, make_parser

UNEXPECTED_STATUS = 1


@dataclass
class Clock:
    """How many seconds a call may take; None for as many as it wants."""

    within: float | None
    began: float

    def left(self, files: int) -> float | None:
        """The share of one of so many files that are left in what is left."""
        if self.within is None:
            return None
        return max(0.0, self.within - (time.monotonic() - self.began)) / files


def digest(path: str) -> str:
    try:
        return hashlib.sha256(Path(path).read_bytes()).hexdigest()
    except OSError as error:
        raise LensFault(f'{path}: {error.strerror}') from None


def asked_of(arguments: argparse.Namespace, elf: str) -> dict[str, object]:
    """What makes two sweeps the same one."""
    return {
        'program': digest(arguments.program),
        ELF: digest(elf),
        'command': arguments.by,
        RUNS: arguments.runs,
        'first seed': arguments.first_seed,
        'seeds a job': arguments.seeds_a_job,
        'limits': limits_of(arguments),
    }


def sweep(arguments: argparse.Namespace) -> int:
    """Sweeps the files one behind the other, and reports of them together; the status of all."""
    check_words(arguments)
    folders = folders_of(arguments)
    for elf in arguments.elf:
        asked_of(arguments, elf)
        check_first(arguments, elf)
    clock = Clock(arguments.within, time.monotonic())
    reports: list[Report] = []
    statuses: list[int] = []
    for at, (elf, folder) in enumerate(folders.items()):
        if statuses and statuses[-1] == INTERRUPTED_STATUS:
            reports.append(Report(elf, arguments.runs))
            continue
        report, status = sweep_one(arguments, elf, Folder(folder), clock.left(len(folders) - at))
        reports.append(report)
        statuses.append(status)
    write_reports(arguments, reports)
    return max(statuses)


def check_words(arguments: argparse.Namespace) -> None:
    """What the words ask for together has to be there."""
    if not 0 <= arguments.first_seed <= SEEDS - arguments.runs:
        raise LensFault(f'a seed is a number from 0 to {SEEDS - 1}')
    if (arguments.junit or arguments.github) and arguments.expect is None:
        raise LensFault("--junit and --github want --expect, as --expect 'exit 0': without it no run ends otherwise")


def folders_of(arguments: argparse.Namespace) -> dict[str, Path]:
    """Where the sweep of each file is kept: in the folder that is named; of several files in folders in it, by their
    names."""
    out, elves = Path(arguments.out), list(dict.fromkeys(arguments.elf))
    if len(elves) == 1:
        return {elves[0]: out}
    folders = {elf: out / Path(elf).stem for elf in elves}
    for elf, folder in folders.items():
        twin = next((other for other in elves if other != elf and folders[other] == folder), None)
        if twin:
            raise LensFault(f'{elf} and {twin} would both be kept in {folder}: sweep them by two calls')
    return folders


def sweep_one(
    arguments: argparse.Namespace, elf: str, folder: Folder, within: float | None
) -> tuple[Report, int]:
    """The sweep of a file, for so many seconds at most: what it came to, and its status. Where there are several files,
    a fault of one keeps none of the others back."""
    began = time.monotonic()
    report = Report(elf, arguments.runs, expected=arguments.expect or '')
    try:
        report, status = swept_report(arguments, report, folder, within)
    except LensFault as fault:
        if len(arguments.elf) == 1 and not arguments.junit and not arguments.github:
            raise
        print(f'sweep: {fault}', file=sys.stderr)
        report, status = changed(report, fault=str(fault)), fault.status
    return changed(report, seconds=time.monotonic() - began), status


def swept_report(
    arguments: argparse.Namespace, report: Report, folder: Folder, within: float | None
) -> tuple[Report, int]:
    """Makes the runs of a file, and prints the table of those that there are at the end."""
    elf = report.elf
    if folder.open(asked_of(arguments, elf)):
        print(f'sweep: {folder.path} held the sweep of another ELF; it begins anew', file=sys.stderr)
    parallel = parallel_of(arguments, elf)
    jobs = make_jobs(arguments.first_seed, arguments.runs, arguments.seeds_a_job)
    swept = sweep_jobs(parallel, folder, jobs, within)
    tell_fault(swept.faults)
    if not swept.is_whole:
        print(f'sweep: {what_is_kept(swept, arguments, folder)}', file=sys.stderr)
    report = changed(report, runs=swept.runs, failures=tuple(failures(swept, folder, arguments, elf)))
    if not is_shown(swept):
        status = INTERRUPTED_STATUS if swept.was_interrupted else FAULT_STATUS
        return changed(report, fault=(swept.faults or [what_is_kept(swept, arguments, folder)])[0]), status
    table = table_of(swept, folder, arguments, elf)
    keep_table(folder, table)
    print_table(table, seconds_of_jobs(folder), parallel.jobs_at_once)
    return report, UNEXPECTED_STATUS if report.failures else 0


def is_shown(swept: Swept) -> bool:
    """Whether there is a table of a sweep: it is whole, or its time was over and nothing else ended it."""
    return swept.is_whole or (swept.was_late and bool(swept.runs) and not (swept.was_interrupted or swept.faults))


def what_is_kept(swept: Swept, arguments: argparse.Namespace, folder: Folder) -> str:
    """How much of a sweep there is, where that isn't all."""
    runs = f'{swept.runs} of {arguments.runs} runs'
    if not swept.was_late or swept.was_interrupted:
        return f'{runs} are kept in {folder.path}; the same command goes on'
    fewer = '' if swept.runs else f', and no job of {arguments.seeds_a_job} seeds ended: --seeds-a-job says how many'
    return f'{runs} were made in the time of --within{fewer}; the same command goes on'


def failures(swept: Swept, folder: Folder, arguments: argparse.Namespace, elf: str) -> Iterator[Failure]:
    """The outcomes that weren't expected, the most frequent one first."""
    for outcome, met in sorted_outcomes(swept):
        if arguments.expect is not None and outcome.end != arguments.expect:
            words = shlex.join(again(outcome, met, folder, arguments, elf))
            yield Failure(outcome, met.runs, met.rank.seed, words, folder.output_of(outcome))


def parallel_of(arguments: argparse.Namespace, elf: str) -> Parallel:
    """How GNU parallel is called for a file."""
    mebibytes = mebibytes_a_run(arguments.frames, arguments.steps)
    program, path = (str(Path(path).resolve()) for path in (arguments.program, elf))
    command = [str(arguments.seconds), program, arguments.by, path, *limits_of(arguments)]
    return Parallel(jobs_that_fit(arguments.jobs, mebibytes), mebibytes, arguments.sshlogin, command)


def tell_fault(faults: list[str]) -> None:
    """Says the first of some faults of jobs, and how many others failed."""
    if faults:
        others = len(faults) - 1
        more = f'; {others} further {"job" if others == 1 else "jobs"} failed' if others else ''
        print(f'sweep: {faults[0]}{more}', file=sys.stderr)


def print_table(table: str, seconds: float, jobs_at_once: int) -> None:
    """Where nobody reads on (`.. | head`), the table is kept all the same, and the status is that of the sweep."""
    with contextlib.suppress(BrokenPipeError):
        print(table, end='')
        print(f'\nThe jobs took {seconds:.1f} seconds, added up, with {jobs_at_once} at once.')


def keep_table(folder: Folder, table: str) -> None:
    try:
        replace(folder.table, table.encode())
    except OSError as error:
        raise LensFault(f'{folder.table}: {error.strerror}; the same command makes it') from None


def write_reports(arguments: argparse.Namespace, reports: list[Report]) -> None:
    """The file of JUnit's form, and the workflow commands on standard output, where they are asked for."""
    if arguments.junit:
        try:
            replace(Path(arguments.junit), junit_text(reports))
        except OSError as error:
            raise LensFault(f'{arguments.junit}: {error.strerror}; the same command makes it') from None
    if arguments.github:
        from .github import workflow_commands  # (it alone needs what reads source lines)

        machine = Machine(arguments.program, '', tuple(limits_of(arguments)))
        with contextlib.suppress(BrokenPipeError):
            for line in workflow_commands(reports, machine):
                print(line)


def check_first(arguments: argparse.Namespace, elf: str) -> None:
    """Says in one line what each job would say: that the program is another one, or that it doesn't take the
    file or a limit. One step of the first run tells."""
    limits = [word for word in limits_of(arguments) if not word.startswith('--steps=')]
    machine = Machine(arguments.program, elf, (*limits, '--steps=1'))
    machine.check_name()
    machine.draw(arguments.first_seed)


def main() -> int:
    """Does what the words ask; 2 and one line on standard error where it can't."""
    words = sys.argv[1:]
    if words[:1] == ['merge']:
        return end('sweep', lambda: merge(words[1:]))
    return end('sweep', lambda: sweep(make_parser().parse_args(words)))

"""What sweeps came to as workflow commands of GitHub Actions, which show it at a source line: `::error file=..::..`.

The line is the last one that the thread of the last step executed in a source file that is found here: of a check of
`examples/common/check.h` that failed, the check's. Why the run ended so `lens why` says.
"""
from __future__ import annotations

from collections.abc import Iterator
from dataclasses import dataclass
from pathlib import Path

from lens.causes import explain
from lens.checks import failed_place
from lens.faults import LensFault
from lens.history import History, make_history
from lens.machine import Machine
from lens.output import read_output
from lens.program import Program
from lens.source import Place

from .reports import Failure, Report

ASSEMBLER = ('.s', '.S')


@dataclass(frozen=True)
class Spot:
    """A line of a file, named from the folder in which this program runs."""

    file: str
    line: int


def workflow_commands(reports: list[Report], machine: Machine) -> Iterator[str]:
    """A line for each outcome that wasn't expected, and for each sweep that couldn't be made. The machine says by which
    program, and under which limits."""
    for report in reports:
        if report.fault:
            yield command(report.fault, None, f'sweep of {report.elf}')
        for failure in report.failures:
            yield annotation(report, failure, machine)


def annotation(report: Report, failure: Failure, machine: Machine) -> str:
    """The line of one outcome. Where `lens` can't show the run it has no place, and why is said."""
    spot: Spot | None = None
    try:
        history = make_history(read_output(str(failure.output)), Program(report.elf))
        spot = spot_of(history)
        why = list(explain(history, Machine(machine.program, report.elf, machine.options)))
    except LensFault as fault:
        why = [f'lens: {fault}']
    title = f'{Path(report.elf).name}: {failure.outcome.end} in {failure.runs} of {report.runs} runs'
    return command('\n'.join([*why, f'Again: {failure.again}']), spot, title)


def spot_of(history: History) -> Spot | None:
    """The source line to show the end of a run at; None where no file is found."""
    program, steps = history.program, history.output.steps
    checked = failed_place(history.output.console)
    places = [place for row in program.lines.rows if (place := row.place) and checked == place.name]
    if steps:
        own = dict.fromkeys(step.pc for step in reversed(steps) if step.thread == steps[-1].thread)
        passed = [place for pc in own if (place := program.outer_place(pc))]
        places += sorted(passed, key=is_assembler)
    spots = (found_spot(program, place) for place in dict.fromkeys(places))
    return next((spot for spot in spots if spot), None)


def is_assembler(place: Place) -> bool:
    return place.file.endswith(ASSEMBLER)


def found_spot(program: Program, place: Place) -> Spot | None:
    """A place whose file is below the folder in which this runs."""
    path, here = program.lines.path_of(place), Path.cwd()
    if path is None or not path.resolve().is_relative_to(here):
        return None
    return Spot(str(path.resolve().relative_to(here)), place.line)


def command(message: str, spot: Spot | None, title: str) -> str:
    """The workflow command `error`."""
    where = f'file={in_property(spot.file)},line={spot.line},' if spot else ''
    return f'::error {where}title={in_property(title)}::{in_message(message)}'


def in_message(words: str) -> str:
    return words.replace('%', '%25').replace('\r', '%0D').replace('\n', '%0A')


def in_property(words: str) -> str:
    return in_message(words).replace(':', '%3A').replace(',', '%2C')

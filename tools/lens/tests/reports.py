"""Pages about kept runs, for their tests."""
from __future__ import annotations

import json
import random
import re
from dataclasses import dataclass
from pathlib import Path
from typing import Any

from lens.causes import explain
from lens.history import make_history
from lens.machine import Machine
from lens.output import read_output
from lens.program import Program
from lens.report import embedded, report_page
from lens.report_changes import watch_names
from lens.report_data import Reported
from lens.timeline_reading import make_timeline
from lens.values import read_values

from .common import EXAMPLES
from .recorded_runs import harts_of, machine_of
from .report_checks import Difference, buffers, differences

PLACES = 10
"""At so many places a page is compared."""
RUNS: dict[str, list[str]] = {
    'peterson/found': ['wants', 'turn', 'count'],
    'percpu_counter/preempted': ['cells', 'adders[0].area'],
    'rcu/taken': ['grace_period', 'current'],
    'reservation/lost': ['word'],
    'signal_in_sequence/inside': [],
    'segv_handler/moved': ['opened', 'skipped'],
    'ring_wake_lost/asleep': ['slot', 'producer_sleeps'],
}
"""Kept runs, each with what is watched of it."""
DATA = re.compile('<script type="application/json" id="run">(.*?)</script>', re.DOTALL)
Data = dict[str, Any]


@dataclass(frozen=True)
class Case:
    """A kept run with all that its page shows, and the machine that is asked for the same."""

    reported: Reported
    machine: Machine

    def inspected(self, place: int) -> str:
        """What `inspect` prints of a place, with the memory that is watched."""
        asked = ','.join(f'{at:x}:{size}' for _, at, size in self.parts())
        words = (f'--memory={asked}',) if asked else ()
        return self.machine.text_of('inspect', self.reported.timeline.script(place), words)

    def parts(self) -> list[tuple[str, int, int]]:
        return [part for watch in self.reported.watches for part in watch.parts]

    def wrong(self, place: int, shown: dict[str, str], waiting: dict[int, list[str]], harts: list[int]) -> list[Difference]:
        """Where what is shown of a place isn't what `inspect` says of it."""
        text = self.inspected(place)
        found = list(differences(self.reported.program, shown, text, self.parts(), harts))
        for hart in harts:
            due = buffers(text).get(hart, [])
            if waiting.get(hart, []) != due:
                found.append(Difference(f'buffer {hart}', str(waiting.get(hart, [])), str(due)))
        return found


def case(name: str, watched: list[str]) -> Case:
    """The kept run `FOLDER/RUN`, with these names watched."""
    folder = Path(name).parent.name
    return case_of(EXAMPLES / f'{name}.output', EXAMPLES / folder / f'{folder}.elf', watched)


def case_of(run: Path, elf: Path, watched: list[str]) -> Case:
    output, program, machine = read_output(str(run)), Program(str(elf)), machine_of(run, elf, harts_of(run))
    log = ''.join(f'{step.line()}\n' for step in output.steps).encode()
    timeline = make_timeline(str(run), log, program, machine)
    values = read_values(make_history(output, program), machine)
    why = list(explain(values.history, machine))
    return Case(Reported(timeline, values, why, watch_names(program, watched)), machine)


def data_in(page: str) -> Data:
    """The data of a page."""
    found = DATA.search(page)
    if found is None:
        raise ValueError('the page has no data')
    return dict(json.loads(found[1]))


def with_data(page: str, data: Data) -> str:
    """The same page with other data."""
    return DATA.sub(lambda found: found[0].replace(found[1], embedded(data)), page)


def page_of(one: Case) -> str:
    return report_page(one.reported)


def numbers_of(data: Data) -> list[int]:
    """The places that a page shows."""
    return [0, *(int(step[0]) for step in data['steps'])]


def some_places(data: Data, seed: int) -> list[int]:
    """The indexes of some places that a page shows: the last one, and others."""
    count = len(data['steps']) + 1
    return sorted({count - 1, *random.Random(seed).sample(range(count), min(PLACES, count))})

"""Where resumptions end, compared with a scan of the records of a run; and conditions of breakpoints."""
from __future__ import annotations

import random
import time
import unittest
from pathlib import Path

from lens.agent import Expression
from lens.output import read_output
from lens.program import Program
from lens.stops import HARDWARE, SOFTWARE, Points, Reason, Resume, Spot, Stop, Stops, Watchpoint
from lens.timeline import Timeline
from lens.timeline_reading import make_timeline

from .common import PETERSON, kept_runs, needs_program
from .recorded_runs import (
    KINDS_OF_WATCH,
    MOMENTS,
    Scan,
    harts_of,
    kept_timeline,
    kept_trace,
    machine_of,
)

KEPT, OF_EACH, EACH = 2_000, 100, 4
"""So many resumptions of the kept text are compared, and so many of each EACH-th of the kept runs."""
LONGEST = 3_000
"""Runs of more steps take a scan too long."""


class Trial:
    """Resumptions of one run, drawn by a seed."""

    def __init__(self, timeline: Timeline, scan: Scan, seed: int):
        self.timeline, self.scan, self.random = timeline, scan, random.Random(seed)
        self.pcs = sorted(timeline.executions)
        self.touched = sorted({*timeline.memory.made.words, *timeline.memory.reads.words})

    def points(self) -> Points:
        draw, points = self.random, Points()
        for _ in range(draw.randrange(3)):
            points.breaks[draw.choice(self.pcs)] = draw.choice((SOFTWARE, HARDWARE)), []
        for _ in range(draw.randrange(3)):
            at = draw.choice(self.touched) * 8 + draw.randrange(8)
            points.watches.add(Watchpoint(draw.choice(KINDS_OF_WATCH), at, draw.choice((1, 2, 4, 8, 16))))
        points.moment = draw.choice(MOMENTS)
        points.passed = set(draw.sample((10, 11, 30, 31), 2))
        return points

    def resume(self) -> Resume:
        draw, threads = self.random, sorted(self.timeline.threads)
        stepping = draw.choice((None, draw.choice(threads)))
        low = draw.choice(self.pcs)
        span = (low, low + 4 * draw.randrange(1, 9)) if stepping and draw.random() < 0.3 else None
        only = draw.choice((None, None, stepping or draw.choice(threads)))
        return Resume(stepping, span, only)

    def spot(self) -> Spot:
        draw = self.random
        place = draw.randrange(self.timeline.size + 1)
        watched = draw.choice((None, None, place or None, place + 1 if place < self.timeline.size else None))
        return Spot(place, draw.random() < 0.5, watched)

    def differences(self, count: int) -> list[str]:
        found = []
        for _ in range(count):
            spot, points, resume = self.spot(), self.points(), self.resume()
            stops = Stops(self.timeline, points)
            due, got = self.scan.forwards(spot, points, resume), stops.forwards(spot, resume)
            back_due = self.scan.backwards(spot, points, resume._replace(span=None))
            back = stops.backwards(spot, resume._replace(span=None))
            if seen(due) != seen(got) or seen(back_due) != seen(back):
                found.append(f'{spot} {points} {resume}: {got} and not {due}, {back} and not {back_due}')
        return found


def seen(stop: Stop) -> tuple[int, Reason, int | None]:
    """What the scan says of a stop too."""
    return stop.place, stop.reason, stop.line


class AgainstAScan(unittest.TestCase):
    def test_the_kept_text(self) -> None:
        trial = Trial(kept_timeline(), Scan(kept_trace()), 1)
        self.assertEqual(trial.differences(KEPT), [])

    @needs_program
    def test_kept_runs(self) -> None:
        for run, elf in kept_runs()[::EACH]:
            output = read_output(str(run))
            if 0 < len(output.steps) <= LONGEST:
                with self.subTest(run=run.stem):
                    self.check_run(run, elf, [step.line() for step in output.steps])

    def check_run(self, run: Path, elf: Path, lines: list[str]) -> None:
        machine = machine_of(run, elf, harts_of(run))
        log = ''.join(f'{line}\n' for line in lines).encode()
        timeline = make_timeline(str(run), log, Program(str(elf)), machine)
        self.assertEqual(Trial(timeline, Scan(machine.trace(lines)), 2).differences(OF_EACH), [])


class Conditions(unittest.TestCase):
    """`count` of the kept run is read and written in `add`, which both threads call."""

    def setUp(self) -> None:
        self.timeline, program = kept_timeline(), Program(str(PETERSON))
        self.at = program.addresses('add')[0]
        self.count = next(one.address for one in program.variables if one.name == 'count')
        self.hits = list(self.timeline.next_execution(self.at, 0))

    def stops(self, *code: int) -> list[int]:
        """The places at which a breakpoint with a condition stops, forwards, and backwards the same."""
        points = Points({self.at: (SOFTWARE, [Expression(bytes([*code, 0x27]))])})
        stops, spot, found = Stops(self.timeline, points), Spot(), []
        while (stop := stops.forwards(spot, Resume())).reason is Reason.BREAK:
            found.append(stop.place)
            spot = Spot(stop.place, True)
        spot, back = Spot(self.timeline.size), []
        while (stop := stops.backwards(spot, Resume())).reason is Reason.BREAK:
            back.append(stop.place)
            spot = Spot(stop.place, True)
        self.assertEqual(found, back[::-1])
        return found

    def test_they_choose(self) -> None:
        places = [line - 1 for line in self.hits]
        self.assertGreater(len(places), 1)
        self.assertEqual(self.stops(0x22, 1), places)
        self.assertEqual(self.stops(0x22, 0), [])

    def test_registers_and_memory(self) -> None:
        """The stack pointers of the threads differ, and both find 0 in `count`."""
        first = self.timeline.register(self.timeline.event(self.hits[0]).thread, 2, self.hits[0] - 1)
        of_first = self.stops(0x26, 0, 2, 0x25, *first.to_bytes(8, 'big'), 0x13)
        self.assertEqual(of_first, [self.hits[0] - 1])
        is_zero = [0x24, *self.count.to_bytes(4, 'big'), 0x19, 0x0E]
        self.assertEqual(self.stops(*is_zero), [line - 1 for line in self.hits])

    def test_what_cannot_be_worked_out(self) -> None:
        """gdb has to say it."""
        self.assertEqual(self.stops(0x22, 0, 0x1A), [line - 1 for line in self.hits])


class FalseConditions(unittest.TestCase):
    HITS, SECONDS = 50_000, 10.0
    """In a second on an idle machine; a machine that has much else to do may take more."""

    def test_they_cost_little(self) -> None:
        timeline = kept_timeline()
        line = next(iter(timeline.next_execution(timeline.event(20).pc, 0)))
        code = [0x26, 0, 2, 0x23, 1, 0, 0x03, 0x1A, 0x22, 77, 0x13, 0x27]
        points = Points({timeline.event(line).pc: (SOFTWARE, [Expression(bytes(code))])})
        stops, began = Stops(timeline, points), time.process_time()
        for _ in range(self.HITS):
            stops.holds(points.breaks[timeline.event(line).pc][1], line)
        self.assertLess(time.process_time() - began, self.SECONDS)


if __name__ == '__main__':
    unittest.main()

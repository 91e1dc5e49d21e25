"""The timeline of a run, compared at places with what `inspect` says; and what a kept text says of one."""
from __future__ import annotations

import random
import unittest
from collections.abc import Iterator
from pathlib import Path

from lens.faults import LensFault
from lens.machine import Machine
from lens.memory_history import Index, Series, Touches
from lens.output import read_output
from lens.program import Program
from lens.timeline import READY, RUNNING, SLEEPING, State, Timeline
from lens.timeline_reading import make_timeline

from .common import EXAMPLES, FENCED, FOUND, PETERSON, kept_runs, needs_program
from .recorded_runs import harts_of, kept_timeline, kept_trace, machine_of

PLACES = 6
"""At so many places each run is compared."""
WORDS = 24
"""So many words of memory."""


def words_of(timeline: Timeline, draw: random.Random) -> list[int]:
    """Some of the words that a run touches, and neighbours of them."""
    touched = sorted({*timeline.memory.made.words, *timeline.memory.reads.words, *timeline.memory.words})
    chosen = draw.sample(touched, min(WORDS, len(touched)))
    return sorted({word + draw.choice((0, 0, 1)) for word in chosen})


def differences(timeline: Timeline, text: str, place: int) -> Iterator[str]:
    """The lines of a text of `inspect` that a timeline says otherwise."""
    waiting = [list(buffer.waiting(place)) for buffer in timeline.memory.buffers]
    for line in text.splitlines():
        due = said(timeline, line.split(' '), place, waiting)
        if due is not None and due[0] != due[1]:
            yield f'{line}: {due[0]} and not {due[1]}'


def said(timeline: Timeline, fields: list[str], place: int, waiting: list) -> tuple[object, object] | None:
    """What a timeline says of a line, and what the line says; None where it says nothing of it."""
    memory = timeline.memory
    match fields:
        case ['hart', hart, 'thread', thread, 'pc', pc, *_]:
            return (timeline.hart(int(thread), place), timeline.pc(int(thread), place)), (int(hart), int(pc, 16))
        case ['hart', hart, register, _, value] if register[0] == 'x' and register[1:].isdecimal():
            thread = next(one for one in timeline.live(place) if timeline.hart(one, place) == int(hart))
            return timeline.register(thread, int(register[1:]), place), int(value, 16)
        case ['hart', hart, 'store', at, size, value]:
            store = waiting[int(hart)].pop(0)
            return (store.at, store.size, store.value), (int(at, 16), int(size), int(value, 16))
        case ['thread', thread, 'pc', pc]:
            return timeline.pc(int(thread), place), int(pc, 16)
        case ['thread', thread, 'ready']:
            return timeline.threads[int(thread)].state(place), State(READY)
        case ['thread', thread, 'running', hart]:
            return timeline.threads[int(thread)].state(place), State(RUNNING, hart=int(hart))
        case ['thread', thread, 'waiting', word]:
            return timeline.threads[int(thread)].state(place), State(SLEEPING, word=int(word, 16))
        case ['memory', at, value] if value != 'none':
            return memory.bytes_at(int(at, 16), 8, place, None), int(value, 16).to_bytes(8, 'little')
        case ['hart', hart, 'sees', at, value]:
            return memory.bytes_at(int(at, 16), 8, place, int(hart)), int(value, 16).to_bytes(8, 'little')
    return None


@needs_program
class AgainstInspect(unittest.TestCase):
    def test_kept_runs(self) -> None:
        draw = random.Random(1)
        for run, elf in kept_runs():
            output = read_output(str(run))
            if output.steps:
                with self.subTest(run=run.stem):
                    self.check_run(run, elf, output.steps, draw)

    def check_run(self, run: Path, elf: Path, steps: list, draw: random.Random) -> None:
        machine = machine_of(run, elf, harts_of(run))
        lines = [f'{step.line()}\n' for step in steps]
        timeline = make_timeline(str(run), ''.join(lines).encode(), Program(str(elf)), machine)
        self.assertEqual(timeline.script(timeline.size), ''.join(lines).encode())
        for place in sorted({len(steps), *(draw.randrange(len(steps)) for _ in range(PLACES))}):
            asked = ','.join(f'{word * 8:x}:8' for word in words_of(timeline, draw))
            words = (f'--memory={asked}',) if asked else ()
            text = machine.text_of('inspect', timeline.script(place), words)
            self.assertEqual(list(differences(timeline, text, place)), [], f'place {place}')
            self.check_live(timeline, text, place)

    def check_live(self, timeline: Timeline, text: str, place: int) -> None:
        """The same threads live."""
        live = {int(line.split()[1]) for line in text.splitlines() if line.startswith('thread ')}
        if place < timeline.size:
            self.assertEqual(set(timeline.live(place)), live)


@needs_program
class OtherRuns(unittest.TestCase):
    def machine(self, elf: Path, harts: int = 2) -> Machine:
        return machine_of(FOUND, elf, harts)

    def fault(self, log: bytes, elf: Path, harts: int = 2) -> str:
        with self.assertRaises(LensFault) as found:
            make_timeline('RUN', log, Program(str(elf)), self.machine(elf, harts))
        return str(found.exception)

    def test_another_file(self) -> None:
        log = b''.join(step.line().encode() + b'\n' for step in read_output(str(FOUND)).steps)
        for elf in (FENCED, EXAMPLES / 'rcu' / 'rcu.elf'):
            self.assertRegex(self.fault(log, elf), f'^RUN isn\'t a run of {elf} under these limits: step [0-9]+ ')

    def test_fewer_harts(self) -> None:
        log = b''.join(step.line().encode() + b'\n' for step in read_output(str(FOUND)).steps)
        self.assertIn('step 1 ', self.fault(log, PETERSON, 1))

    def test_no_steps(self) -> None:
        self.assertEqual(self.fault(b'', PETERSON), 'RUN has no steps')


class OfAKeptText(unittest.TestCase):
    def test_lines(self) -> None:
        timeline, records = kept_timeline(), kept_trace().records
        self.assertEqual(list(timeline.steps()), [record.step for record in records])
        self.assertEqual(timeline.end, kept_trace().end)

    def test_threads(self) -> None:
        timeline = kept_timeline()
        self.assertEqual(timeline.live(0), [1])
        self.assertEqual(timeline.threads[2].since, 31)
        self.assertEqual(timeline.pc(2, 30), 0)
        self.assertEqual(timeline.register(2, 2, 30), 0)
        self.assertEqual(timeline.pc(2, 31), timeline.event(33).pc)

    def test_two_eyes(self) -> None:
        """Both stores to `wants` wait: each hart sees its own alone."""
        timeline = kept_timeline()
        wants = next(one for one in Program(str(PETERSON)).variables if one.name == 'wants')
        seen = [timeline.memory.bytes_at(wants.address, 8, 71, hart) for hart in (None, 0, 1)]
        self.assertEqual(seen, [bytes(8), bytes([0, 0, 0, 0, 1, 0, 0, 0]), bytes([1, 0, 0, 0, 0, 0, 0, 0])])


class Histories(unittest.TestCase):
    def test_a_series(self) -> None:
        series = Series()
        for place, value in ((3, 30), (5, 50), (5, 51)):
            series.note(place, value)
        self.assertEqual([series.at(place, 7) for place in range(7)], [7, 7, 7, 30, 30, 51, 51])

    def test_touches(self) -> None:
        touches = Touches()
        for line, mask in ((2, 1), (2, 2), (4, 8)):
            touches.note(line, mask)
        self.assertEqual([touches.next(after, 2) for after in range(4)], [2, 2, None, None])
        self.assertEqual([touches.last(up_to, 9) for up_to in range(1, 6)], [None, 2, 2, 4, 4])

    def test_an_access_across_words(self) -> None:
        index = Index()
        index.note(6, 0x1006, 4)
        for at, size, found in ((0x1005, 1, None), (0x1006, 1, 6), (0x1008, 2, 6), (0x100A, 8, None), (0x1000, 16, 6)):
            with self.subTest(at=hex(at)):
                self.assertEqual(index.next(at, size, 0), found)
                self.assertEqual(index.last(at, size, 9), found)


if __name__ == '__main__':
    unittest.main()

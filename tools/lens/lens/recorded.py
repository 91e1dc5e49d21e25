"""A recorded run as a debugger sees it: its timeline, its console, its file, and its steps in words."""
from __future__ import annotations

from bisect import bisect_right
from collections.abc import Iterator
from dataclasses import dataclass
from functools import cached_property
from itertools import accumulate
from pathlib import Path

from .causes import explain
from .history import make_history
from .machine import Machine
from .memory_history import Store
from .output import DRAIN, Output
from .program import Program
from .timeline import Timeline
from .watching import Range

NUMBER = 8
"""How many bytes at most are shown as one number."""


@dataclass(frozen=True)
class Recorded:
    """A run of a program, and the machine that is asked what its timeline doesn't say."""

    name: str
    program: Program
    machine: Machine
    timeline: Timeline
    console: bytes

    @property
    def file(self) -> str:
        return str(Path(self.program.path).resolve())

    # the console

    @cached_property
    def printed_to(self) -> list[int]:
        """How many bytes the console has after each call that prints."""
        return list(accumulate(printing.length for printing in self.timeline.printings))

    @cached_property
    def printing_lines(self) -> list[int]:
        return [printing.line for printing in self.timeline.printings]

    def printed(self, start: int, goal: int) -> Iterator[tuple[int, int]]:
        """From where up to where the console has what each call prints between two places."""
        first, last = bisect_right(self.printing_lines, start), bisect_right(self.printing_lines, goal)
        for index in range(first, last):
            yield self.printed_to[index - 1] if index else 0, self.printed_to[index]

    # words

    def line(self, number: int) -> str:
        """A step in words."""
        timeline = self.timeline
        if not 1 <= number <= timeline.size:
            return f'step {number}: none'
        hart, kind, thread, pc = timeline.event(number)
        whose = f' thread {thread}' if thread else ''
        return f'step {number}: hart {hart} {kind}{whose} at {self.program.spot(pc)}'

    def stored(self, store: Store) -> str:
        """What a store writes."""
        program = self.program
        return f'{program.bytes_of(store.at, store.size)} = {program.number(store.value, store.size)}'

    def deed(self, line: int, at: int, size: int) -> str:
        """What a step does with some bytes that are watched."""
        timeline = self.timeline
        hart, kind, thread, _ = timeline.event(line)
        buffer = timeline.memory.buffers[hart]
        if kind == DRAIN:
            store = buffer.entered_in(line)
            told = f'{self.made(store)} enters memory' if store else 'enters memory'
        elif store := buffer.executed_in(line):
            is_left = store.entered is None
            enters = 'never enters memory' if is_left else f'enters memory in step {store.entered}'
            told = f'stores {self.stored(store)}, which {enters}'
        else:
            told = 'reads' if timeline.memory.reads.has(line, at, size) else ''
            if timeline.memory.made.has(line, at, size):
                told += ' and writes at once' if told else 'writes at once'
        whose = f', thread {thread}' if thread else ''
        return f'step {line}, hart {hart}{whose}: {told}'

    def made(self, store: Store) -> str:
        """A store by where it was executed."""
        spot = self.program.spot(self.timeline.event(store.executed).pc)
        return f'the store of step {store.executed}, {self.stored(store)}, at {spot},'

    # who wrote what

    def writers(self, range_: Range, place: int) -> Iterator[str]:
        """Who wrote some bytes last, as memory has them at a place, and whose stores to them wait."""
        memory = self.timeline.memory
        entered = memory.entering.last(range_.at, range_.size, place)
        yield 'in memory: ' + (self.wrote(entered, range_) if entered else 'as since the start')
        for hart, buffer in enumerate(memory.buffers):
            for store in buffer.waiting(place):
                if range_.has(store.at, store.size):
                    yield f'waiting on hart {hart}: {self.stored(store)}, by {self.line(store.executed)}'

    def wrote(self, line: int, range_: Range) -> str:
        """The write that a line entered into memory."""
        timeline = self.timeline
        size = min(range_.size, NUMBER)
        held = int.from_bytes(timeline.memory.bytes_at(range_.at, size, line, None), 'little')
        value = f'{self.program.bytes_of(range_.at, size)} = {self.program.number(held, size)}'
        store = timeline.memory.buffers[timeline.event(line).hart].entered_in(line)
        if store is None:
            return f'{value}, by {self.line(line)}'
        return f'{value}, by {self.line(store.executed)}; it entered in step {line}'

    # what the machine is asked

    def causes(self) -> Iterator[str]:
        """Why the run ended as it did."""
        output = Output(self.name, self.console, list(self.timeline.steps()), self.timeline.end)
        yield from explain(make_history(output, self.program), self.machine)

    def harts(self, place: int) -> Iterator[str]:
        """What each hart and each thread is at, as `inspect` says it, without what is of no interest."""
        text = self.machine.text_of('inspect', self.timeline.script(place))
        waiting = [list(buffer.waiting(place)) for buffer in self.timeline.memory.buffers]
        for line in text.splitlines():
            match line.split(' '):
                case ['hart', _, register, *_] if register[0] == 'x' and register[1:].isdecimal():
                    pass
                case ['hart', _, 'reservation' | 'requests' | 'barrier' | 'area', 'none']:
                    pass
                case ['hart', _, 'restart', 'no'] | ['hart', _, 'names', 'nothing']:
                    pass
                case ['thread', _, 'mask' | 'area', *_]:
                    pass
                case ['hart', hart, 'store', *_]:
                    store = waiting[int(hart)].pop(0)
                    spot = self.program.spot(self.timeline.event(store.executed).pc)
                    yield f'hart {hart} store of step {store.executed}: {self.stored(store)}, at {spot}'
                case ['hart' | 'thread', *_]:
                    yield line

    def events(self, first: int, last: int) -> Iterator[tuple[int, list[str]]]:
        """The steps from one up to another, each with the facts below it."""
        words = (f'--from={first}', f'--to={last}')
        text = self.machine.text_of('trace', self.timeline.script(self.timeline.size), words)
        number, facts = first - 1, list[str]()
        for line in text.splitlines():
            if line.startswith('  line '):
                number, facts = int(line.split()[1]), []
                yield number, facts
            elif line.startswith('  '):
                facts.append(line.strip())

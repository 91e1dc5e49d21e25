"""A run as an SVG picture: rows of lanes, one lane a hart, one cell a step."""
from __future__ import annotations

import itertools
import textwrap
import xml.etree.ElementTree as xml
from collections.abc import Callable, Iterator
from dataclasses import dataclass
from functools import cached_property

from .calls import name_of
from .faults import LensFault
from .history import History
from .output import DRAIN, EXEC, PREEMPT, RUN, Step, shown_console

NAMESPACE = 'http://www.w3.org/2000/svg'

SHOWN, MOST_SHOWN = 200, 2000
PER_ROW = 50

CELL, BLOCK = 18, 14
MARGIN, LABELS = 16, 52
ARCS, NAMES, CALLS, GAP = 34, 12, 11, 8
LANE = ARCS + BLOCK + NAMES + CALLS + GAP
AXIS, HEAD, FOOT, LEGEND_LINE, FOOT_LINE = 22, 62, 10, 20, 14
LETTER, FEWEST_LETTERS, FOOT_LETTERS = 6.1, 4, 150
TICK = 10

# The colours of Okabe and Ito, which people see apart who see red and green alike.
COLOURS = ('#0072b2', '#e69f00', '#009e73', '#cc79a7', '#56b4e9', '#d55e00', '#8c6d00', '#666666')

STYLE = """
text { font-family: "DejaVu Sans", Verdana, sans-serif; font-size: 10px; fill: #222 }
.title { font-size: 13px; font-weight: bold }
.hart { font-size: 11px; font-weight: bold }
.small { font-size: 9px; fill: #444 }
.lane { stroke: #bbb }
.stretch { opacity: 0.18 }
.arc { fill: none; stroke: #444; stroke-width: 1.1 }
.waits { stroke-dasharray: 3 2 }
.store { stroke: #111; stroke-width: 1.6 }
.drain { fill: #222 }
.mark { stroke: #fff; stroke-width: 2.4 }
.other { fill: #fff; stroke: #111 }
"""
Shape = Callable[[float, float, str], None]
"""Draws something at a middle and a top, in a colour."""


@dataclass(frozen=True)
class Span:
    """The steps that a picture shows."""

    first: int
    last: int
    of: int

    @property
    def count(self) -> int:
        return max(0, self.last - self.first + 1)

    @property
    def rows(self) -> int:
        return -(-self.count // PER_ROW)

    def has(self, number: int) -> bool:
        return self.first <= number <= self.last

    def words(self) -> str:
        left_out = self.of - self.count
        shown = (
            f'steps {self.first} to {self.last} of {self.of}' if self.count else f'none of {self.of} steps'
        )
        return f'{shown}; {left_out} left out (--from and --to choose others)' if left_out else shown


def choose_span(steps: int, first: int | None, last: int | None) -> Span:
    """The steps from `first` to `last`; where no last one is given, 200 of them at most."""
    begin = 1 if first is None else first
    end = min(steps, begin + SHOWN - 1 if last is None else last)
    if steps and not 1 <= begin <= end:
        raise LensFault(
            f'there is nothing to show from step {begin} to step {end}: the run has {steps} steps'
        )
    if end - begin + 1 > MOST_SHOWN:
        raise LensFault(
            f'{end - begin + 1} steps are too many for a picture, which shows {MOST_SHOWN} at most'
        )
    return Span(begin, end, steps)


class Picture:
    """Draws the steps of a span."""

    def __init__(self, history: History, span: Span):
        self.history = history
        self.span = span
        self.harts = history.output.harts
        self.threads = history.output.threads
        self.steps = [step for step in history.output.steps if span.has(step.number)]
        self.width = 2 * MARGIN + LABELS + CELL * PER_ROW
        self.head_height = HEAD + LEGEND_LINE * max(line for _, line in self.legend_places())
        self.foot_height = FOOT + FOOT_LINE * len(self.foot_lines())
        self.height = self.head_height + self.row_height * span.rows + self.foot_height
        self.root = xml.Element(
            'svg',
            xmlns=NAMESPACE,
            width=str(self.width),
            height=str(self.height),
            viewBox=f'0 0 {self.width} {self.height}',
        )

    @property
    def row_height(self) -> int:
        return LANE * len(self.harts) + AXIS

    def draw(self) -> str:
        xml.SubElement(self.root, 'style').text = STYLE
        self.add('rect', width=self.width, height=self.height, fill='#fff')
        self.head()
        for row in range(self.span.rows):
            self.row(row)
        self.stretches()
        for step in self.steps:
            self.step(step)
        self.arcs()
        self.functions()
        self.foot()
        xml.indent(self.root)
        return xml.tostring(self.root, encoding='unicode') + '\n'

    def add(self, tag: str, text: str | None = None, **attributes: object) -> xml.Element:
        """Adds an element; an attribute named `kind` is its class, and `_` in a name stands for `-`."""
        named = {
            'class' if name == 'kind' else name.replace('_', '-'): number(value)
            for name, value in attributes.items()
        }
        element = xml.SubElement(self.root, tag, named)
        element.text = text
        return element

    def colour(self, thread: int) -> str:
        return COLOURS[self.threads.index(thread) % len(COLOURS)] if thread in self.threads else '#fff'

    # Where things stand

    def row_of(self, step: int) -> int:
        return (step - self.span.first) // PER_ROW

    def left(self, step: int) -> float:
        """The left edge of a step's cell."""
        return MARGIN + LABELS + (step - self.span.first) % PER_ROW * CELL

    def middle(self, step: int) -> float:
        return self.left(step) + CELL / 2

    def top(self, row: int, hart: int) -> float:
        """The upper edge of the blocks of a lane."""
        return self.head_height + row * self.row_height + self.harts.index(hart) * LANE + ARCS

    def block_top(self, step: Step) -> float:
        return self.top(self.row_of(step.number), step.hart)

    # What is drawn

    def head(self) -> None:
        output = self.history.output
        self.add('text', f'{output.name}: {self.span.words()}', x=MARGIN, y=MARGIN + 6, kind='title')
        for (shape, colour, words), (across, line) in zip(self.legend(), self.legend_places()):
            top = HEAD - 32 + line * LEGEND_LINE
            shape(across + CELL / 2, top, colour)
            self.add('text', words, x=across + CELL + 4, y=top + 10)

    def legend(self) -> list[tuple[Shape, str, str]]:
        """What the colours and the shapes mean: what draws each of them, its colour, and the words."""
        threads: list[tuple[Shape, str, str]] = [
            (self.swatch, self.colour(thread), f'thread {thread}') for thread in self.threads
        ]
        shapes: tuple[tuple[Shape, str], ...] = (
            (self.store_block, 'store, which waits'),
            (self.triangle, 'it enters memory'),
            (self.fence_block, 'fence'),
            (self.atomic_block, 'AMO, LR, SC'),
            (self.call_block, 'call'),
            (self.block, 'another instruction'),
            (self.bar, 'begins to run, or leaves'),
            (self.other_block, 'take, done, signal'),
        )
        return threads + [(shape, '#999', words) for shape, words in shapes]

    def legend_places(self) -> Iterator[tuple[float, int]]:
        """Where each part of the legend begins, and in which line: a new one begins where it has no room."""
        across, line = float(MARGIN), 0
        for _, _, words in self.legend():
            width = CELL + 4 + LETTER * len(words)
            if across + width > self.width - MARGIN and across > MARGIN:
                across, line = float(MARGIN), line + 1
            yield across, line
            across += width + 14

    def swatch(self, middle: float, top: float, colour: str) -> None:
        self.add('rect', x=middle - 6, y=top, width=12, height=12, fill=colour)

    def row(self, row: int) -> None:
        """The lanes of a row with their names, and the numbers of the steps below."""
        right: float = self.width - MARGIN
        for hart in self.harts:
            top = self.top(row, hart)
            self.add('text', f'hart {hart}', x=MARGIN, y=top + 11, kind='hart')
            self.add('line', x1=MARGIN + LABELS, y1=top + BLOCK, x2=right, y2=top + BLOCK, kind='lane')
        first = self.span.first + row * PER_ROW
        bottom = self.head_height + row * self.row_height + LANE * len(self.harts)
        for step in range(first, min(first + PER_ROW, self.span.last + 1)):
            if step % TICK == 0 or step == first:
                self.add(
                    'line',
                    x1=self.middle(step),
                    y1=bottom - 6,
                    x2=self.middle(step),
                    y2=bottom - 2,
                    kind='lane',
                )
                self.add(
                    'text', str(step), x=self.middle(step), y=bottom + 8, kind='small', text_anchor='middle'
                )

    def stretches(self) -> None:
        for stretch in self.history.stretches:
            first, last = max(stretch.first, self.span.first), min(stretch.last, self.span.last)
            for begin, end in self.row_parts(first, last):
                top = self.top(self.row_of(begin), stretch.hart)
                self.add(
                    'rect',
                    x=self.left(begin),
                    y=top,
                    width=CELL * (end - begin + 1),
                    height=BLOCK,
                    fill=self.colour(stretch.thread),
                    kind='stretch',
                )

    def row_parts(self, first: int, last: int) -> Iterator[tuple[int, int]]:
        """The steps from first to last, cut where rows end."""
        while first <= last:
            end = min(last, self.span.first + (self.row_of(first) + 1) * PER_ROW - 1)
            yield first, end
            first = end + 1

    def step(self, step: Step) -> None:
        middle, top, colour = self.middle(step.number), self.block_top(step), self.colour(step.thread)
        shape = self.shape_of(step)
        shape(middle, top, colour)
        if step.kind == RUN:
            self.add('text', f'T{step.thread}', x=middle - 8, y=top - 3, kind='small')
        elif step.number in self.history.calls:
            name = name_of(self.history.calls[step.number])
            self.add('text', name, x=middle - CELL / 2, y=top + BLOCK + NAMES + CALLS - 2, kind='small')
        elif step.kind not in (EXEC, DRAIN, PREEMPT):
            self.add(
                'text', step.kind, x=middle - CELL / 2, y=top + BLOCK + NAMES + CALLS - 2, kind='small'
            )

    def shape_of(self, step: Step) -> Shape:
        instruction = self.history.instructions.get(step.number)
        if step.kind in (RUN, PREEMPT):
            return self.bar
        if step.kind == DRAIN:
            return self.triangle
        if step.kind != EXEC:
            return self.other_block
        if instruction is None:
            return self.block
        shapes = (
            (instruction.is_plain_store, self.store_block),
            (instruction.is_fence, self.fence_block),
            (instruction.is_atomic, self.atomic_block),
            (instruction.is_call, self.call_block),
        )
        return next((shape for applies, shape in shapes if applies), self.block)

    def block(self, middle: float, top: float, colour: str, kind: str = 'exec') -> None:
        self.add(
            'rect', x=middle - BLOCK / 2, y=top, width=BLOCK, height=BLOCK, rx=2, fill=colour, kind=kind
        )

    def store_block(self, middle: float, top: float, colour: str) -> None:
        self.block(middle, top, colour, 'store')

    def other_block(self, middle: float, top: float, colour: str) -> None:
        self.block(middle, top, colour, 'other')

    def fence_block(self, middle: float, top: float, colour: str) -> None:
        self.block(middle, top, colour)
        self.add('line', x1=middle, y1=top + 1, x2=middle, y2=top + BLOCK - 1, kind='mark')

    def atomic_block(self, middle: float, top: float, colour: str) -> None:
        self.block(middle, top, colour)
        self.add('circle', cx=middle, cy=top + BLOCK / 2, r=3, fill='#fff')

    def call_block(self, middle: float, top: float, colour: str) -> None:
        half = BLOCK / 2
        points = (
            (middle, top),
            (middle + half, top + half),
            (middle, top + BLOCK),
            (middle - half, top + half),
        )
        self.add('polygon', points=' '.join(f'{number(x)},{number(y)}' for x, y in points), fill=colour)

    def bar(self, middle: float, top: float, colour: str) -> None:
        self.add('rect', x=middle - 3, y=top - 2, width=6, height=BLOCK + 4, fill=colour)

    def triangle(self, middle: float, top: float, colour: str) -> None:
        points = ((middle - 6, top), (middle + 6, top), (middle, top + BLOCK))
        self.add('polygon', points=' '.join(f'{number(x)},{number(y)}' for x, y in points), kind='drain')

    def arcs(self) -> None:
        """An arc from each store to its drain; where one of them isn't in the picture, or in another row,
        it goes to the edge."""
        for store, begin, end, has_begin, has_end in self.arc_parts:
            kind = 'arc waits' if store in self.history.waiting else 'arc'
            self.arc(store, begin, end, has_begin, has_end, kind)

    @cached_property
    def arc_parts(self) -> list[tuple[Step, int, int, bool, bool]]:
        """The parts of arcs in each row: the store, from which step to which, and whether the store and the
        drain are these."""
        drains: list[tuple[Step, int | None]] = [(store, drain) for drain, store in self.history.drained.items()]
        drains += [(store, None) for store in self.history.waiting]
        return [
            (store, begin, end, begin == store.number, end == drain)
            for store, drain in drains
            for begin, end in self.row_parts(
                max(store.number, self.span.first), min(drain or self.span.last, self.span.last)
            )
        ]

    def arc(self, store: Step, begin: int, end: int, has_begin: bool, has_end: bool, kind: str) -> None:
        base = self.top(self.row_of(begin), store.hart) - 1
        left = self.middle(begin) if has_begin else self.left(begin)
        right = self.middle(end) if has_end else self.left(end) + CELL
        height = min(ARCS - 10, 7 + (right - left) / 12)
        path = [
            f'M {number(left)} {number(base)}'
            if has_begin
            else f'M {number(left)} {number(base - height)}',
            f'C {number(left)} {number(base - height * 4 / 3)}'
            if has_begin
            else f'C {number(left)} {number(base - height)}',
            f'{number(right)} {number(base - height * 4 / 3)} {number(right)} {number(base)}'
            if has_end
            else f'{number(right)} {number(base - height)} {number(right)} {number(base - height)}',
        ]
        self.add('path', d=' '.join(path), kind=kind)
        if has_begin:
            self.arc_label(store, (left + right) / 2, base - height - 2)

    def arc_label(self, store: Step, across: float, down: float) -> None:
        place = self.history.program.outer_place(store.pc)
        if place:
            self.add('text', str(place.line), x=across, y=down, kind='small', text_anchor='middle')

    def functions(self) -> None:
        """The name of a function below the first of its steps in a row, as far as there is room for it."""
        for hart in self.harts:
            steps = [step for step in self.steps if step.hart == hart and step.kind == EXEC]
            named = itertools.groupby(
                steps, lambda step: (self.row_of(step.number), self.history.program.function(step.pc))
            )
            starts = [(name, row, next(group)) for (row, name), group in named]
            for at, (name, row, step) in enumerate(starts):
                following = starts[at + 1] if at + 1 < len(starts) else None
                right: float = self.width - MARGIN
                if following is not None and following[1] == row:
                    right = self.left(following[2].number)
                self.function(name, step, right)

    def function(self, name: str, step: Step, right: float) -> None:
        left = self.left(step.number) + 1
        letters = int((right - left) / LETTER)
        shown = name if len(name) <= letters else name[: letters - 1] + '…'
        if len(shown) >= min(len(name), FEWEST_LETTERS):
            self.add('text', shown, x=left, y=self.block_top(step) + BLOCK + NAMES - 2)

    def foot(self) -> None:
        top = self.height - self.foot_height
        for line, words in enumerate(self.foot_lines(), 1):
            self.add('text', words, x=MARGIN, y=top + FOOT_LINE * line)

    def foot_lines(self) -> list[str]:
        """How the run ends, and what of the picture the legend doesn't say, where it has it."""
        output, last = self.history.output, self.span.last
        end = f'end {output.end}; console {shown_console(output.console)}'
        waiting = [part for part in self.arc_parts if part[0] in self.history.waiting]
        is_cut = any(not (has_begin and has_end) for _, _, _, has_begin, has_end in self.arc_parts)
        has_numbers = self.arc_parts and self.history.program.lines.rows
        said = (
            (True, f'{end if last == len(output.steps) else "The run goes on"}.'),
            (self.steps, 'Below the steps stand their functions.'),
            (self.arc_parts, 'An arc goes from a store to where it enters memory.'),
            (has_numbers, 'The number over it is the line of the store in the source.'),
            (is_cut, 'At the edge it goes on in another row, or outside of the picture.'),
            (waiting, 'A dashed one is of a store that still waits at the end of the run.'),
        )
        return textwrap.wrap(' '.join(words for applies, words in said if applies), FOOT_LETTERS)


def number(value: object) -> str:
    return f'{value:.1f}'.removesuffix('.0') if isinstance(value, float) else str(value)


def draw_run(history: History, first: int | None = None, last: int | None = None) -> str:
    """The SVG text of a picture of these steps."""
    return Picture(history, choose_span(len(history.output.steps), first, last)).draw()

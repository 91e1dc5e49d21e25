"""A run as a listing: one line a step, one column a hart."""
from __future__ import annotations

from collections.abc import Iterator, Set
from dataclasses import dataclass
from functools import cache
from typing import NamedTuple

from .calls import name_of
from .history import History
from .output import DRAIN, EXEC, PREEMPT, RUN, Step, shown_console
from .values import Values

CONTEXT = 12
SOURCE_SHOWN = 72
"""So many characters of the name and the text of a source line are shown. The line that calls a helper comes
in addition."""


@dataclass(frozen=True)
class Selection:
    """Which steps are listed: those round one, from one to another, of one hart, of one thread, and of some
    numbers."""

    around: int | None = None
    context: int = CONTEXT
    hart: int | None = None
    thread: int | None = None
    first: int | None = None
    last: int | None = None
    numbers: Set[int] | None = None

    def steps(self, steps: list[Step]) -> list[Step]:
        first, last = self.first or 1, len(steps) if self.last is None else self.last
        if self.around is not None:
            first, last = max(first, self.around - self.context), min(last, self.around + self.context)
        return [step for step in steps[first - 1 : last] if self.has(step)]

    def has(self, step: Step) -> bool:
        is_chosen = self.numbers is None or step.number in self.numbers
        return is_chosen and self.hart in (None, step.hart) and self.thread in (None, step.thread)


class Row(NamedTuple):
    """One line: what the hart did, of which thread, and where."""

    step: Step
    deed: str
    where: str
    source: str


def deed(history: History, step: Step) -> str:
    """What a step does, in a few words."""
    if step.kind == DRAIN:
        store = history.drained[step.number]
        return f'drain {history.instructions[store.number].text}'
    if step.kind == EXEC and step.number in history.instructions:
        text = history.instructions[step.number].text
        return f'{text} {name_of(history.calls[step.number])}' if step.number in history.calls else text
    words = f'{step.kind} {step.thread}' if step.kind in (RUN, PREEMPT) else step.kind
    sent = history.sent.get(step.number)
    return words if sent is None else f'{words}, to {history.program.where(sent)}'


def source(history: History, address: int) -> str:
    """The name, number and text of a source line, shortened where it is long."""
    program = history.program
    text, place = program.source(address), program.place(address)
    most = SOURCE_SHOWN + (len(program.line_name(address)) - len(place.name) if place else 0)
    return text if len(text) <= most else f'{text[: most - 3].rstrip()} ..'


def make_row(history: History, step: Step) -> Row:
    """A drain shows where its store stands, and a start where the thread goes on."""
    store = history.drained.get(step.number)
    pc = store.pc if store else step.pc
    if not step.thread and not store:
        return Row(step, deed(history, step), '', '')
    where = history.program.where(pc)
    return Row(
        step, deed(history, step), f'{where}, step {store.number}' if store else where, source(history, pc)
    )


class Rows:
    """Makes the rows of a run. What an instruction shows is made once for each."""

    def __init__(self, history: History):
        self.history = history
        self.of_instruction = cache(self.find_instruction)

    def row(self, step: Step) -> Row:
        history = self.history
        is_plain = step.number in history.instructions and step.number not in history.calls
        return Row(step, *self.of_instruction(step.pc)) if is_plain else make_row(history, step)

    def find_instruction(self, pc: int) -> tuple[str, str, str]:
        program = self.history.program
        instruction = program.instruction(pc)
        return instruction.text if instruction else '', program.where(pc), source(self.history, pc)


def list_run(history: History, selection: Selection, values: Values | None = None) -> Iterator[str]:
    """The lines of a listing, with what the program printed and its end where nothing behind the rows is
    left out; and with what each step read and wrote, where that is known."""
    made = Rows(history)
    rows = [made.row(step) for step in selection.steps(history.output.steps)]
    memory = [values.words(row.step) for row in rows] if values else [''] * len(rows)
    columns = Columns(rows, {'memory', *memory} if values else None)
    yield f'{"step":>7}  {"thread":>6}  {columns.heads()}'
    yield from columns.lines(rows, memory)
    yield ''
    yield summary(history, len(rows))


class Columns:
    """The columns of a listing: one for each hart that does something, one for what was read and written
    where that is told, and where it stands. Each is as wide as it has to be. What is the same in many lines
    is made once."""

    def __init__(self, rows: list[Row], memory: Set[str] | None):
        self.widths = {hart: len(f'hart {hart}') for hart in sorted({row.step.hart for row in rows})}
        for hart, words in {(row.step.hart, row.deed) for row in rows}:
            self.widths[hart] = max(self.widths[hart], len(words))
        self.memory = max(map(len, memory), default=0) if memory else None
        self.where = max(map(len, {row.where for row in rows}), default=0)
        self.of_hart, self.behind = cache(self.make_of_hart), cache(self.make_behind)

    def heads(self) -> str:
        """The line over the columns."""
        harts = self.harts({hart: f'hart {hart}' for hart in self.widths})
        middle = '' if self.memory is None else f'{"memory".ljust(self.memory)} | '
        return f'{harts} | {middle}{self.make_behind("at", "source")}'

    def lines(self, rows: list[Row], memory: list[str]) -> Iterator[str]:
        of_hart, behind, width = self.of_hart, self.behind, self.memory
        for ((number, hart, _, thread, _), words, place, text), told in zip(rows, memory):
            middle = '' if width is None else f'{told.ljust(width)} | '
            line = f'{number:>7}  {thread or "":>6}  {of_hart(hart, words)} | {middle}{behind(place, text)}'
            yield line.rstrip()

    def harts(self, cells: dict[int, str]) -> str:
        return ' | '.join(cells.get(hart, '').ljust(width) for hart, width in self.widths.items())

    def make_of_hart(self, hart: int, words: str) -> str:
        return self.harts({hart: words})

    def make_behind(self, place: str, text: str) -> str:
        return f'{place.ljust(self.where)}  {text}'


def summary(history: History, shown: int) -> str:
    """How the run ended, what still waits, and how much of it stands above."""
    output = history.output
    parts = [
        f'{shown} of {len(output.steps)} steps',
        f'end {output.end}',
        f'console {shown_console(output.console)}',
    ]
    if history.waiting:
        parts.append(f'{len(history.waiting)} stores still wait')
    return '; '.join(parts)

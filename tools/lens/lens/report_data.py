"""What a page about a run shows, as plain data: its steps, its stores, what happens between harts, and what
changes at each step."""
from __future__ import annotations

from collections.abc import Iterator
from dataclasses import dataclass
from typing import Any

from .calls import NAMES_OF
from .facts import BarrierBegins, Signal, Taken
from .history import History
from .listing import Rows
from .memory_history import Store
from .output import DONE, EXEC, TAKE, Step
from .program import SMALL, WORD, Program
from .report_changes import Changes, Watched, changes_of
from .report_steps import shown_steps
from .sequences import ending, form_of, sequences, words_of
from .timeline import Timeline
from .values import Values

PLAIN = 'plain'
Data = dict[str, Any]


@dataclass(frozen=True)
class Reported:
    """A run as a page shows it: its timeline, what its steps read and wrote, why it ended, and what is watched."""

    timeline: Timeline
    values: Values
    why: list[str]
    watches: list[Watched]

    @property
    def history(self) -> History:
        return self.values.history

    @property
    def program(self) -> Program:
        return self.values.history.program


class Table:
    """Texts that come again and again, each once."""

    def __init__(self) -> None:
        self.indexes: dict[Any, int] = {}

    def index(self, row: Any) -> int:
        return self.indexes.setdefault(row, len(self.indexes))

    def rows(self) -> list[Any]:
        return list(self.indexes)


def run_data(reported: Reported) -> Data:
    """All that a page shows of a run."""
    timeline, output = reported.timeline, reported.history.output
    numbers = shown_steps(reported.values, timeline, reported.why, reported.watches)
    places, shown = [0, *numbers], set(numbers)
    changes = changes_of(reported.program, timeline, places, output.harts, reported.watches)
    return {
        'size': timeline.size,
        'harts': output.harts,
        'threads': sorted(timeline.threads),
        'watched': [[watch.name, [name for name, _, _ in watch.parts]] for watch in reported.watches],
        **step_data(reported, numbers),
        'stores': list(store_rows(reported, places)),
        'sequences': list(sequence_rows(reported, shown)),
        'barriers': [row for row in barrier_rows(reported.values) if not shown.isdisjoint((row[0], *row[1], row[2]))],
        'signals': [row for row in signal_rows(reported.values) if not shown.isdisjoint(row[:2])],
        'changes': changes,
        'names': names_of(reported.program, changes),
    }


def step_data(reported: Reported, numbers: list[int]) -> Data:
    """The steps: number, hart, thread, and which of `rows` and of `words` each has. A row has the shape of a
    step, what it does, where, and the source line."""
    history, rows, words = reported.history, Table(), Table()
    made = Rows(history)
    steps = []
    for number in numbers:
        step = history.output.steps[number - 1]
        row = made.row(step)
        at = rows.index((shape_of(history, step), row.deed, row.where, row.source))
        steps.append([number, step.hart, step.thread, at, words.index(step_words(reported, step))])
    return {'steps': steps, 'rows': rows.rows(), 'words': words.rows()}


def step_words(reported: Reported, step: Step) -> str:
    """What a step answered, read and wrote, in words."""
    call = reported.timeline.call(step.number)
    answered = f'{call.name}: {call.answer or "no answer"}' if call else ''
    return '; '.join(filter(None, [answered, reported.values.words(step)]))


def shape_of(history: History, step: Step) -> str:
    """Of an event its kind; of an instruction whether it is a store, a fence, an atomic one or a call."""
    instruction = history.instructions.get(step.number)
    if step.kind != EXEC:
        return step.kind
    if instruction is None:
        return PLAIN
    shapes = (
        (instruction.is_plain_store, 'store'),
        (instruction.is_fence, 'fence'),
        (instruction.is_atomic, 'atomic'),
        (instruction.is_call, 'call'),
    )
    return next((shape for applies, shape in shapes if applies), PLAIN)


def store_rows(reported: Reported, places: list[int]) -> Iterator[list[Any]]:
    """The stores that wait at a shown place: hart, the step that executed it and that which entered it (0
    where none did), what it writes, its bytes, and where it is in the program."""
    timeline = reported.timeline
    for hart, buffer in enumerate(timeline.memory.buffers):
        waiting = {store for place in places for store in buffer.waiting(place)}
        for store in sorted(waiting, key=lambda store: store.executed):
            words, bytes_ = stored(reported.program, store), f'{store.size} at {store.at:#x}: {store.value:#x}'
            spot = reported.program.spot(timeline.event(store.executed).pc)
            yield [hart, store.executed, store.entered or 0, words, bytes_, spot]


def stored(program: Program, store: Store) -> str:
    """What a store writes."""
    return f'{program.bytes_of(store.at, store.size)} = {program.number(store.value, store.size)}'


def sequence_rows(reported: Reported, shown: set[int]) -> Iterator[list[Any]]:
    """The restartable sequences of which a step is shown: the first and the last step, hart, thread, what
    became of it, in a word and in a sentence, and its name."""
    values = reported.values
    for ended in sequences(values.trace):
        if not shown.isdisjoint(range(ended.first, ended.last + 1)):
            first = reported.history.output.steps[ended.first - 1]
            form, name = form_of(values, ended), words_of(values, ended)
            yield [ended.first, ended.last, first.hart, first.thread, form, ending(values, ended), name]


def barrier_rows(values: Values) -> Iterator[list[Any]]:
    """The barriers: the step of the call, those by which harts take its requests, and that with which it
    returns (0 where it doesn't)."""
    begun: dict[int, list[Any]] = {}
    made: list[list[Any]] = []
    for record in values.trace.records:
        step = record.step
        if record.first(BarrierBegins):
            begun[step.hart] = [step.number, [], 0]
            made.append(begun[step.hart])
        elif step.kind == TAKE:
            for hart in (hart for taken in record.of_kind(Taken) for hart in taken.harts):
                begun[hart][1].append(step.number)
        elif step.kind == DONE:
            begun.pop(step.hart)[2] = step.number
    yield from made


def signal_rows(values: Values) -> Iterator[list[Any]]:
    """The signals: the step that posts it, that which delivers it (0 where none does), its thread, and its
    name."""
    posted: dict[tuple[int, int], list[Any]] = {}
    made: list[list[Any]] = []
    for record in values.trace.records:
        for fact in record.of_kind(Signal):
            key = fact.thread or record.step.thread, fact.number
            if fact.word == 'posted':
                posted[key] = [record.step.number, 0, key[0], NAMES_OF['signal'](fact.number)]
                made.append(posted[key])
            elif fact.word == 'delivered' and key in posted:
                posted.pop(key)[1] = record.step.number
            else:
                posted.pop(key, None)
    yield from made


def names_of(program: Program, changes: list[Changes]) -> dict[str, str]:
    """The variables and functions whose addresses come up, by these."""
    numbers = {value for change in changes for value in change.values() if value.startswith('0x')}
    named = {value: program.number(int(value, 16), WORD) for value in numbers if int(value, 16) >= SMALL}
    return {value: name for value, name in sorted(named.items()) if name.startswith('&')}

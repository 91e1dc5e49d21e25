"""What `why`, `calls`, `sequences`, `watch` and `races` find, as data for other programs: `--json`.

Each has a schema in `schemas`. Addresses and values are texts in hexadecimal, since they have up to 64 bits;
numbers of steps, harts and threads are numbers.
"""
from __future__ import annotations

import json
from collections.abc import Iterator
from typing import Any

from .call_list import Call, answer_word, asked
from .calls import ERRORS, WRITES, name_of
from .causes import explain
from .history import History
from .listing import Selection
from .machine import Machine
from .marks import Marks
from .ordering import Access as Ordered
from .output import DRAIN
from .races import Race, mark_of, races
from .report_steps import named_steps
from .sequences import begun, ending, form_of, sequences
from .traced_calls import traced_calls
from .values import Values
from .watching import Access, accesses, watched

Json = dict[str, Any]


def json_text(data: Json) -> Iterator[str]:
    """The data as a text of two spaces a level."""
    yield json.dumps(data, indent=2)
    yield '\n'


def about(history: History) -> Json:
    """Which run it is."""
    output = history.output
    return {'run': output.name, 'program': history.program.path, 'steps': len(output.steps), 'end': output.end}


def place(history: History, pc: int) -> Json:
    """Where an instruction is: its address, its function with an offset, and the line of the file that was
    compiled, null where the ELF file says none."""
    program = history.program
    line = program.outer_place(pc)
    named = {'file': line.name.rpartition(':')[0], 'line': line.line} if line else {'file': None, 'line': None}
    return {'pc': hex(pc), 'where': program.where(pc), **named}


def why_data(history: History, machine: Machine) -> Json:
    """The sentences of why a run ended as it did; `is_detail` are those that only say more of the one before."""
    told = [
        {'text': text.strip(), 'is_detail': text.startswith(' '), 'steps': list(named_steps([text]))}
        for text in explain(history, machine)
    ]
    return {**about(history), 'sentences': told}


def calls_data(values: Values, thread: int | None) -> Json:
    """The calls of a thread, or of all."""
    rows, printed = [], 0
    for call in traced_calls(values):
        text = None
        if call.number in WRITES and not call.is_error and call.answer is not None:
            text = values.history.output.console[printed : printed + call.answer]
            printed += call.answer
        if thread in (None, call.step.thread):
            rows.append(call_row(values, call, text))
    return {**about(values.history), 'calls': rows}


def call_row(values: Values, call: Call, text: bytes | None) -> Json:
    history, step = values.history, call.step
    error = 2**64 - call.answer if call.is_error and call.answer is not None else None
    words = f'{asked(history.program, call.number, call.arguments, text)} = {answer_word(history.program, call)}'
    return {
        'step': step.number,
        'hart': step.hart,
        'thread': step.thread,
        'number': call.number,
        'name': name_of(call.number),
        'arguments': list(map(hex, call.arguments)),
        'answer': None if call.answer is None else hex(call.answer),
        'error': None if error is None else ERRORS.get(error, f'error {error}'),
        'words': words,
        'place': place(history, step.pc),
    }


def sequences_data(values: Values, thread: int | None) -> Json:
    """The restartable sequences of a thread, or of all."""
    rows = []
    for ended in sequences(values.trace):
        first, range_ = values.history.output.steps[ended.first - 1], begun(values, ended)
        if thread in (None, first.thread):
            row = {
                'first': ended.first,
                'last': ended.last,
                'hart': first.hart,
                'thread': first.thread,
                'start': place(values.history, range_.start),
                'length': range_.length,
                'abort': place(values.history, range_.abort),
                'form': form_of(values, ended),
                'words': ending(values, ended),
            }
            rows.append(row)
    return {**about(values.history), 'sequences': rows}


def watch_data(values: Values, name: str, selection: Selection) -> Json:
    """The accesses to a variable in the steps that are chosen."""
    history = values.history
    range_ = watched(history.program, name)
    chosen = {step.number for step in selection.steps(history.output.steps)}
    rows = [access_row(values, one) for one in accesses(values, range_) if one.step.number in chosen]
    return {**about(history), 'name': name, 'at': hex(range_.at), 'size': range_.size, 'accesses': rows}


def access_row(values: Values, access: Access) -> Json:
    history, step = values.history, access.step
    pc = history.drained[step.number].pc if step.kind == DRAIN else step.pc
    return {
        'step': step.number,
        'hart': step.hart,
        'thread': step.thread or None,
        'access': access.kind,
        'name': values.place(access.at, access.size),
        'at': hex(access.at),
        'size': access.size,
        'value': hex(access.value),
        'from': access.source,
        'place': place(history, pc),
    }


def races_data(values: Values, is_plain: bool) -> Json:
    """The pairs of lines that nothing orders; with `is_plain` without those that are on purpose on both
    sides."""
    marks = Marks(values.history.program)
    rows = [race_row(values, marks, race) for race in races(values)]
    shown = [row for row in rows if not (is_plain and row['is_on_purpose'])]
    return {**about(values.history), 'pairs': shown, 'left_out': len(rows) - len(shown)}


def race_row(values: Values, marks: Marks, race: Race) -> Json:
    both = [ordered_row(values, marks, access) for access in (race.first, race.second)]
    is_on_purpose = all(one['mark'] for one in both)
    names = list(dict.fromkeys(race.places))
    return {'names': names, 'times': race.times, 'is_on_purpose': is_on_purpose, 'accesses': both}


def ordered_row(values: Values, marks: Marks, access: Ordered) -> Json:
    return {
        'step': access.step.number,
        'store': access.store,
        'hart': access.step.hart,
        'thread': access.step.thread,
        'kind': access.kind,
        'mark': mark_of(marks, access),
        'at': hex(access.at),
        'size': access.size,
        'place': place(values.history, access.pc),
    }

"""The restartable sequences of a run: where each is by name, how it went and how it ended."""
from __future__ import annotations

from collections.abc import Iterator

from .facts import SequenceBegins, SequenceEnds
from .faults import LensFault
from .history import History
from .listing import deed
from .output import EXEC, PREEMPT, RUN, SIGNAL, TAKE, Step
from .trace_text import Trace
from .values import Values

INTERRUPTIONS = (PREEMPT, SIGNAL, TAKE, RUN)
SIZE = 4
LEFT, COMMITTED = 'left', 'committed'


def list_sequences(values: Values, thread: int | None, is_with_values: bool) -> Iterator[str]:
    """A line for each sequence of a thread, or of all; and below it one for each of its steps that read or
    wrote, where that is asked for."""
    history, steps = values.history, values.history.output.steps
    every = sequences(values.trace)
    chosen = [ended for ended in every if thread in (None, steps[ended.first - 1].thread)]
    rows = [(ended, steps[ended.first - 1], words_of(values, ended), place_of(values, ended)) for ended in chosen]
    width = max((len(words) for _, _, words, _ in rows), default=len('sequence'))
    places = max(len('source'), *(len(place) for *_, place in rows), 0)
    yield f'{"steps":>15}  {"thread":>6}  {"hart":>4}  {"sequence":<{width}}  {"source":<{places}}  how it ended'
    for ended, first, words, place in rows:
        span = f'{ended.first} to {ended.last}'
        shown = f'{span:>15}  {first.thread:>6}  {first.hart:>4}  {words:<{width}}  {place:<{places}}'
        yield f'{shown}  {ending(values, ended)}'
        if is_with_values:
            yield from accesses(values, ended)
    yield ''
    yield f'{counted(values, chosen)}; end {history.output.end}'


def sequences(trace: Trace) -> list[SequenceEnds]:
    """The sequences of a run, in the order of their first steps."""
    ended = (fact for record in trace.records for fact in record.of_kind(SequenceEnds))
    return sorted(ended, key=lambda fact: fact.first)


def accesses(values: Values, ended: SequenceEnds) -> Iterator[str]:
    """What the instructions of a sequence read and wrote, and which stores entered meanwhile."""
    steps = values.history.output.steps
    for step in steps[ended.first - 1 : ended.last]:
        words = values.words(step) if step.hart == steps[ended.first - 1].hart else ''
        if words:
            yield f'{step.number:>15}  {deed(values.history, step)}  {words}'


def begun(values: Values, ended: SequenceEnds) -> SequenceBegins:
    found = values.trace.records[ended.first - 1].first(SequenceBegins)
    if found is None:
        raise LensFault(f'the trace has a sequence that ends, and none begins in line {ended.first}')
    return found


def words_of(values: Values, ended: SequenceEnds) -> str:
    """A sequence by the names of its first instruction and of its last."""
    program, range_ = values.history.program, begun(values, ended)
    first, last = program.where(range_.start), program.where(last_of(range_))
    return f'{first} to {last}, {range_.length // SIZE} instructions'


def place_of(values: Values, ended: SequenceEnds) -> str:
    """The source line of a sequence; of one in a helper, first that of the file that was compiled."""
    return values.history.program.line_name(begun(values, ended).start)


def last_of(range_: SequenceBegins) -> int:
    """The last instruction of a sequence, which commits it."""
    return range_.start + range_.length - SIZE


def form_of(values: Values, ended: SequenceEnds) -> str:
    """How a sequence ended: in place of `left` it is `committed` where its last instruction was executed."""
    last = values.history.output.steps[ended.last - 1]
    is_whole = last.kind == EXEC and last.pc == last_of(begun(values, ended))
    return COMMITTED if ended.form == LEFT and is_whole else ended.form


def ending(values: Values, ended: SequenceEnds) -> str:
    """How a sequence ended, and where its thread was."""
    history, program = values.history, values.history.program
    last = history.output.steps[ended.last - 1]
    match form_of(values, ended):
        case 'committed':
            return COMMITTED
        case 'left':
            return f'left at {program.where(last.pc)}'
        case 'cut':
            by = interruption(history, ended)
            goes_on = '' if ended.abort is None else f'; goes on at {program.where(ended.abort)}'
            return f'cut before {program.where(by.pc)} by {by.kind} (step {by.number}){goes_on}'
        case 'dropped':
            return f'dropped behind {program.where(last.pc)}: what the area names changed'
        case 'dead':
            return f'ended the process at {program.where(last.pc)}'
    return f'not over where the log ends, at {program.where(last.pc)}'


def interruption(history: History, ended: SequenceEnds) -> Step:
    """The event by which the thread of a sequence that was cut left its hart, or was sent elsewhere."""
    later, thread = history.output.steps[ended.last - 1 :], history.output.steps[ended.first - 1].thread
    own = (step for step in later if step.thread == thread and step.kind != EXEC)
    return next((step for step in own if step.kind in INTERRUPTIONS), later[0])


def counted(values: Values, ended: list[SequenceEnds]) -> str:
    """How many sequences there are, and how many of them ended how."""
    forms = [form_of(values, one) for one in ended]
    parts = [f'{forms.count(form)} {form}' for form in dict.fromkeys(forms)]
    return f'{len(ended)} sequences' + (f': {", ".join(parts)}' if parts else '')

"""What a run read and wrote, in words: the variable of an access, its value, and where the value came from.
"""
from __future__ import annotations

from functools import cache

from .calls import name_of
from .facts import MEMORY, START, Called, Fact, Read, Reservation, Waits, Wrote, Zeroed
from .faults import LensFault
from .history import History
from .machine import Machine
from .output import DRAIN, EXEC, Step
from .trace_text import Record, Trace

TOLD = {Waits, Wrote, Zeroed, Reservation}
"""The facts beside reads of which a listing says something."""
BEHIND = '  x'
"""How the line of a register begins. Accesses are told before registers, so an event that begins with one has
none."""


class Values:
    """A run, and what its events read and wrote."""

    def __init__(self, history: History, trace: Trace):
        self.history = history
        self.trace = trace
        # (loads see the same write again and again)
        self.writer = cache(self.find_writer)

    def record(self, step: Step) -> Record:
        return self.trace.records[step.number - 1]

    def number(self, value: int, size: int) -> str:
        """A value of so many bytes, in words."""
        return self.history.program.number(value, size)

    def place(self, at: int, size: int) -> str:
        """The variable, or the member of one, that has so many bytes: where none has just these, the bytes
        of a variable."""
        return self.history.program.bytes_of(at, size)

    def find_writer(self, line: int) -> str:
        """The event of a line that wrote into memory."""
        step = self.history.output.steps[line - 1]
        if step.kind == DRAIN:
            store = self.history.drained[line]
            return f'store of step {store.number} by thread {store.thread}'
        if self.is_own(step):
            return f'{self.mnemonic(step)} of step {line} by thread {step.thread}'
        return f'kernel in step {line} ({self.event(step)})'

    def is_own(self, step: Step) -> bool:
        """Whether what a step wrote is its instruction's, and not the kernel's."""
        instruction = self.history.instructions.get(step.number)
        return step.kind == DRAIN or bool(instruction and not instruction.is_call)

    def mnemonic(self, step: Step) -> str:
        return self.history.instructions[step.number].text.split(' ')[0]

    def event(self, step: Step) -> str:
        """The kind of an event, or the name of the call."""
        if step.kind != EXEC:
            return step.kind
        call = self.record(step).first(Called)
        return call.name if call else name_of(None)

    def source(self, read: Read) -> str:
        """Where the value of a read came from."""
        if read.source == START or read.line is None:
            return 'since the start'
        return self.writer(read.line) if read.source == MEMORY else f'own store of step {read.line}'

    def sources(self, reads: list[Read]) -> str:
        """Where the bytes of one access came from."""
        if len(reads) == 1:
            return self.source(reads[0])
        return ' and '.join(dict.fromkeys(map(self.source, reads)))

    def words(self, step: Step) -> str:
        """What a step read and wrote, in a few words; empty where that is nothing."""
        record = self.trace.records[step.number - 1]
        if record.lines.startswith(BEHIND) or not record.lines:
            return ''
        facts = record.facts
        reads = [fact for fact in facts if type(fact) is Read]
        others = [fact for fact in facts if type(fact) in TOLD]
        written = [words for fact in others if (words := self.of_fact(fact, bool(reads)))]
        read = self.of_reads(reads) if reads else ''
        if not written:
            return read
        put = ('' if self.is_own(step) else 'kernel: ') + ', '.join(written)
        return f'{read}; {put}' if read else put

    def of_reads(self, reads: list[Read]) -> str:
        """What one access read, which may be bytes from several places."""
        whole = joined(reads)
        return f'{self.put(whole.at, whole.size, whole.value)}, {self.sources(reads)}'

    def put(self, at: int, size: int, value: int) -> str:
        """What stands in some bytes."""
        return ', '.join(f'{name} = {number}' for name, number in self.held(at, size, value))

    def held(self, at: int, size: int, value: int) -> list[tuple[str, str]]:
        """What each variable or member in some bytes holds, which are one, or two or more members."""
        program = self.history.program
        parts = program.members_of(at, size) or [(program.bytes_of(at, size), at, size)]
        values = [value >> 8 * (start - at) & ((1 << 8 * length) - 1) for _, start, length in parts]
        return [(name, program.number(one, length)) for (name, _, length), one in zip(parts, values)]

    def before(self, at: int, size: int, old: int) -> str:
        """What was in some bytes before a write; of two or more members, of each."""
        return ' and '.join(number for _, number in self.held(at, size, old))

    def of_fact(self, fact: Fact, is_read: bool) -> str:
        """A write, or an SC that failed. Behind a read the place of a write isn't named again."""
        match fact:
            case Waits():
                return f'{self.put(*fact)}, waits'
            case Wrote():
                at, size, value, old, _ = fact
                if is_read:
                    return f'then {self.before(at, size, value)}'
                put = self.put(at, size, value)
                return put if old is None else f'{put} in place of {self.before(at, size, old)}'
            case Zeroed(at, length):
                return f'{length} bytes of 0 at {self.history.program.variable(at)}'
            case Reservation('failed', at):
                return f'{self.history.program.variable(at)}, failed'
        return ''


def joined(reads: list[Read]) -> Read:
    """The facts of one read as one, which are bytes that stand side by side."""
    first = reads[0]
    if len(reads) == 1:
        return first
    value = sum(read.value << 8 * (read.at - first.at) for read in reads)
    return first._replace(size=sum(read.size for read in reads), value=value)


def read_values(history: History, machine: Machine) -> Values:
    """Asks the program what each step of a run did; a fault where that isn't the run."""
    steps = history.output.steps
    trace = machine.trace([step.line() for step in steps])
    if [record.step for record in trace.records] != steps:
        raise LensFault(f'what {machine.program} traces isn\'t the run of {history.output.name}')
    return Values(history, trace)

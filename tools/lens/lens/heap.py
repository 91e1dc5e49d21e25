"""What a program has of its heap at each step: which blocks its calls of `malloc` and `free` gave and took
back, by the symbols of the file."""
from __future__ import annotations

from collections.abc import Iterator
from dataclasses import dataclass, field
from math import prod

from .facts import Register
from .faults import LensFault
from .instructions import SIZE
from .output import EXEC, Step
from .program import Program
from .values import Values

RA, SP, A0, A1 = 1, 2, 10, 11
GIVE = {'malloc': (A0,), 'calloc': (A0, A1), 'realloc': (A1,), 'aligned_alloc': (A1,), 'memalign': (A1,)}
"""The functions that give a block, and the registers whose product is its size."""
TAKE = ('free', 'realloc')
WRAP = '__wrap_'
"""How a function begins that the linker puts in the place of another (`--wrap`)."""


@dataclass(frozen=True)
class Block:
    """Bytes that were given by a call: the step in which that began, and the instruction that made it."""

    at: int
    size: int
    step: Step
    caller: int

    def has(self, at: int, size: int) -> bool:
        return at < self.at + self.size and self.at < at + size


@dataclass(frozen=True)
class Freed:
    """A block that was freed: the step in which that call began, and the instruction that made it."""

    block: Block
    step: Step
    caller: int


@dataclass(frozen=True)
class Again:
    """A call that frees what is freed already: the step in which it began, the instruction that made it, and
    who freed the block before."""

    step: Step
    caller: int
    before: Freed


@dataclass
class Call:
    """A call of one of these functions that hasn't returned: its name, where it returns to, the stack there,
    and the registers when it began."""

    name: str
    step: Step
    back: int
    stack: int
    registers: dict[int, int]

    @property
    def caller(self) -> int:
        """The instruction that made it."""
        return self.back - SIZE

    def returns_at(self, pc: int, stack: int) -> bool:
        return pc == self.back and self.stack in (0, stack)


@dataclass
class Heap:
    """The blocks, and the calls that are under way, by thread."""

    program: Program
    functions: dict[int, str] = field(default_factory=dict)
    registers: dict[int, dict[int, int]] = field(default_factory=dict)
    given: dict[int, Block] = field(default_factory=dict)
    freed: dict[int, Freed] = field(default_factory=dict)
    calls: dict[int, list[Call]] = field(default_factory=dict)
    again: Again | None = None
    """The call that begins in this step and frees what is freed already."""

    def __post_init__(self) -> None:
        for symbol in self.program.symbols:
            name = symbol.name.removeprefix(WRAP)
            if symbol.is_function and (name in GIVE or name in TAKE):
                self.functions[symbol.address] = name
        if not {'malloc', 'free'} <= set(self.functions.values()):
            known = 'by these it is known what is freed'
            raise LensFault(f'{self.program.path} has no functions `malloc` and `free`: {known}')

    def is_inside(self, thread: int) -> bool:
        """Whether a thread is in a call of one of the functions."""
        return bool(self.calls.get(thread))

    def before(self, step: Step) -> None:
        """What a thread begins or ends by standing at an instruction."""
        self.again = None
        registers = self.registers.setdefault(step.thread, {})
        calls = self.calls.setdefault(step.thread, [])
        if calls and calls[-1].returns_at(step.pc, registers.get(SP, 0)):
            call = calls.pop()
            if not calls:
                self.give(call, registers.get(A0, 0))
        name = self.functions.get(step.pc)
        if name is None:
            return
        call = Call(name, step, registers.get(RA, 0), registers.get(SP, 0), dict(registers))
        if not calls and name in TAKE:
            self.take(call)
        calls.append(call)

    def give(self, call: Call, at: int) -> None:
        """A call has returned: what it gives isn't freed any more; nor what a `realloc` keeps that gives
        none."""
        if call.name not in GIVE:
            return
        if not at:
            kept = self.freed.pop(call.registers.get(A0, 0), None) if call.name == 'realloc' else None
            if kept:
                self.given[kept.block.at] = kept.block
            return
        size = prod(call.registers.get(number, 0) for number in GIVE[call.name])
        block = Block(at, size, call.step, call.caller)
        self.freed = {start: one for start, one in self.freed.items() if not one.block.has(at, max(size, 1))}
        self.given[at] = block

    def take(self, call: Call) -> None:
        """A call has begun: the block that it is given is freed."""
        at = call.registers.get(A0, 0)
        block = self.given.pop(at, None)
        if block:
            self.freed[block.at] = Freed(block, call.step, call.caller)
        elif at in self.freed:
            self.again = Again(call.step, call.caller, self.freed[at])

    def freed_at(self, at: int, size: int) -> Freed | None:
        """The freed block that has one of some bytes."""
        return next((one for one in self.freed.values() if one.block.has(at, size)), None)


def heaps(values: Values) -> Iterator[tuple[Step, Heap]]:
    """Each step with the heap at it."""
    heap = Heap(values.history.program)
    for record in values.trace.records:
        step = record.step
        if step.kind == EXEC:
            heap.before(step)
        yield step, heap
        for fact in record.of_kind(Register):
            thread = step.thread if fact.thread is None else fact.thread
            heap.registers.setdefault(thread, {})[fact.number] = fact.value

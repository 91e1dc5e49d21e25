"""What a run's log and its program's instructions say together: which store a drain enters, which call an
ECALL is, and how long a thread ran on a hart."""
from __future__ import annotations

from collections import defaultdict, deque
from collections.abc import Iterator
from dataclasses import dataclass, field
from functools import cached_property

from .calls import RT_SIGRETURN
from .faults import LensFault
from .instructions import A7, Instruction
from .output import DRAIN, EXEC, PREEMPT, RUN, SIGNAL, TAKE, Output, Step
from .program import Program


@dataclass(frozen=True)
class Stretch:
    """A thread on a hart, from its `run` to the last event of the hart before the next `run`."""

    hart: int
    thread: int
    first: int
    last: int


@dataclass
class History:
    """Steps by number throughout; `instructions` has those of `exec` alone."""

    output: Output
    program: Program
    instructions: dict[int, Instruction] = field(default_factory=dict)
    drained: dict[int, Step] = field(default_factory=dict)
    """The store that a drain enters, by the drain's number."""
    waiting: list[Step] = field(default_factory=list)
    """The stores that still wait at the end."""
    calls: dict[int, int | None] = field(default_factory=dict)
    """The number of a call, where the thread's last write to a7 was an immediate."""
    sent: dict[int, int] = field(default_factory=dict)
    """Where a `run`, a `take` or a `signal` sent its thread, where that isn't where it stood: a restart, or a
    handler."""

    @cached_property
    def stretches(self) -> list[Stretch]:
        return list(stretches(self.output))

    def store_drains(self) -> dict[int, int]:
        """The number of the drain that enters a store, by the store's number."""
        return {store.number: drain for drain, store in self.drained.items()}


def make_history(output: Output, program: Program) -> History:
    """Reads the log along the program; a fault where it isn't a run of this program."""
    history = History(output, program)
    next_pcs = pcs_after(output)
    note_instructions(history)
    note_calls(history)
    check_pcs(history, next_pcs)
    note_stores(history, next_pcs)
    note_restarts(history, next_pcs)
    return history


def pcs_after(output: Output) -> dict[int, int]:
    """The pc of its thread after a step, which is the one before the thread's next step."""
    after: dict[int, int] = {}
    last: dict[int, int] = {}
    for step in output.steps:
        if step.thread in last:
            after[last[step.thread]] = step.pc
        last[step.thread] = step.number
    return after


def other_program(history: History, step: Step, words: str) -> LensFault:
    return LensFault(
        f'{history.output.name} isn\'t a run of {history.program.path}: at step {step.number} {words}'
    )


def note_instructions(history: History) -> None:
    output, program = history.output, history.program
    first = output.steps[0] if output.steps else None
    if first and first.kind == RUN and first.pc != program.entry:
        raise other_program(
            history, first, f'it starts at {first.pc:#x}, and this file at {program.entry:#x}'
        )
    for step in output.steps:
        if step.kind != EXEC:
            continue
        instruction = program.instruction(step.pc)
        if instruction:
            history.instructions[step.number] = instruction
        elif not (output.was_killed and step.number == len(output.steps)):
            raise other_program(history, step, f'it is at {step.pc:#x}, where this file has no code')


def note_calls(history: History) -> None:
    """The number of each call. A handler may write a7 too, which is what it was when the handler returns."""
    last_written: dict[int, int | None] = {}
    interrupted: dict[int, list[int | None]] = defaultdict(list)
    for step in history.output.steps:
        instruction = history.instructions.get(step.number)
        if step.kind == SIGNAL:
            interrupted[step.thread].append(last_written.get(step.thread))
        elif instruction and instruction.written == A7:
            last_written[step.thread] = instruction.immediate
        elif instruction and instruction.is_call:
            number = history.calls[step.number] = last_written.get(step.thread)
            if number == RT_SIGRETURN and interrupted[step.thread]:
                last_written[step.thread] = interrupted[step.thread].pop()


def check_pcs(history: History, next_pcs: dict[int, int]) -> None:
    """After an instruction its thread is where it can go on; rt_sigreturn goes anywhere."""
    for step in history.output.steps:
        instruction, pc = history.instructions.get(step.number), next_pcs.get(step.number)
        if instruction is None or pc is None or instruction.may_go_to(pc):
            continue
        if history.calls.get(step.number) != RT_SIGRETURN:
            words = f'it goes from {step.pc:#x} to {pc:#x}, which {instruction.text!r} of this file can\'t'
            raise other_program(history, step, words)


def note_stores(history: History, next_pcs: dict[int, int]) -> None:
    """The k-th drain of a hart enters its k-th plain store. A store that faults leaves the pc, and waits
    nowhere."""
    output = history.output
    waiting: dict[int, deque[Step]] = {hart: deque() for hart in output.harts}
    for step in output.steps:
        instruction = history.instructions.get(step.number)
        if step.kind == DRAIN:
            if not waiting[step.hart]:
                raise other_program(
                    history, step, f'hart {step.hart} drains, and no store of this file waits there'
                )
            history.drained[step.number] = waiting[step.hart].popleft()
        elif instruction and instruction.is_plain_store and not faulted(step, output, next_pcs):
            waiting[step.hart].append(step)
    history.waiting = [store for stores in waiting.values() for store in stores]


def note_restarts(history: History, next_pcs: dict[int, int]) -> None:
    for step in history.output.steps:
        pc = next_pcs.get(step.number, step.pc)
        if step.kind in (RUN, TAKE, SIGNAL) and step.thread and pc != step.pc:
            history.sent[step.number] = pc


def faulted(step: Step, output: Output, next_pcs: dict[int, int]) -> bool:
    if step.number in next_pcs:
        return next_pcs[step.number] == step.pc
    return output.was_killed and step.number == len(output.steps)


def stretches(output: Output) -> Iterator[Stretch]:
    running: dict[int, list[int]] = {}
    for step in output.steps:
        began = running.get(step.hart)
        if step.kind == RUN:
            if began:
                yield Stretch(step.hart, *began)
            running[step.hart] = [step.thread, step.number, step.number]
        elif began and step.thread == began[0]:
            began[2] = step.number
            if step.kind == PREEMPT:
                yield Stretch(step.hart, *running.pop(step.hart))
    for hart, began in running.items():
        yield Stretch(hart, *began)

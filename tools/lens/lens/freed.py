"""Who reads, writes or frees what was freed, and who freed it: `lens watch --freed`."""
from __future__ import annotations

import re
from collections.abc import Iterator

from .facts import Read, Waits, Wrote
from .faults import LensFault
from .heap import Again, Freed, heaps
from .listing import Selection
from .output import DRAIN, EXEC, Step
from .values import Values, joined
from .watching import ENTERS, READS, WAITS, Access

BELOW = ' ' * 9
FREED_BEFORE = re.compile(rb'free: 0x[0-9a-f]{16} was freed before')
"""What `free` of `examples/common/hosted.h` prints before it ends the run."""


def list_freed(values: Values, selection: Selection) -> Iterator[str]:
    """Each access to what was freed in the steps that are chosen, and each call that frees it again; below it
    who freed that."""
    chosen = {step.number for step in selection.steps(values.history.output.steps)}
    shown, again = 0, 0
    blocks: set[tuple[int, int]] = set()
    for found, freed in found_freed(values):
        if found.step.number in chosen:
            is_again = isinstance(found, Again)
            shown, again = shown + 1, again + is_again
            blocks.add((freed.block.at, freed.step.number))
            yield words_of_again(values, found) if isinstance(found, Again) else words_of(values, found)
            yield f'{BELOW}{words_of_block(values, found, freed)}'
    if blocks:
        yield ''
    accesses = '1 access' if shown == 1 else f'{shown} accesses'
    freed_blocks = '1 freed block' if len(blocks) == 1 else f'{len(blocks)} freed blocks'
    frees = f', {again} of them a further `free`' if again else ''
    yield f'{accesses} to {freed_blocks}{frees}; end {values.history.output.end}'


def found_freed(values: Values) -> Iterator[tuple[Access | Again, Freed]]:
    """The loads and stores of bytes that are freed, but for those of `malloc` and `free` themselves; stores
    of another hart that were executed before the call of `free` and enter memory after; and calls that free
    what is freed."""
    for step, heap in heaps(values):
        if step.kind == EXEC and heap.again:
            yield heap.again, heap.again.before
        if not heap.freed or (step.kind == EXEC and heap.is_inside(step.thread)):
            continue
        for access in accesses_of(values, step):
            freed = heap.freed_at(access.at, access.size)
            if freed and (step.kind == EXEC or enters_late(values, step, freed)):
                yield access, freed


def accesses_of(values: Values, step: Step) -> Iterator[Access]:
    """What a step reads and writes of memory, but for what the kernel writes."""
    facts = values.record(step).facts
    reads = [fact for fact in facts if type(fact) is Read]
    if reads:
        whole = joined(reads)
        yield Access(step, READS, whole.at, whole.size, whole.value, values.sources(reads))
    for fact in facts:
        if type(fact) is Waits:
            yield Access(step, WAITS, *fact, '')
        elif type(fact) is Wrote and values.is_own(step):
            yield Access(step, ENTERS, fact.at, fact.size, fact.value, '')


def enters_late(values: Values, step: Step, freed: Freed) -> bool:
    """Whether a drain enters a store of another hart than that of the call of `free`, from before it."""
    if step.kind != DRAIN:
        return False
    return step.hart != freed.step.hart and values.history.drained[step.number].number < freed.step.number


def words_of(values: Values, access: Access) -> str:
    """An access, with where its instruction is."""
    step, program = access.step, values.history.program
    pc = values.history.drained[step.number].pc if step.kind == DRAIN else step.pc
    put = f'{access.at:#x} = {values.number(access.value, access.size)}'
    source = f', {access.source}' if access.source else ''
    where = f'{program.where(pc)}  {program.source(pc)}'.rstrip()
    return f'{step.number:>7}  hart {step.hart}  thread {step.thread}  {access.kind} {put}{source}  {where}'


def words_of_again(values: Values, again: Again) -> str:
    """A call that frees what is freed, with where it is made."""
    step, program = again.step, values.history.program
    where = f'{program.where(again.caller)}  {program.source(again.caller)}'.rstrip()
    at = again.before.block.at
    return f'{step.number:>7}  hart {step.hart}  thread {step.thread}  frees {at:#x} again  {where}'


def words_of_block(values: Values, found: Access | Again, freed: Freed) -> str:
    """The block that is accessed or freed again: who was given it, and who freed it."""
    block, spot = freed.block, values.history.program.spot
    given = f'given to thread {block.step.thread} in step {block.step.number}, at {spot(block.caller)}'
    by = f'freed by thread {freed.step.thread} in step {freed.step.number}, at {spot(freed.caller)}'
    before = found.step.number - freed.step.number
    first = max(found.at - block.at, 0) if type(found) is Access else 0
    return f'byte {first} of {block.size} at {block.at:#x}, {given}; {by}, {before} steps before'


def says_freed_before(console: bytes) -> bool:
    """Whether the last line of a console says that a block was freed twice."""
    lines = console.splitlines()
    return bool(lines and FREED_BEFORE.fullmatch(lines[-1]))


def of_second_free(values: Values) -> Iterator[str]:
    """Who freed the block twice whose second `free` came last."""
    spot = values.history.program.spot
    try:
        twice = [found for found, _ in found_freed(values) if isinstance(found, Again)]
    except LensFault:
        return  # (the file has no `malloc` or no `free`)
    for again in twice[-1:]:
        both: tuple[Freed | Again, ...] = (again.before, again)
        frees = ', and '.join(
            f'by thread {one.step.thread} in step {one.step.number}, at {spot(one.caller)}'
            for one in both
        )
        yield f'The block at {again.before.block.at:#x} was freed {frees}.'

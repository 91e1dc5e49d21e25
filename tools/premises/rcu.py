"""What the law of user-space RCU asks of a program's use of the blocks, and what it says, line by line.

Each table here is a record of crates/urcu_lib/specs, and a row is the field of that name: whether it holds.
What a field asks of the lines before a line, `Past` has kept.
"""
from __future__ import annotations

from collections import defaultdict
from collections.abc import Callable
from dataclasses import dataclass
from functools import cached_property

from lens.calls import MEMBARRIER
from lens.instructions import ECALL, SIZE
from lens.output import DONE, DRAIN, EXEC, Step
from replay import PRIVATE, Event, File, Replay, pages

CHANGED_BY_SYNC = (5, 6, 7, 10, 11, 12, 17)
BEQ_NEXT, BLTU_LOOP, BNE_LOOP = 0x00050463, 0xFE556CE3, 0xFE0396E3
CALL, BEHIND_CALL, COUNTER_STORE, LOOP, BEHIND_LOAD, BRANCH_BACK, LAST = 16, 20, 28, 40, 44, 48, 64
"""Places in a sync block, from its first instruction on."""
LOCK_ENTRY, SYNC_BLOCK = range(0, SIZE, SIZE), range(0, LAST + SIZE, SIZE)


def addi(rd: int, rs1: int, immediate: int) -> int:
    return (immediate & 0xFFF) << 20 | rs1 << 15 | rd << 7 | 0x13


def ld(rd: int, rs1: int) -> int:
    return rs1 << 15 | rd << 7 | 0x3003


def sd(rs1: int, rs2: int) -> int:
    return rs2 << 20 | rs1 << 15 | 0x3023


@dataclass(frozen=True)
class ReadRegs:
    gp: int
    slot: int
    scratch: int

    def are_good(self) -> bool:
        return len({0, self.gp, self.slot, self.scratch}) == 4 and max(self.gp, self.slot, self.scratch) < 32


@dataclass(frozen=True)
class SyncRegs:
    gp: int
    slots: int

    def are_good(self) -> bool:
        return len({0, self.gp, self.slots, *CHANGED_BY_SYNC}) == 10 and max(self.gp, self.slots) < 32


def sync_block(regs: SyncRegs, readers: int) -> list[int]:
    call = [addi(10, 0, PRIVATE), addi(11, 0, 0), addi(12, 0, 0), addi(17, 0, MEMBARRIER), ECALL]
    growth = [ld(5, regs.gp), addi(5, 5, 1), sd(regs.gp, 5)]
    start = [addi(6, regs.slots, 0), addi(7, 0, readers)]
    loop = [ld(10, 6), BEQ_NEXT, BLTU_LOOP, addi(6, 6, 64), addi(7, 7, -1), BNE_LOOP]
    return [*call, *growth, *start, *loop, addi(10, 0, 0)]


@dataclass(frozen=True)
class Urcu:
    """Where counter and slots stand, which thread writes each slot, and which blocks begin at addresses; and
    for how many slots each sync block waits."""

    counter: int
    slots: int
    reader: tuple[int, ...]
    locks: dict[int, ReadRegs]
    unlocks: dict[int, ReadRegs]
    syncs: dict[int, SyncRegs]
    readers: dict[int, int]

    @cached_property
    def places(self) -> range:
        """Where each slot stands."""
        return range(self.slots, self.slots + 64 * len(self.reader), 64)

    @cached_property
    def slot_pages(self) -> frozenset[int]:
        return frozenset().union(*(pages(at, 8) for at in self.places))


class Line:
    """A line of a log: the slots to which it executes the store of a lock and of an unlock block; the place
    in a sync block whose instruction it executes, with that block and its thread; and what is written by it,
    but for the store that enters memory by a drain."""

    def __init__(self, u: Urcu, e: Event):
        self.e = e
        self.is_exec = e.step.kind == EXEC
        self.locked = self.written(u, u.locks.get(e.step.pc - SIZE))
        self.unlocked = self.written(u, u.unlocks.get(e.step.pc))
        at = next((at for at in u.syncs if self.is_exec and e.step.pc - at in SYNC_BLOCK), None)
        self.place = None if at is None else e.step.pc - at
        self.block = at, e.step.thread
        self.thread, self.after = e.step.thread, e.deed.after
        self.is_still = self.after is e.before
        self.stores = e.deed.executed if e.step.kind == DRAIN else e.deed.executed + e.deed.entered

    def written(self, u: Urcu, regs: ReadRegs | None) -> list[int]:
        at = self.e.before.registers[regs.slot] if regs and self.is_exec else None
        return [u.places.index(at)] if at in u.places else []

    def is_quiet(self, at: int) -> bool:
        """Whether it leaves eight bytes alone."""
        return not any(store.touches(at, 8) for store in self.stores)

    def has(self, register: int, value: int) -> bool:
        """Whether a register of its thread has a value before it."""
        return self.e.before.registers[register] == value

    def acts(self, at: int, block: range) -> bool:
        """Whether it executes an instruction of a block."""
        return self.is_exec and self.e.step.pc - at in block

    def returns(self, at: int) -> bool:
        """Whether a barrier returns by it in a sync block."""
        return self.e.step.kind == DONE and self.e.before.pc == self.after.pc == at + BEHIND_CALL


class Past:
    """What the fields ask of the lines before one."""

    def __init__(self, u: Urcu, first: int):
        self.u = u
        self.counted = first
        self.sections: list[list[int]] = [[] for _ in u.places]
        self.syncing: set[tuple[int, int]] = set()
        self.ended: set[tuple[int, int]] = set()
        """Who ended in a sync block."""
        self.calls: dict[tuple[int, int], int] = {}
        self.grown: dict[tuple[int, int], int] = {}
        self.stood: dict[int, set[File]] = defaultdict(set)
        """How a thread has stood in lock blocks behind their first instruction."""
        self.left: dict[tuple[int, int], set[File]] = defaultdict(set)
        """How a thread has stood in a sync block since it last executed an instruction of it."""

    def go_on(self, line: Line, replay: Replay) -> None:
        stores = [store.value for store in line.e.deed.executed if store.touches(self.u.counter, 1)]
        self.counted = stores[-1] if stores else self.counted
        for slot in line.unlocked:
            self.sections[slot].clear()
        for slot in line.locked:
            self.sections[slot].append(line.e.step.number)
        if not line.is_still:
            self.keep(line)
        self.ended |= {block for block in self.syncing if block[1] in replay.ended}
        self.syncing -= self.ended
        if line.place == 0:
            self.syncing.add(line.block)
        elif line.place == CALL:
            self.calls[line.block] = line.e.step.number
        elif line.place == BEHIND_CALL:
            self.grown[line.block] = replay.view(line.e.step.hart, self.u.counter) + 1
        elif line.place == LAST:
            self.syncing.discard(line.block)
            self.calls.pop(line.block, None)
            self.grown.pop(line.block, None)

    def keep(self, line: Line) -> None:
        if line.after.pc - SIZE in self.u.locks:
            self.stood[line.thread].add(line.after)
        for at in self.u.syncs:
            if line.acts(at, SYNC_BLOCK):
                self.left[at, line.thread].clear()
            if line.after.pc - at in SYNC_BLOCK:
                self.left[at, line.thread].add(line.after)


def stands(code: dict[int, int], at: int, block: list[int]) -> bool:
    return [code.get(at + SIZE * number) for number in range(len(block))] == block


ARE_BLOCKS = {
    'locks': lambda u, code: all(
        stands(code, at, [ld(r.scratch, r.gp), sd(r.slot, r.scratch)]) for at, r in u.locks.items()
    ),
    'unlocks': lambda u, code: all(stands(code, at, [sd(r.slot, 0)]) for at, r in u.unlocks.items()),
    'syncs': lambda u, code: all(stands(code, at, sync_block(r, u.readers[at])) for at, r in u.syncs.items()),
    'low': lambda u, code: all(at + SIZE < 1 << 64 for at in code),
    'lock_regs': lambda u, code: all(r.are_good() for r in u.locks.values()),
    'unlock_regs': lambda u, code: all(r.are_good() for r in u.unlocks.values()),
    'sync_regs': lambda u, code: all(r.are_good() for r in u.syncs.values()),
    'one': lambda u, code: all(1 <= u.readers[at] for at in u.syncs),
    'few': lambda u, code: all(u.readers[at] <= 63 for at in u.syncs),
    'counted': lambda u, code: all(u.readers[at] <= len(u.reader) for at in u.syncs),
    'low_slots': lambda u, code: u.places.stop <= 1 << 64,
    'low_counter': lambda u, code: u.counter + 8 <= 1 << 64,
    'apart': lambda u, code: all(u.counter + 8 <= at or at + 8 <= u.counter for at in u.places),
}
IS_START = {
    'some': lambda u, entry, first: 1 <= first,
    'fits': lambda u, entry, first: first < 1 << 64,
    'locking': lambda u, entry, first: entry - SIZE not in u.locks,
    'syncing': lambda u, entry, first: all(entry - at not in SYNC_BLOCK[1:] for at in u.syncs),
}
IS_USE = {
    'counter_usable': lambda u, past, line: not line.is_exec or pages(u.counter, 8) <= line.e.usable,
    'slot_usable': lambda u, past, line: not line.is_exec or u.slot_pages <= line.e.usable,
    'counter': lambda u, past, line: line.is_quiet(u.counter) or line.place == COUNTER_STORE,
    'slot': lambda u, past, line: not line.stores or all(
        line.is_quiet(at) or slot in line.locked + line.unlocked for slot, at in enumerate(u.places)
    ),
    'writer': lambda u, past, line: all(
        u.reader[slot] == line.thread for slot in line.locked + line.unlocked
    ),
    'turns': lambda u, past, line: not any(past.sections[slot] for slot in line.locked),
    'small': lambda u, past, line: line.place != COUNTER_STORE or past.counted + 1 < 1 << 64,
    'alone': lambda u, past, line: line.place != 0 or not past.syncing,
    'registered': lambda u, past, line: line.place != CALL or line.e.is_registered,
    'locking': lambda u, past, line: line.is_still or all(
        line.acts(at, LOCK_ENTRY) or line.after in past.stood[line.thread]
        for at in u.locks if line.after.pc == at + SIZE
    ),
    'syncing': lambda u, past, line: line.is_still or all(
        line.acts(at, SYNC_BLOCK) or line.returns(at) or line.after in past.left[at, line.thread]
        for at in u.syncs if line.after.pc - at in SYNC_BLOCK[1:]
    ),
    'lock_gp': lambda u, past, line: all(
        line.has(regs.gp, u.counter) for at, regs in u.locks.items() if line.is_exec and line.e.step.pc == at
    ),
    'sync_gp': lambda u, past, line: line.place != 0 or line.has(u.syncs[line.block[0]].gp, u.counter),
    'sync_slots': lambda u, past, line: line.place != 0 or line.has(u.syncs[line.block[0]].slots, u.slots),
}
LAWS = {
    'sections_end_before_grace_periods': lambda u, past, line, replay: line.place != LAST or not any(
        begun < past.calls.get(line.block, 0)
        for sections in past.sections[: u.readers[line.block[0]]] for begun in sections
    ),
    'compared': lambda u, past, line, replay: (
        line.place != BEHIND_LOAD or line.block not in past.grown or line.has(5, past.grown[line.block])
    ),
    'grown': lambda u, past, line, replay: (
        line.place != LAST
        or line.block not in past.grown
        or replay.view(line.e.step.hart, u.counter) == past.grown[line.block]
    ),
}
"""What the laws of src/theorems.rt say of a line: the law itself, and two of sync_is_soon_over."""


def broken(record: str, fields: dict, *facts) -> list[str]:
    """The fields of a record that don't hold."""
    return [f'{record}.{field}' for field, test in fields.items() if not test(*facts)]


Look = Callable[[Past, Line], None]


def first_breaks(elf: bytes, u: Urcu, steps: list[Step], look: Look) -> dict[str, int]:
    """What doesn't hold in a log, each with the first line where it doesn't (0 before all lines)."""
    replay = Replay(elf)
    first = replay.view(0, u.counter)  # IsStart.counter
    past = Past(u, first)
    breaks = dict.fromkeys(broken('AreBlocks', ARE_BLOCKS, u, replay.code), 0)
    breaks |= dict.fromkeys(broken('IsStart', IS_START, u, replay.entry, first), 0)
    for step in steps:
        line = Line(u, replay.event(step))
        for name in broken('IsUse', IS_USE, u, past, line) + broken('Law', LAWS, u, past, line, replay):
            breaks.setdefault(name, step.number)
        look(past, line)
        past.go_on(line, replay)
    return breaks

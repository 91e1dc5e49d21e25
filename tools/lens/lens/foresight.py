"""Which drains events need, by the way that their threads went before.

A store enters memory where the next event of its hart needs it, as `go` of a steer has it. The machine says
where that is, one refused line after the other. Most of it can be foreseen: the k-th instruction of a thread
is taken to be the one that was its k-th in the run that is known. Where a thread goes another way, the machine
says at which instruction it stands, and the nearest one of its way with this address is where it goes on.
"""
from __future__ import annotations

import itertools
from bisect import bisect_left
from collections import Counter, defaultdict
from collections.abc import Iterable, Iterator
from dataclasses import dataclass, field

from .calls import CLONE
from .history import History
from .instructions import SIZE, Instruction, Opcode
from .output import DRAIN, EXEC, PC_DIGITS, PREEMPT, RUN, SIGNAL, TAKE
from .place import HartPlace, Place
from .program import Program
from .stretches import FORESEEN, KEPT, UNKNOWN, Piece, Stretch

STORES = 8
SPIN = 16
"""The loop of a thread that spins has no more instructions than this before or after one of it."""
JUMPS = (Opcode.BRANCH, Opcode.JAL)
FIRST_THREAD = 1
NO_WAITING = (PREEMPT, SIGNAL, TAKE)


@dataclass
class Way:
    """The instructions that a thread made, in order: their addresses as a log has them, and which of them
    need or make waiting stores."""

    pcs: list[bytes] = field(default_factory=list)
    marks: list[int] = field(default_factory=list)
    """Which of them are plain stores, or come only where no store waits."""
    stores: set[int] = field(default_factory=set)
    """Which of them are plain stores."""
    visits: dict[bytes, list[int]] = field(default_factory=lambda: defaultdict(list))
    """Which of them have an address."""
    leaves: list[int] = field(default_factory=list)
    """After which of them the thread had left its hart: calls at which it slept or ended."""

    def add(self, instruction: Instruction) -> None:
        at, pc = len(self.pcs), pc_text(instruction.address)
        self.pcs.append(pc)
        self.visits[pc].append(at)
        if instruction.is_plain_store:
            self.stores.add(at)
        if instruction.is_plain_store or instruction.waits_for_stores:
            self.marks.append(at)

    def left_in(self, first: int, last: int) -> bool:
        """Whether the thread leaves its hart after an instruction from a place of the way up to another."""
        return bisect_left(self.leaves, first) < bisect_left(self.leaves, last)

    def nearest(self, pc: bytes, at: int) -> int:
        """Which instruction with an address is the nearest one to a place of the way."""
        visits = self.visits.get(pc, [])
        next_one = bisect_left(visits, at)
        around = visits[max(next_one - 1, 0) : next_one + 1]
        return min(around, key=lambda visit: abs(visit - at), default=UNKNOWN)

    def marked(self, first: int, last: int) -> list[int]:
        """The marks from a place of the way up to another."""
        return self.marks[bisect_left(self.marks, first) : bisect_left(self.marks, last)]


NO_WAY = Way()
"""That of a thread which made no instruction in the run that is known."""


@dataclass
class Standing:
    """What is taken to be so before an event: where each thread runs, how many stores wait on each hart, and
    how far each thread is on its way."""

    where: dict[int, int] = field(default_factory=dict)
    waiting: Counter[int] = field(default_factory=Counter)
    at: dict[int, int] = field(default_factory=dict)
    spins: set[int] = field(default_factory=set)
    """Which threads are taken to look at a lock again and again, and so to need no drains."""


class Foresight:
    """The way of each thread in a run."""

    def __init__(self, history: History):
        self.program: Program = history.program
        self.ways: dict[int, Way] = defaultdict(Way)
        self.born: dict[int, tuple[int, int]] = {}
        """Of each thread but the first the one that made it, and how many instructions that had made then."""
        threads = itertools.count(FIRST_THREAD + 1)
        runs: dict[int, int] = {}
        for step in history.output.steps:
            if step.kind == RUN and (left := runs.pop(step.hart, None)):
                self.ways[left].leaves.append(len(self.ways[left].pcs) - 1)
            if step.kind == RUN:
                runs[step.hart] = step.thread
            elif step.kind == PREEMPT:
                runs.pop(step.hart, None)
            if step.number in history.instructions:
                self.ways[step.thread].add(history.instructions[step.number])
            if history.calls.get(step.number) == CLONE:
                self.born[next(threads)] = step.thread, len(self.ways[step.thread].pcs)

    def pieces(
        self, stretches: Iterable[tuple[int, Stretch]], standing: Standing | None = None
    ) -> list[Piece]:
        """The events of numbered stretches, and before each the drains that it is taken to need. Those of a
        thread that runs nowhere are left out."""
        standing = standing or Standing()
        found: list[Piece] = []
        for number, stretch in stretches:
            self.add_pieces(found, number, stretch, standing)
        return found

    def add_pieces(self, found: list[Piece], number: int, stretch: Stretch, standing: Standing) -> None:
        """Adds the events of one stretch; they change what is taken to be so."""
        first, kind, thread, count = stretch
        if kind == RUN and not self.may_run(first, thread, standing):
            return
        if kind == RUN:
            standing.where[thread] = first
        hart = standing.where.get(thread) if thread else first
        if hart is None:
            return
        if kind == EXEC:
            self.add_instructions(found, Piece(number, hart, kind, thread, count), standing)
            return
        waiting = standing.waiting[hart]
        if kind in NO_WAITING and waiting:
            found.append(Piece(number, hart, DRAIN, thread, waiting, FORESEEN))
        is_known = thread not in standing.spins and standing.at.get(thread) != UNKNOWN
        done = min(count, waiting) if kind == DRAIN and is_known else count
        if done:
            found.append(Piece(number, hart, kind, thread, done))
        if kind == DRAIN:
            standing.waiting[hart] = max(waiting - done, 0)
        elif kind in NO_WAITING:
            standing.waiting[hart] = 0
        if kind == PREEMPT:
            standing.where.pop(thread, None)

    def may_run(self, hart: int, thread: int, standing: Standing) -> bool:
        """Whether a thread is taken to be there and to run nowhere, and a hart to have none."""
        maker, place = self.born.get(thread, (thread, 0))
        is_there = standing.at.get(maker, 0) >= place or standing.at.get(maker) == UNKNOWN
        return is_there and thread not in standing.where and hart not in standing.where.values()

    def add_instructions(self, found: list[Piece], piece: Piece, standing: Standing) -> None:
        """Adds the instructions of a piece, and the drains that they are taken to need."""
        number, hart, kind, thread, count = piece[:5]
        way, first = self.ways.get(thread, NO_WAY), standing.at.get(thread, 0)
        if thread in standing.spins or first == UNKNOWN:
            found.append(piece)
            return
        waiting, done, last = standing.waiting[hart], first, first + count
        for mark in way.marked(first, last):
            is_one = mark in way.stores
            drains = int(waiting == STORES) if is_one else waiting
            if drains:
                if mark > done:
                    found.append(Piece(number, hart, kind, thread, mark - done, KEPT, done))
                found.append(Piece(number, hart, DRAIN, thread, drains, FORESEEN))
                done = mark
            waiting += is_one - drains
        found.append(Piece(number, hart, kind, thread, last - done, KEPT, done))
        standing.waiting[hart], standing.at[thread] = waiting, last
        if way.left_in(first, last):
            standing.where.pop(thread, None)

    def standing_at(self, place: Place, pieces: list[Piece]) -> Standing:
        """What is so at a place to which some pieces led: a thread on a hart is on its way where the nearest
        instruction with its address is."""
        standing = Standing()
        for piece in pieces:
            if piece.kind == EXEC and piece.at != UNKNOWN:
                standing.at[piece.thread] = piece.at + piece.count
        for hart, here in place.harts.items():
            standing.waiting[hart] = here.waiting
            if here.thread and here.pc is not None:
                way, at = self.ways.get(here.thread, NO_WAY), standing.at.get(here.thread, 0)
                standing.where[here.thread] = hart
                standing.at[here.thread] = way.nearest(pc_text(here.pc), max(at, 0))
        return standing

    def note_spin(self, refused: Piece, place: Place, spins: set[int]) -> None:
        """Notes which threads spin at the place before an event that is refused: the one that would have
        needed a drain by its way, and isn't there. Where one has gone on it spins no more."""
        here = place.harts.get(refused.hart, HartPlace())
        if refused.origin == FORESEEN and here.thread is not None:
            spins.add(here.thread)
        for hart in place.harts.values():
            if hart.thread in spins and (hart.pc is None or not self.spins_at(hart.pc)):
                spins.remove(hart.thread)

    def spins_at(self, pc: int) -> bool:
        """Whether an instruction is in a short loop in which nothing needs or makes waiting stores, as where
        a thread looks at a lock again and again."""
        around = range(pc - SIZE * SPIN, pc + SIZE * SPIN, SIZE)
        first = max((at for at in around if at <= pc and not self.is_calm(at)), default=around.start) + SIZE
        for last in itertools.takewhile(self.is_calm, range(pc, around.stop, SIZE)):
            jump, targets = self.program.instruction(last), range(first, min(pc + SIZE, last), SIZE)
            if jump and jump.opcode in JUMPS and any(map(jump.may_go_to, targets)):
                return True
        return False

    def is_calm(self, pc: int) -> bool:
        """Whether an instruction neither needs nor makes waiting stores."""
        instruction = self.program.instruction(pc)
        return instruction is not None and not (instruction.is_plain_store or instruction.waits_for_stores)

    def first_early(self, pieces: list[Piece], lines: list[bytes]) -> int | None:
        """The first foreseen drain that the event after it didn't need, in the log that was made of the
        pieces. Where each thread went the way that it was taken to go there is none."""
        if self.went_as_foreseen(pieces, lines):
            return None
        waiting: Counter[int] = Counter()
        first = 0
        for piece in pieces:
            if piece.origin == FORESEEN and not self.is_due(piece, lines, first, waiting[piece.hart]):
                return first
            waiting[piece.hart] += self.change(piece, lines[first : first + piece.count])
            first += piece.count
        return None

    def went_as_foreseen(self, pieces: list[Piece], lines: list[bytes]) -> bool:
        """Whether all instructions are those that were taken to come, up to the one after the last foreseen
        drain."""
        drains = [number for number, piece in enumerate(pieces) if piece.origin == FORESEEN]
        first = 0
        for piece in pieces[: drains[-1] + 2 if drains else 0]:
            last = first + piece.count
            if piece.kind == EXEC:
                pcs = [line[-PC_DIGITS:] for line in lines[first:last]]
                way = self.ways.get(piece.thread, NO_WAY)
                if piece.at == UNKNOWN or way.pcs[piece.at : piece.at + piece.count] != pcs:
                    return False
            first = last
        return True

    def waiting(self, pieces: list[Piece], lines: list[bytes]) -> Counter[int]:
        """How many stores wait on each hart after some pieces, in the log that was made of them."""
        waiting: Counter[int] = Counter()
        first = 0
        for piece in pieces:
            waiting[piece.hart] += self.change(piece, lines[first : first + piece.count])
            first += piece.count
        return waiting

    def is_due(self, piece: Piece, lines: list[bytes], first: int, waiting: int) -> bool:
        """Whether the event after some drains needs all of them."""
        after = first + piece.count
        if after >= len(lines):
            return False
        kind = lines[after].split(b' ')[1].decode('ascii')
        needed = drains_for(kind, self.instruction(lines[after]) if kind == EXEC else None, waiting)
        return needed >= piece.count

    def change(self, piece: Piece, lines: list[bytes]) -> int:
        """How many more stores wait after a piece."""
        if piece.kind == DRAIN:
            return -piece.count
        if piece.kind != EXEC:
            return 0
        return sum(is_store(self.instruction(line)) for line in lines)

    def instruction(self, line: bytes) -> Instruction | None:
        """The instruction of a log line."""
        return self.program.instruction(int(line[-PC_DIGITS:], 16))


def pc_text(pc: int) -> bytes:
    """An address as a log has it."""
    return f'{pc:0{PC_DIGITS}x}'.encode('ascii')


def is_store(instruction: Instruction | None) -> bool:
    return instruction is not None and instruction.is_plain_store


def drains_for(kind: str, instruction: Instruction | None, waiting: int) -> int:
    """How many of the stores that wait have to enter memory before an event; an instruction that isn't known
    needs none."""
    if kind in NO_WAITING or (instruction and instruction.waits_for_stores):
        return waiting
    return 1 if is_store(instruction) and waiting == STORES else 0

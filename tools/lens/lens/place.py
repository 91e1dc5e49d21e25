"""Reads what `inspect` prints: the place that a script comes to."""
from __future__ import annotations

from dataclasses import dataclass, field

from .output import RUN, SIGNAL, TAKE

OPEN, LIMIT = 'open', 'limit'
NO_BYTES = 'none'
WAITING, FULL_BUFFER = 'Waiting', 'FullBuffer'


@dataclass(frozen=True)
class Named:
    """The restartable sequence that an area names: from its start up to its end, its abort handler, and
    whether the pc is inside."""

    start: int
    end: int
    abort: int
    is_inside: bool


@dataclass
class HartPlace:
    """What a hart is at: its thread, pc and registers, where one runs; how many stores wait; what the area of
    the thread is and names, or what is wrong with it; which events may come next, and why not the others; and
    which threads may begin to run."""

    thread: int | None = None
    pc: int | None = None
    registers: list[int] = field(default_factory=list)
    waiting: int = 0
    signature: int | None = None
    named: Named | None = None
    wrong: str | None = None
    may: set[str] = field(default_factory=set)
    why_not: dict[str, str] = field(default_factory=dict)
    ready: list[int] = field(default_factory=list)

    @property
    def is_awaited(self) -> bool:
        """Whether a request of a barrier, or a signal, waits for the stores of the hart."""
        return WAITING in (self.why_not.get(TAKE), self.why_not.get(SIGNAL))

    def drains_for(self, kind: str) -> int:
        """How many stores have to enter memory before an event; none where that isn't what it waits for."""
        return {WAITING: self.waiting, FULL_BUFFER: 1}.get(self.why_not.get(kind, ''), 0)


@dataclass
class ThreadPlace:
    """What a live thread is at: the word at which it waits in a futex, where it does; and the signals that it
    masks, and those that are pending for it (bit S - 1 is signal S); and the pc at which it goes on, where it
    runs nowhere."""

    word: int | None = None
    mask: int = 0
    pending: int = 0
    pc: int | None = None

    def next_signal(self) -> int | None:
        """The lowest signal that can be delivered to it."""
        due = self.pending & ~self.mask
        return (due & -due).bit_length() or None


@dataclass
class Place:
    """Where the harts are behind the last line of a script, and how the run ends that stops there."""

    end: str
    harts: dict[int, HartPlace]
    threads: dict[int, ThreadPlace]
    memory: dict[int, int] = field(default_factory=dict)
    """What the 8 bytes from an address on have as a number, where that was asked for and a page is there."""

    @property
    def is_over(self) -> bool:
        return self.end != OPEN


def parse_place(text: bytes) -> Place:
    """The place of a text of `inspect`; lines that aren't needed are passed over."""
    place = Place(OPEN, {}, {})
    for line in text.decode('ascii', 'replace').splitlines():
        match line.split(' '):
            case ['end', *reason]:
                place.end = ' '.join(reason)
            case ['hart', hart, *rest]:
                note_hart(place.harts.setdefault(int(hart), HartPlace()), rest)
            case ['thread', thread, *rest]:
                note_thread(place.threads.setdefault(int(thread), ThreadPlace()), rest)
            case ['may', hart, kind, thread, _]:
                note_may(place.harts[int(hart)], kind, int(thread))
            case ['not', hart, kind, why]:
                place.harts[int(hart)].why_not[kind] = why
            case ['memory', at, value] if value != NO_BYTES:
                place.memory[int(at, 16)] = int(value, 16)
    return place


def note_hart(hart: HartPlace, fields: list[str]) -> None:
    match fields:
        case ['thread', thread, 'pc', pc, *_]:
            hart.thread, hart.pc = int(thread), int(pc, 16)
        case [register, _, value] if register[0] == 'x' and register[1:].isdecimal():
            hart.registers.append(int(value, 16))
        case ['store', *_]:
            hart.waiting += 1
        case ['area', _, 'signature', signature]:
            hart.signature = int(signature, 16)
        case ['names', 'good', start, length, abort, where]:
            begin = int(start, 16)
            hart.named = Named(begin, begin + int(length), int(abort, 16), where == 'inside')
        case ['names', 'bad', what]:
            hart.wrong = what


def note_thread(thread: ThreadPlace, fields: list[str]) -> None:
    match fields:
        case ['waiting', word]:
            thread.word = int(word, 16)
        case ['pc', pc]:
            thread.pc = int(pc, 16)
        case ['mask', mask, 'pending', pending]:
            thread.mask, thread.pending = int(mask, 16), int(pending, 16)


def note_may(hart: HartPlace, kind: str, thread: int) -> None:
    if kind == RUN:
        hart.ready.append(thread)
    else:
        hart.may.add(kind)

"""A run as stretches of events, which can be left out or put elsewhere, and what a person has to follow in
it."""
from __future__ import annotations

from collections.abc import Iterable, Iterator
from dataclasses import dataclass
from functools import cache
from typing import NamedTuple

from .output import DRAIN, EXEC, PREEMPT, RUN, Step

KEPT, FORESEEN, NEEDED = 'kept', 'foreseen', 'needed'
"""Why an event is there: its stretch is kept; a drain is there since the next event is taken to need it; a
drain is there since the machine said that the next event needs it."""
UNKNOWN = -1


class Stretch(NamedTuple):
    """So many events of one kind of a thread, one after the other. They are made on the hart where the thread
    runs by then, and on this one where it is to begin to run."""

    hart: int
    kind: str
    thread: int
    count: int  # type: ignore[assignment] # (in place of that of a tuple)


Stretches = tuple[Stretch, ...]


class Piece(NamedTuple):
    """Events of one kind of a stretch, one after the other, as lines of a script have them."""

    stretch: int
    """The number of the stretch for which they are made."""
    hart: int
    kind: str
    thread: int
    count: int = 1  # type: ignore[assignment] # (in place of that of a tuple)
    origin: str = KEPT
    at: int = UNKNOWN
    """Which instruction of its thread's way the first is taken to be, counted from 0."""

    def lines(self) -> bytes:
        """The lines of a script that make them."""
        return line_of(self.hart, self.kind, self.thread) * self.count


@cache
def line_of(hart: int, kind: str, thread: int) -> bytes:
    """The line of a script that makes an event."""
    return f'{hart} {kind}{f" {thread}" if kind == RUN else ""}\n'.encode('ascii')


def stretches_of(steps: list[Step]) -> Stretches:
    """The stretches of some steps."""
    found: list[Stretch] = []
    for step in steps:
        last = found[-1] if found else None
        is_next = last and (last.hart, last.kind, last.thread) == (step.hart, step.kind, step.thread)
        if last and is_next and step.kind in (EXEC, DRAIN):
            found[-1] = last._replace(count=last.count + 1)
        else:
            found.append(Stretch(step.hart, step.kind, step.thread, 1))
    return tuple(found)


def joined(stretches: Iterable[Stretch]) -> Stretches:
    """The same with instructions of one thread that come one after the other as one stretch."""
    found: list[Stretch] = []
    for stretch in stretches:
        last = found[-1] if found else None
        if last and stretch.kind == last.kind == EXEC and stretch.thread == last.thread:
            found[-1] = last._replace(count=last.count + stretch.count)
        else:
            found.append(stretch)
    return tuple(found)


def in_turn(stretches: Stretches, threads: Iterable[int]) -> Stretches:
    """The same with all stretches of each thread together, and the threads in this order."""
    return joined(stretch for thread in threads for stretch in stretches if stretch.thread == thread)


def script_of(pieces: Iterable[Piece]) -> bytes:
    """The script that makes the events."""
    return b''.join(piece.lines() for piece in pieces)


def split_at(pieces: list[Piece], event: int) -> tuple[list[Piece], Piece]:
    """The events before one, counted from 0, and the piece that the one belongs to."""
    first = 0
    for number, piece in enumerate(pieces):
        if event < first + piece.count:
            before = [piece._replace(count=event - first)] if event > first else []
            return pieces[:number] + before, piece
        first += piece.count
    raise IndexError(event)


def stretch_numbers(pieces: Iterable[Piece]) -> Iterator[int]:
    """For each event the number of the stretch for which it is made."""
    return (piece.stretch for piece in pieces for _ in range(piece.count))


@dataclass(frozen=True)
class Cost:
    """What a person has to follow."""

    switches: int
    preemptions: int
    drains: int
    steps: int

    def words(self) -> str:
        return (
            f'{self.steps} steps, {self.switches} switches between harts, {self.preemptions} preemptions, '
            f'{self.drains} drains'
        )


def cost_of(pieces: Iterable[Stretch | Piece]) -> Cost:
    """What events cost."""
    every = list(pieces)
    switches = sum(one.hart != other.hart for one, other in zip(every, every[1:]))
    return Cost(switches, counted(every, PREEMPT), counted(every, DRAIN), sum(one.count for one in every))


def counted(pieces: list[Stretch | Piece], kind: str) -> int:
    return sum(piece.count for piece in pieces if piece.kind == kind)

"""Leaves out stretches of a run, puts them together and makes them shorter, for as long as what is wanted
holds: large pieces first (delta debugging; Zeller and Hildebrandt, "Simplifying and isolating failure-inducing
input", 2002).
"""
from __future__ import annotations

from collections.abc import Callable, Iterator

from .output import DONE, DRAIN, EXEC, PREEMPT, SIGNAL, TAKE
from .stretches import Stretch, Stretches, in_turn, joined
from .trials import Trials

KINDS = (DRAIN, PREEMPT, SIGNAL, TAKE, DONE)
"""The kinds of events that are left out first, in this order."""
LARGE = 8
"""Of them parts of at least so many of all, one in so many, are left out first."""
LEAST_TURNS = 3
"""In fewer stretches no thread comes twice with another between."""


class Reducing:
    """Looks for fewer stretches that still hold: what it has at any time holds."""

    def __init__(self, trials: Trials):
        self.trials = trials
        self.holds = trials.holds

    def shrink(self, stretches: Stretches) -> Stretches:
        """Fewer stretches that still hold: none of those that are left can be left out by itself."""
        stretches = self.without_kinds(self.shortest_beginning(stretches))
        while True:
            before = stretches
            stretches = self.with_fewer_turns(self.without_threads(stretches))
            stretches = self.with_fewer_turns(self.together(self.without_parts(stretches)))
            if stretches == before:
                stretches = self.with_shorter_turns(stretches)
            if stretches == before:
                return stretches

    def together(self, stretches: Stretches) -> Stretches:
        """The same with instructions of one thread that come one after the other as one stretch."""
        fewer = joined(stretches)
        return fewer if fewer == stretches or self.holds(fewer) else stretches

    def shortest_beginning(self, stretches: Stretches) -> Stretches:
        """A beginning of the stretches that holds, found by halving."""
        least, most = 0, len(stretches)
        while least < most:
            middle = (least + most) // 2
            if self.holds(stretches[:middle]):
                most = middle
            else:
                least = middle + 1
        return stretches[:most]

    def without_kinds(self, stretches: Stretches) -> Stretches:
        """Leaves out all events of a kind, or large parts of them."""
        for kind in KINDS:
            count = sum(stretch.kind == kind for stretch in stretches)
            size = count
            while size and size * LARGE >= count:
                stretches = self.without_parts_of(stretches, size, kind)
                size //= 2
        return self.together(stretches)

    def without_threads(self, stretches: Stretches) -> Stretches:
        """Leaves out all events of a thread, of each that can be left out."""
        for thread in sorted({stretch.thread for stretch in stretches}):
            others = joined(stretch for stretch in stretches if stretch.thread != thread)
            if self.holds(others):
                stretches = others
        return stretches

    def without_parts(self, stretches: Stretches) -> Stretches:
        """Leaves out parts, halves first, and then smaller ones."""
        size = max(len(stretches) // 2, 1)
        while True:
            stretches = self.without_parts_of(stretches, size)
            if size == 1:
                return stretches
            size //= 2

    def without_parts_of(self, stretches: Stretches, size: int, kind: str | None = None) -> Stretches:
        """Leaves out each part of so many stretches, or of so many of a kind, that can be left out, the last
        one first."""
        at = len(stretches)
        while found := self.trials.first(parts_left_out(stretches, at, size, kind)):
            at, stretches = found
        return stretches

    def with_fewer_turns(self, stretches: Stretches) -> Stretches:
        """Puts the stretches of each thread together: in all, then in halves, and then in smaller parts."""
        size = len(stretches)
        while size > LEAST_TURNS:
            stretches = self.in_turn(stretches, size, size)
            size = min(size // 2, len(stretches))
        return self.in_turn(stretches, LEAST_TURNS, 1)

    def in_turn(self, stretches: Stretches, size: int, stride: int) -> Stretches:
        """Puts the threads of each part of so many stretches one after the other, the last part first, where
        that makes fewer stretches."""
        at = len(stretches)
        while found := self.trials.first(parts_in_turn(stretches, at, size, stride)):
            at, stretches = found
        return stretches

    def with_shorter_turns(self, stretches: Stretches) -> Stretches:
        """Makes fewer instructions in a turn, the fewest that are found by halving; the last turn first."""
        for at in reversed([at for at, stretch in enumerate(stretches) if stretch.kind == EXEC]):
            least, most = 1, stretches[at].count
            while least < most:
                middle = (least + most) // 2
                shorter = stretches[at]._replace(count=middle)
                fewer = (*stretches[:at], shorter, *stretches[at + 1 :])
                if self.holds(fewer):
                    stretches, most = fewer, middle
                else:
                    least = middle + 1
        return stretches

    def with_early_drains(self, stretches: Stretches, waiting: Callable[[Stretches, int], Stretch]) -> Stretches:
        """Lets stores enter memory when the turn of their hart is over, as many as may: of those that still
        wait the first has to. `waiting` has a drain of all stores that wait after a stretch."""
        for at in reversed(turn_ends(stretches)):
            drain = waiting(stretches, at)
            more = (
                (at, (*stretches[: at + 1], drain._replace(count=count), *stretches[at + 1 :]))
                for count in range(drain.count, 0, -1)
            )
            found = self.trials.first(more)
            stretches = found[1] if found else stretches
        return stretches


def parts_left_out(
    stretches: Stretches, at: int, size: int, kind: str | None
) -> Iterator[tuple[int, Stretches]]:
    """The same without a part of so many stretches (of a kind): the last such part that ends at a place or
    before it, the one before it, and so on. With each comes where it began."""
    chosen = [number for number, stretch in enumerate(stretches[:at]) if kind in (None, stretch.kind)]
    for last in range(len(chosen), 0, -size):
        part = chosen[max(last - size, 0) : last]
        left_out = frozenset(part)
        yield part[0], tuple(one for number, one in enumerate(stretches) if number not in left_out)


def parts_in_turn(
    stretches: Stretches, at: int, size: int, stride: int
) -> Iterator[tuple[int, Stretches]]:
    """The same with the threads of a part of so many stretches one after the other, of each part that ends
    at a place or before it, in the orders in which they come first and last; where that makes fewer
    stretches. With each comes where the part ended."""
    for last in range(min(at, len(stretches)), 0, -stride):
        first = max(last - size, 0)
        part = stretches[first:last]
        threads = [stretch.thread for stretch in part]
        for order in (dict.fromkeys(threads), reversed(dict.fromkeys(reversed(threads)))):
            fewer = joined(stretches[:first] + in_turn(part, order) + stretches[last:])
            if len(fewer) < len(stretches):
                yield last, fewer


def turn_ends(stretches: Stretches) -> list[int]:
    """Where instructions stand after which another thread goes on, or nothing more is kept."""
    return [
        at
        for at, (one, following) in enumerate(zip(stretches, [*stretches[1:], None]))
        if one.kind == EXEC and (following is None or following.thread != one.thread)
    ]

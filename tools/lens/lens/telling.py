"""Writes a run as a steer that a person reads: orders, and comments that say what each part does."""
from __future__ import annotations

from collections.abc import Iterator
from itertools import groupby
from operator import attrgetter

from .history import History
from .listing import source
from .machine import CALM, Machine
from .output import DONE, DRAIN, EXEC, PREEMPT, RUN, SIGNAL, TAKE, Step, shown_console
from .place import HartPlace

TURNS_TOLD = 4

thread_and_hart = attrgetter('thread', 'hart')


class Telling:
    """Writes a run as a steer: orders for its first steps, with comments that say what each part does, and
    `finish`."""

    def __init__(
        self,
        history: History,
        parts: list[int],
        machine: Machine,
        by_end: bool,
        calm: int,
        unfinished: str | None,
    ):
        """`parts` has for each of the first steps the number of the part that it belongs to; `unfinished` is
        what is to be said of a search that was stopped."""
        self.history = history
        self.program = history.program
        self.steps = history.output.steps
        self.parts = parts
        self.machine = machine
        self.by_end = by_end
        self.calm = calm
        self.unfinished = unfinished

    def steer(self, is_counted: bool = False) -> list[str]:
        """The lines of the steer. Its orders name places, or they count events."""
        return list(self.lines(is_counted))

    def lines(self, is_counted: bool) -> Iterator[str]:
        output = self.history.output
        console = '' if self.by_end else f', console {shown_console(output.console)}'
        yield f'# A run with the end "{output.end}"{console}. Made by `lens shrink`.'
        if self.unfinished:
            yield f'# {self.unfinished}.'
        orders: list[str] = []
        turns = list(self.turns())
        for (first, last), following in zip(turns, [*turns[1:], None]):
            if self.steps[first - 1].kind == RUN:
                orders.append(self.steps[first - 1].short_line())
                continue
            order, comments = self.told(first, last)
            made = list(self.counted(first, last)) if is_counted else [order]
            if following is None or self.steps[following[0] - 1].hart != self.steps[first - 1].hart:
                comments += self.late_stores(self.steps[first - 1].hart, last)
            yield from (f'# {comment}' for comment in comments)
            yield from [*orders, *made]
            orders = []
        yield from orders
        yield f'# The rest of the run, by the rule of `finish`: {self.rest()}.'
        yield 'finish' if self.calm == CALM else f'finish calm {self.calm}'

    def rest(self) -> str:
        """Which threads go on behind the orders, in turn: the first of them."""
        late = [step for step in self.steps[len(self.parts) :] if step.kind == EXEC]
        turns = [f'thread {thread} on hart {hart}' for (thread, hart), _ in groupby(late, thread_and_hart)]
        return ', '.join([*turns[:TURNS_TOLD], '..'] if len(turns) > TURNS_TOLD else turns) or 'nothing'

    def counted(self, first: int, last: int) -> Iterator[str]:
        """The orders of a turn that count its events."""
        for (hart, kind), same in groupby(self.steps[first - 1 : last], attrgetter('hart', 'kind')):
            times = len(list(same))
            yield f'{hart} {kind}' + (f' x{times}' if times > 1 else '')

    def turns(self) -> Iterator[tuple[int, int]]:
        """The first and the last step of each turn: instructions as `go` makes them, drains, or another
        event."""
        first = 1
        for number in range(1, len(self.parts) + 1):
            if number == len(self.parts) or not self.is_one(number, number + 1):
                yield first, number
                first = number + 1

    def is_one(self, number: int, following: int) -> bool:
        """Whether two steps are of one turn: instructions, or another event, with the drains that they need;
        or drains."""
        one, other = self.steps[number - 1], self.steps[following - 1]
        return self.parts[number - 1] == self.parts[following - 1] and one.hart == other.hart

    def told(self, first: int, last: int) -> tuple[str, list[str]]:
        """The order of a turn, and what it does in words."""
        begin = self.steps[first - 1]
        kinds = {step.kind for step in self.steps[first - 1 : last]}
        if EXEC in kinds:
            return self.instructions(first, last)
        if kinds == {DRAIN}:
            return self.drains(first, last)
        event = self.steps[last - 1]
        return f'{begin.hart} go {event.kind}' if last > first else event.short_line(), [self.event(event)]

    def drains(self, first: int, last: int) -> tuple[str, list[str]]:
        """A turn of drains: all that wait on the hart, or which."""
        hart, times = self.steps[first - 1].hart, last - first + 1
        if not self.waiting(hart, last):
            return f'{hart} drain all', [f'All stores of hart {hart} enter memory.']
        stores = [self.history.drained[number] for number in range(first, last + 1)]
        order = f'{hart} drain' + (f' x{times}' if times > 1 else '')
        return order, self.each('It enters memory', stores)

    def instructions(self, first: int, last: int) -> tuple[str, list[str]]:
        """A turn of a thread, and where it leads."""
        begin, place = self.steps[first - 1], self.pc_after(last)
        goes = f'Thread {begin.thread} goes on hart {begin.hart}'
        if place is None:
            return f'{begin.hart} go', [f'{goes}, for as long as it can.']
        pcs = [step.pc for step in self.steps[first - 1 : last] if step.kind == EXEC]
        visit = pcs.count(place) + 1
        order = f'{begin.hart} go until {self.program.where(place)}' + (f' #{visit}' if visit > 1 else '')
        return order, [f'{goes}, up to {self.spot(place)}.']

    def late_stores(self, hart: int, last: int) -> list[str]:
        """Which stores of a hart wait behind the step with which its turn is over."""
        return self.each('Its store waits', self.waiting(hart, last))

    def each(self, words: str, stores: list[Step]) -> list[str]:
        """A line for each store, one for those of one source line that come one behind the other."""
        groups = ((text, len(list(same))) for text, same in groupby(map(self.store, stores)))
        return [f'{words}{f" ({count} times)" if count > 1 else ""}: {text}' for text, count in groups]

    def pc_after(self, last: int) -> int | None:
        """Where the thread of a step stands on its hart behind it; None where it has left the hart there."""
        step = self.steps[last - 1]
        after = next((other for other in self.steps[last:] if other.hart == step.hart and other.thread), None)
        if after is None:
            return self.pc_at_end(step)
        return after.pc if after.thread == step.thread and after.kind != RUN else None

    def pc_at_end(self, step: Step) -> int | None:
        """Where the thread of the last step of a hart stands there after it: another thread may end the
        process first."""
        place = self.machine.inspect([step.short_line() for step in self.steps[: step.number]])
        here = place.harts.get(step.hart, HartPlace())
        return here.pc if here.thread == step.thread and not place.is_over else None

    def waiting(self, hart: int, last: int) -> list[Step]:
        """Which stores of a hart wait behind a step."""
        late = [store for drain, store in self.history.drained.items() if drain > last]
        stores = [*late, *self.history.waiting]
        return [store for store in stores if store.hart == hart and store.number <= last]

    def event(self, step: Step) -> str:
        """What an event that is no instruction does, in a sentence."""
        at = self.spot(step.pc)
        return {
            PREEMPT: f'Thread {step.thread} is taken from hart {step.hart}, at {at}.',
            SIGNAL: f'A signal is delivered to thread {step.thread} on hart {step.hart}, at {at}.',
            TAKE: f'Hart {step.hart} takes the requests of barriers that are pending there.',
            DONE: f'The barrier of thread {step.thread} on hart {step.hart} returns.',
        }[step.kind]

    def spot(self, pc: int) -> str:
        """A place, and its line in the source."""
        line = self.program.line_name(pc)
        return self.program.where(pc) + (f' ({line})' if line else '')

    def store(self, step: Step) -> str:
        """The source line of a store, or the instruction where there is none."""
        text = f'{self.history.instructions[step.number].text} at {self.program.where(step.pc)}'
        return source(self.history, step.pc) or text

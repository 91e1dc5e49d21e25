"""The commands of `monitor` for a recorded run."""
from __future__ import annotations

from bisect import bisect_left, bisect_right
from collections.abc import Callable, Iterator
from typing import TYPE_CHECKING

from .call_list import asked
from .command_line import no_such
from .faults import LensFault
from .stops import BOTH, ENTERS, HART, MADE, MEMORY
from .timeline import CallMade
from .traced_calls import NUMBERS
from .watching import watched

if TYPE_CHECKING:
    from .gdb_stub import Stub

AROUND = 4
"""How many steps `events` shows on either side."""

HELP = {
    'step': ('', 'the place, and the next step'),
    'goto': ('N|end', 'the place before step N, or after the last; the next command that resumes goes there'),
    'harts': ('', 'threads, waiting stores, requests of barriers, areas'),
    'why': ('', 'why the run ended as it did'),
    'writer': ('NAME|0xAT[:SIZE]', 'who wrote these bytes last, and whose stores to them wait'),
    'events': ('[K]', f'the K steps on either side ({AROUND}), with all that they did'),
    'next-call': ('[NAME]', 'the place before the next system call, or before the next one of a name'),
    'previous-call': ('[NAME]', 'the same backwards'),
    'watch': ('made|enters|both', 'when a watched store counts: where it is made, enters memory, or both'),
    'view': ('hart|memory', 'what memory is: as the thread\'s hart sees it, or without stores that wait'),
    'thread': ('T', 'the thread that the next step backwards is of'),
    'writes': ('0xAT:SIZE', 'a watchpoint for accesses there stops at writes alone'),
    'help': ('', 'these commands'),
}
"""Of each command its words, and what it does."""


class Monitor:
    """Answers the commands of one gdb."""

    def __init__(self, stub: Stub):
        self.stub = stub
        self.recorded, self.timeline = stub.recorded, stub.timeline
        self.pending: int | None = None
        """The place to which the next resumption goes."""
        self.commands: dict[str, Callable[[list[str]], str]] = {
            'step': self.step,
            'goto': self.go,
            'harts': lambda _: '\n'.join(self.recorded.harts(self.place)),
            'why': lambda _: '\n'.join(self.recorded.causes()),
            'writer': self.writer,
            'events': self.events,
            'next-call': lambda words: self.call(words, True),
            'previous-call': lambda words: self.call(words, False),
            'watch': self.watch,
            'view': self.view,
            'thread': self.thread,
            'writes': self.writes,
            'help': lambda _: '\n'.join(help_lines()),
        }

    @property
    def place(self) -> int:
        return self.stub.place

    def answer(self, text: str) -> str:
        """What a command says, or what is wrong with it."""
        name, *words = text.split() or ['help']
        command = self.commands.get(name)
        if command is None:
            return f'{no_such("command", name, HELP)} (monitor help)'
        try:
            return command(words)
        except LensFault as fault:
            return f'{fault}'
        except (ValueError, IndexError):
            return f'monitor {usage(name)}'

    def step(self, _: list[str]) -> str:
        size = self.timeline.size
        if self.place == size:
            return f'after the last step, {size}: {self.timeline.end}'
        return f'before {self.recorded.line(self.place + 1)}, of {size}'

    def go(self, words: list[str]) -> str:
        size = self.timeline.size
        number = size + 1 if words[0] == 'end' else int(words[0])
        if not 1 <= number <= size + 1:
            return f'there is no step {number}: the run has the steps 1 to {size}'
        self.pending = number - 1
        return ''

    def writer(self, words: list[str]) -> str:
        return '\n'.join(self.recorded.writers(watched(self.recorded.program, words[0]), self.place))

    def events(self, words: list[str]) -> str:
        around = int(words[0]) if words else AROUND
        first, last = max(1, self.place - around + 1), min(self.timeline.size, self.place + around)
        return '\n'.join(self.event_lines(first, last))

    def event_lines(self, first: int, last: int) -> Iterator[str]:
        for number, facts in list(self.recorded.events(first, last)):
            mark = '=>' if number == self.place + 1 else '  '
            yield f'{mark} {self.recorded.line(number)}'
            yield from (f'       {fact}' for fact in facts)

    def call(self, words: list[str], is_forwards: bool) -> str:
        """Goes to the place before a call that comes, or that was."""
        found = self.next_call(words[0] if words else None, is_forwards)
        if found is None:
            which, of = 'further' if is_forwards else 'earlier', f' of {words[0]}' if words else ''
            return f'there is no {which} call{of}'
        self.pending = found.line - 1
        return f'{self.recorded.line(found.line)}: {self.words(found)} = {found.answer or "?"}'

    def words(self, call: CallMade) -> str:
        """A call with its arguments."""
        number = NUMBERS.get(call.name)
        return f'call {call.name}' if number is None else asked(self.recorded.program, number, call.arguments)

    def next_call(self, name: str | None, is_forwards: bool) -> CallMade | None:
        calls = self.timeline.calls
        if is_forwards:
            index = bisect_right(calls, self.place + 1, key=line_of_call)
            found = calls[index:]
        else:
            found = calls[: bisect_left(calls, self.place + 1, key=line_of_call)][::-1]
        return next((call for call in found if name in (None, call.name)), None)

    def watch(self, words: list[str]) -> str:
        return self.set_one('watch', 'moment', words[0], (MADE, ENTERS, BOTH))

    def view(self, words: list[str]) -> str:
        return self.set_one('view', 'view', words[0], (HART, MEMORY))

    def set_one(self, name: str, field: str, word: str, known: tuple[str, ...]) -> str:
        if word not in known:
            return f'monitor {usage(name)}'
        setattr(self.stub.points, field, word)
        return ''

    def thread(self, words: list[str]) -> str:
        thread = int(words[0])
        if thread not in self.timeline.threads:
            return f'the run has no thread {thread}'
        self.stub.hinted = thread
        return ''

    def writes(self, words: list[str]) -> str:
        named = watched(self.recorded.program, words[0])
        self.stub.points.written.add((named.at, named.size))
        return ''


def line_of_call(call: CallMade) -> int:
    return call.line


def usage(name: str) -> str:
    """The words of a command."""
    return f'{name} {HELP[name][0]}'.rstrip()


def help_lines() -> Iterator[str]:
    """What each command does."""
    width = max(len(usage(name)) for name in HELP)
    for name, (_, what) in HELP.items():
        yield f'monitor {usage(name).ljust(width)}  {what}'

"""The facts that `trace` prints below a log line: what an event read, wrote, and changed.

Each is a line behind two spaces. A line whose words aren't known here is kept as it stands (`Other`), so that
a program that tells more can be read.
"""
from __future__ import annotations

from collections.abc import Callable
from functools import cache
from typing import NamedTuple

START, MEMORY, STORE = 'start', 'memory', 'store'
RUNS, READY, SLEEPS, WOKEN, CREATED, ENDED = 'runs', 'ready', 'sleeps', 'woken', 'created', 'ended'
NO_BYTES = 'none'


class Read(NamedTuple):
    """Bytes that a load, an AMO or an LR read, their number, and where they came from: `source` is START,
    MEMORY (the event of `line` wrote them into memory) or STORE (of a store that waits, executed in
    `line`)."""

    at: int
    size: int
    value: int
    source: str
    line: int | None


class Waits(NamedTuple):
    """A plain store was executed, and waits."""

    at: int
    size: int
    value: int


class Wrote(NamedTuple):
    """A write entered memory; `line` is that of its store, or of the event itself. `old` is what stood there:
    None for a write of the kernel."""

    at: int
    size: int
    value: int
    old: int | None
    line: int


class Zeroed(NamedTuple):
    """Pages were mapped: so many bytes are 0."""

    at: int
    length: int


class Reservation(NamedTuple):
    """The reservation of the hart for 8 bytes: `reserved`, `used`, `failed` or `ended`."""

    word: str
    at: int


class Lost(NamedTuple):
    """Another hart lost its reservation to a write of this event."""

    hart: int
    at: int
    by: int


class Register(NamedTuple):
    """A register has another value: one of the thread of the line, or of the thread that is named."""

    thread: int | None
    number: int
    name: str
    value: int


class ThreadState(NamedTuple):
    """A thread is created, ended, runs, is ready, sleeps at a word, or is woken."""

    thread: int
    state: str
    at: int | None


class AreaWord(NamedTuple):
    """A word of the area of the line's thread has another value."""

    field: str
    value: int


class Called(NamedTuple):
    """The call that was made, and the arguments that count. One that isn't there is named by its number."""

    name: str
    arguments: tuple[int, ...]


class Answer(NamedTuple):
    """What a call answered: a value, or the name of an error; neither where it answers later, or never."""

    value: int | None
    error: str | None
    is_later: bool


class BarrierBegins(NamedTuple):
    """The harts that have to take the request of a barrier."""

    harts: tuple[int, ...]


class BarrierReturns(NamedTuple):
    """The barrier of the line's thread returns."""


class Taken(NamedTuple):
    """The harts whose requests were taken, and whether one of these asks for a restart."""

    harts: tuple[int, ...]
    is_restart: bool


class Interrupted(NamedTuple):
    """What an interruption came to: `nothing`, `cleared`, `aborted` from one pc to another (`at`, `value`),
    or `killed`: what is wrong, at which address, and the number there (None where it can't be read)."""

    word: str
    what: str | None
    at: int | None
    value: int | None


class Signal(NamedTuple):
    """A signal was `posted` to a thread, `dropped` there, or `delivered` to the line's thread: to the handler
    at `handler` with its frame at `frame`, or it kills."""

    number: int
    word: str
    thread: int | None
    handler: int | None
    frame: int | None


class Faulted(NamedTuple):
    """The instruction faulted: the signal, why, and at which address."""

    signal: int
    why: str
    at: int


class Killed(NamedTuple):
    """The event ended the process by a signal, for this reason."""

    why: str


class SequenceBegins(NamedTuple):
    """A restartable sequence begins with the event: where it starts, its length, and its abort handler."""

    start: int
    length: int
    abort: int


class SequenceEnds(NamedTuple):
    """A sequence has ended, or isn't over where the log ends: how (as `acts` says it), the abort handler where
    it was cut, and its first and last line."""

    form: str
    abort: int | None
    first: int
    last: int


class Other(NamedTuple):
    """A fact that isn't known here."""

    text: str


Fact = (
    Read
    | Waits
    | Wrote
    | Zeroed
    | Reservation
    | Lost
    | Register
    | ThreadState
    | AreaWord
    | Called
    | Answer
    | BarrierBegins
    | BarrierReturns
    | Taken
    | Interrupted
    | Signal
    | Faulted
    | Killed
    | SequenceBegins
    | SequenceEnds
    | Other
)


def number(digits: str) -> int:
    """An address, a value, or an argument."""
    return int(digits, 16)


def read(words: list[str]) -> Read:
    _, at, size, value, source, *line = words
    return Read(int(at, 16), int(size), int(value, 16), source, int(line[0]) if line else None)


def waits(words: list[str]) -> Waits:
    _, at, size, value = words
    return Waits(int(at, 16), int(size), int(value, 16))


def wrote(words: list[str]) -> Wrote:
    old = int(words[5], 16) if words[4] == 'old' else None
    return Wrote(int(words[1], 16), int(words[2]), int(words[3], 16), old, int(words[-1]))


def zeroed(words: list[str]) -> Zeroed:
    return Zeroed(number(words[1]), int(words[2]))


def reservation(words: list[str]) -> Reservation:
    return Reservation(words[0], number(words[1]))


def lost(words: list[str]) -> Lost:
    _, hart, at, _, by = words
    return Lost(int(hart), number(at), number(by))


def of_thread(words: list[str]) -> Fact:
    """`thread T STATE`, `thread T sleeps AT`, or `thread T xN NAME VALUE`."""
    _, thread, *rest = words
    if rest[0] in (RUNS, READY, SLEEPS, WOKEN, CREATED, ENDED):
        return ThreadState(int(thread), rest[0], number(rest[1]) if len(rest) > 1 else None)
    register, name, value = rest
    return Register(int(thread), int(register.removeprefix('x')), name, number(value))


def register(words: list[str]) -> Register:
    name, alias, value = words
    return Register(None, int(name[1:]), alias, int(value, 16))


def area(words: list[str]) -> AreaWord:
    return AreaWord(words[1], number(words[2]))


def called(words: list[str]) -> Called:
    return Called(words[1], tuple(map(number, words[2:])))


def answer(words: list[str]) -> Answer:
    """`answer VALUE`, `answer later`, `error NAME`, or `no answer`."""
    match words:
        case ['answer', 'later']:
            return Answer(None, None, True)
        case ['answer', value]:
            return Answer(number(value), None, False)
        case ['error', name]:
            return Answer(None, name, False)
        case ['no', 'answer']:
            return Answer(None, None, False)
    raise ValueError


def barrier(words: list[str]) -> Fact:
    match words:
        case [_, 'begins', *harts]:
            return BarrierBegins(tuple(map(int, harts)))
        case [_, 'returns']:
            return BarrierReturns()
    raise ValueError


def taken(words: list[str]) -> Taken:
    _, *harts, _, is_restart = words
    return Taken(tuple(map(int, harts)), is_restart == 'yes')


def interrupted(words: list[str]) -> Interrupted:
    match words[1:]:
        case ['killed', what, at, value]:
            found = None if value == NO_BYTES else number(value)
            return Interrupted('killed', what, number(at), found)
        case ['aborted', begin, end]:
            return Interrupted('aborted', None, number(begin), number(end))
        case [word]:
            return Interrupted(word, None, None, None)
    raise ValueError


def signal(words: list[str]) -> Signal:
    match words[1:]:
        case [name, 'delivered', 'handler', handler, 'frame', frame]:
            return Signal(int(name), 'delivered', None, number(handler), number(frame))
        case [name, 'delivered', 'kills']:
            return Signal(int(name), 'delivered', None, None, None)
        case [name, ('posted' | 'dropped') as word, thread]:
            return Signal(int(name), word, int(thread), None, None)
    raise ValueError


def faulted(words: list[str]) -> Faulted:
    _, name, why, at = words
    return Faulted(int(name), why, number(at))


def killed(words: list[str]) -> Killed:
    _, why = words
    return Killed(why)


def sequence(words: list[str]) -> Fact:
    match words[1:]:
        case ['begins', start, length, abort]:
            return SequenceBegins(number(start), int(length), number(abort))
        case ['ends', form, *abort, 'first', first, 'last', last] if len(abort) == (form == 'cut'):
            return SequenceEnds(form, number(abort[0]) if abort else None, int(first), int(last))
    raise ValueError


READERS: dict[str, Callable[[list[str]], Fact]] = {
    'read': read,
    'waits': waits,
    'wrote': wrote,
    'zeroed': zeroed,
    'reserved': reservation,
    'used': reservation,
    'failed': reservation,
    'ended': reservation,
    'lost': lost,
    'thread': of_thread,
    'area': area,
    'call': called,
    'answer': answer,
    'error': answer,
    'no': answer,
    'barrier': barrier,
    'taken': taken,
    'interrupted': interrupted,
    'signal': signal,
    'fault': faulted,
    'killed': killed,
    'sequence': sequence,
    **{f'x{number}': register for number in range(32)},
}
"""By the first word of a fact."""


def read_fact(line: str) -> Fact:
    """What a line behind its two spaces says."""
    words = line.split(' ')
    reader = READERS.get(words[0])
    try:
        return reader(words) if reader else Other(line)
    except (ValueError, IndexError):
        return Other(line)


fact_of = cache(read_fact)
"""The same. (A run tells the same again and again.)"""

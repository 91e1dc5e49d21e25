"""What memory held at each place of a run, and what each hart saw there: by bisection in what was written."""
from __future__ import annotations

from array import array
from bisect import bisect_left, bisect_right
from collections import defaultdict
from collections.abc import Iterator
from typing import NamedTuple

from .program import HANDLER_RETURN, RETURNING, Program

PAGE, WORD = 4_096, 8
WORDS_OF_PAGE = PAGE // WORD
ALL, ALL_BYTES = (1 << 64) - 1, 0xFF
STACK, STACK_END = 0x3F_FFF0_0000, 0x3F_FFF4_0000
"""Where the stack of the first thread is."""
FILLED = STACK_END - PAGE
"""The page of it that isn't empty at the start: the arguments and the auxiliary vector stand there."""


class Series:
    """A number that changes: from which places on it was what."""

    __slots__ = ('places', 'values')

    def __init__(self) -> None:
        self.places = array('I')
        self.values = array('Q')

    def note(self, place: int, value: int) -> None:
        """It has this value from a place on, which is none before the last one."""
        if self.places and self.places[-1] == place:
            self.values[-1] = value
        else:
            self.places.append(place)
            self.values.append(value)

    def at(self, place: int, before: int) -> int:
        """What it was at a place; `before` where it hadn't changed yet."""
        index = bisect_right(self.places, place)
        return self.values[index - 1] if index else before

    def newest(self) -> int:
        """What it is after all that was noted; 0 where it never changed."""
        return self.values[-1] if self.values else 0


class Touches:
    """The lines that touch an aligned word of memory, and which of its bytes: bit B of a mask is byte B."""

    __slots__ = ('lines', 'masks')

    def __init__(self) -> None:
        self.lines = array('I')
        self.masks = array('B')

    def note(self, line: int, mask: int) -> None:
        if self.lines and self.lines[-1] == line:
            self.masks[-1] |= mask
        else:
            self.lines.append(line)
            self.masks.append(mask)

    def next(self, after: int, wanted: int) -> int | None:
        """The first line past one that touches one of the bytes of a mask."""
        index = bisect_right(self.lines, after)
        while index < len(self.lines):
            if self.masks[index] & wanted:
                return self.lines[index]
            index += 1
        return None

    def last(self, up_to: int, wanted: int) -> int | None:
        """The last line up to one that does."""
        index = bisect_right(self.lines, up_to) - 1
        while index >= 0:
            if self.masks[index] & wanted:
                return self.lines[index]
            index -= 1
        return None


class Index:
    """Which lines touch which bytes."""

    def __init__(self) -> None:
        self.words: dict[int, Touches] = {}

    def note(self, line: int, at: int, size: int) -> None:
        """A line touches at most 8 bytes."""
        word, mask = at // WORD, ((1 << size) - 1) << at % WORD
        if mask > ALL_BYTES:
            self.note(line, (word + 1) * WORD, (mask >> WORD).bit_length())
            mask &= ALL_BYTES
        touches = self.words.get(word)
        if touches is None:
            touches = self.words[word] = Touches()
        touches.note(line, mask)

    def next(self, at: int, size: int, after: int) -> int | None:
        """The first line past one that touches one of some bytes."""
        found = [touches.next(after, mask) for touches, mask in self.parts(at, size)]
        return min(filter(None, found), default=None)

    def last(self, at: int, size: int, up_to: int) -> int | None:
        """The last line up to one that does."""
        found = [touches.last(up_to, mask) for touches, mask in self.parts(at, size)]
        return max(filter(None, found), default=None)

    def has(self, line: int, at: int, size: int) -> bool:
        """Whether a line touches one of some bytes."""
        return self.next(at, size, line - 1) == line

    def parts(self, at: int, size: int) -> Iterator[tuple[Touches, int]]:
        for word, mask in masks_of(at, size):
            if word in self.words:
                yield self.words[word], mask


def masks_of(at: int, size: int) -> Iterator[tuple[int, int]]:
    """The words that have one of some bytes, each with a mask of these."""
    first, last = at // WORD, (at + size - 1) // WORD
    for word in range(first, last + 1):
        low, high = max(at - word * WORD, 0), min(at + size - word * WORD, WORD)
        yield word, (1 << high) - (1 << low)


class Store(NamedTuple):
    """A store: the line that executed it, that which entered it into memory (None where none did), the
    address, how many bytes, and their number."""

    executed: int
    entered: int | None
    at: int
    size: int
    value: int


class Buffer:
    """The stores of a hart. They enter memory in the order in which they were executed, so those that wait at
    a place stand side by side."""

    def __init__(self) -> None:
        self.executed = array('I')
        self.entered = array('I')
        self.ats = array('Q')
        self.sizes = array('B')
        self.values = array('Q')

    def execute(self, line: int, at: int, size: int, value: int) -> None:
        self.executed.append(line)
        self.ats.append(at)
        self.sizes.append(size)
        self.values.append(value)

    def store(self, index: int) -> Store:
        entered = self.entered[index] if index < len(self.entered) else None
        return Store(self.executed[index], entered, self.ats[index], self.sizes[index], self.values[index])

    def count(self, place: int) -> int:
        """How many stores wait at a place."""
        return bisect_right(self.executed, place) - bisect_right(self.entered, place)

    def waiting(self, place: int) -> Iterator[Store]:
        """Those that wait at a place, the oldest first."""
        return map(self.store, range(bisect_right(self.entered, place), bisect_right(self.executed, place)))

    def executed_in(self, line: int) -> Store | None:
        """The store that a line executes."""
        index = bisect_left(self.executed, line)
        return self.store(index) if index < len(self.executed) and self.executed[index] == line else None

    def entered_in(self, line: int) -> Store | None:
        """The store that a line enters into memory."""
        index = bisect_left(self.entered, line)
        return self.store(index) if index < len(self.entered) and self.entered[index] == line else None


class FirstMemory:
    """What memory holds at the start."""

    def __init__(self, program: Program, words: dict[int, int]):
        """The segments of a file, the code that handlers return to, and some words, by address."""
        self.pages: dict[int, bytearray] = {}
        self.mapped = {HANDLER_RETURN // PAGE, *range(STACK // PAGE, STACK_END // PAGE)}
        for segment in program.segments:
            self.mapped.update(range(segment.start // PAGE, -(-segment.end // PAGE)))
            self.put(segment.start, segment.content)
        for at, instruction in RETURNING.items():
            self.put(at, instruction.word.to_bytes(4, 'little'))
        for at, value in words.items():
            self.put(at, value.to_bytes(WORD, 'little'))

    def put(self, at: int, content: bytes) -> None:
        while content:
            page, offset = divmod(at, PAGE)
            part = content[: PAGE - offset]
            self.pages.setdefault(page, bytearray(PAGE))[offset : offset + len(part)] = part
            at, content = at + len(part), content[len(part) :]

    def word(self, word: int) -> int:
        page, index = divmod(word, WORDS_OF_PAGE)
        content = self.pages.get(page)
        return int.from_bytes(content[index * WORD : (index + 1) * WORD], 'little') if content else 0


class MemoryHistory:
    """What memory held, and what waited to enter it."""

    def __init__(self, first: FirstMemory, harts: int):
        self.first = first
        self.words: dict[int, Series] = {}
        self.zeroed: dict[int, array[int]] = {}
        """By page the lines that made all of it 0."""
        self.mappings: dict[int, list[tuple[int, bool]]] = defaultdict(list)
        """By page the lines that mapped it (True), or took it away."""
        self.buffers = [Buffer() for _ in range(harts)]
        self.reads, self.made, self.entering = Index(), Index(), Index()
        """The lines that read, those that execute a store or write at once, and those by which a write enters
        memory."""

    # as a run goes on

    def write(self, line: int, at: int, size: int, value: int) -> None:
        """Bytes are in memory from a line on."""
        self.entering.note(line, at, size)
        word, shift = at // WORD, at % WORD * 8
        mask, bits = ((1 << size * 8) - 1) << shift, value << shift
        self.change(line, word, mask & ALL, bits & ALL)
        if mask > ALL:
            self.change(line, word + 1, mask >> 64, bits >> 64)

    def change(self, line: int, word: int, mask: int, bits: int) -> None:
        series = self.words.get(word)
        if series is None:
            series = self.words[word] = Series()
        series.note(line, bits if mask == ALL else self.newest(word, series) & ~mask | bits)

    def newest(self, word: int, series: Series) -> int:
        """What a word holds after all that was noted."""
        zeroed = self.zeroed.get(word // WORDS_OF_PAGE)
        if zeroed and (not series.places or series.places[-1] < zeroed[-1]):
            return 0
        return series.values[-1] if series.places else self.first.word(word)

    def map(self, line: int, at: int, length: int) -> None:
        """Pages are there from a line on, and are 0."""
        for page in range(at // PAGE, (at + length) // PAGE):
            self.mappings[page].append((line, True))
            self.zeroed.setdefault(page, array('I')).append(line)

    def unmap(self, line: int, start: int, end: int) -> None:
        """The pages of some bytes are gone from a line on."""
        for page in range(start // PAGE, -(-end // PAGE)):
            self.mappings[page].append((line, False))

    # at a place

    def is_mapped(self, page: int, place: int) -> bool:
        found = page in self.first.mapped
        for line, is_there in self.mappings.get(page, ()):
            if line > place:
                break
            found = is_there
        return found

    def word(self, word: int, place: int) -> int:
        """What the aligned 8 bytes of a number hold, which are mapped."""
        series, zeroed = self.words.get(word), self.zeroed.get(word // WORDS_OF_PAGE)
        index = bisect_right(series.places, place) if series else 0
        zeros = bisect_right(zeroed, place) if zeroed else 0
        if zeroed and zeros and not (series and index and series.places[index - 1] >= zeroed[zeros - 1]):
            return 0
        return series.values[index - 1] if series and index else self.first.word(word)

    def bytes_at(self, at: int, size: int, place: int, hart: int | None) -> bytes:
        """What a hart sees in some bytes, None of them: what memory holds. As many as are mapped."""
        end = at
        while end < at + size and self.is_mapped(end // PAGE, place):
            end = (end // PAGE + 1) * PAGE
        end = min(end, at + size)
        if end <= at:
            return b''
        first, last = at // WORD, (end - 1) // WORD
        found = bytearray(
            b''.join(self.word(word, place).to_bytes(WORD, 'little') for word in range(first, last + 1))
        )
        for store in self.buffers[hart].waiting(place) if hart is not None else ():
            overlay(found, first * WORD, store)
        return bytes(found[at - first * WORD : end - first * WORD])


def overlay(found: bytearray, start: int, store: Store) -> None:
    """Puts what a store writes over bytes that begin at an address."""
    for index, byte in enumerate(store.value.to_bytes(WORD, 'little')[: store.size], store.at - start):
        if 0 <= index < len(found):
            found[index] = byte

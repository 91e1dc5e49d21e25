"""What memory holds at a place, with the names of variables: `lens inspect --memory`."""
from __future__ import annotations

from collections.abc import Iterator

from .faults import LensFault
from .program import Program
from .watching import Range, watched

WORD = 8
MOST = 65_536
"""How many bytes of one range the program shows."""
NO_BYTES = 'none'


def ranges_of(program: Program, named: list[str]) -> list[Range]:
    """The bytes that some words name, as `lens watch` takes them; a fault where they are too many."""
    ranges = [watched(program, words) for words in named]
    for words, range_ in zip(named, ranges):
        if range_.size > MOST:
            raise LensFault(
                f'{words} has {range_.size} bytes, and {MOST} at once can be shown: NAME+OFF:SIZE names some'
            )
    return ranges


def asked(ranges: list[Range]) -> str:
    """The words by which the program is asked for these bytes. It shows whole words, so one of which another
    range has all words isn't asked for again."""
    wanted: list[str] = []
    shown: set[int] = set()
    for range_ in ranges:
        words = set(range(range_.at // WORD, (range_.at + range_.size - 1) // WORD + 1))
        if not words <= shown:
            wanted.append(f'{range_.at:x}:{range_.size}')
            shown |= words
    return f'--memory={",".join(wanted)}'


def with_names(program: Program, ranges: list[Range], text: str) -> Iterator[str]:
    """The lines of a place, behind those of memory the variables there and what they hold."""
    for line in text.splitlines():
        match line.split(' '):
            case ['memory', at, value] | ['hart', _, 'sees', at, value]:
                yield f'{line}  {", ".join(words_of(program, ranges, int(at, 16), value))}'
            case _:
                yield line


def words_of(program: Program, ranges: list[Range], at: int, value: str) -> Iterator[str]:
    """What stands in the bytes of a word that are asked for: each variable or member there, and its value."""
    for name, start, size in parts_of(program, ranges, at):
        if value == NO_BYTES:
            yield name
        else:
            number = int(value, 16) >> 8 * (start - at) & ((1 << 8 * size) - 1)
            yield f'{name} = {program.number(number, size)}'


def parts_of(program: Program, ranges: list[Range], at: int) -> Iterator[tuple[str, int, int]]:
    """The variables and members in a word of which a byte is asked for, in order: name, address and size.
    Those that have bytes outside of the word are told by those inside."""
    told = set()
    for range_ in ranges:
        start, end = max(at, range_.at), min(at + WORD, range_.at + range_.size)
        for name, begin, size in program.parts(start, end) if start < end else ():
            first, last = max(at, begin), min(at + WORD, begin + size)
            whole = (first, last) == (begin, begin + size)
            part = (name if whole else program.bytes_of(first, last - first), first, last - first)
            if part not in told:
                told.add(part)
                yield part

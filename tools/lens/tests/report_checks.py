"""Compares what a page about a run shows at a place with what `inspect` prints of it."""
from __future__ import annotations

from collections.abc import Iterator, Mapping
from dataclasses import dataclass

from lens.calls import NAMES_OF
from lens.program import Program

Shown = Mapping[str, str]
"""By key what a page shows."""
NO_BYTES = 'none'


@dataclass(frozen=True)
class Difference:
    """What a page shows, and what is due."""

    key: str
    shown: str | None
    due: str


def hexadecimal(digits: str) -> str:
    return hex(int(digits, 16))


def signals(mask: str) -> str:
    """The names of the signals of a mask."""
    names = [NAMES_OF['signal'](number) for number in range(1, 65) if int(mask, 16) >> number - 1 & 1]
    return ' '.join(names) or 'none'


def due_of(line: str) -> tuple[str, str] | None:
    """The key and the value that a line of `inspect` is about; None of a line that a page doesn't show so."""
    match line.split(' '):
        case ['hart', hart, 'idle']:
            return f'h{hart}.thread', 'idle'
        case ['hart', hart, 'thread', thread, 'pc', *_]:
            return f'h{hart}.thread', f'thread {thread}'
        case ['hart', hart, 'reservation', at]:
            return f'h{hart}.reservation', at if at == NO_BYTES else hexadecimal(at)
        case ['hart', hart, 'requests', *harts]:
            return f'h{hart}.requests', ' '.join(harts)
        case ['hart', hart, 'restart', word]:
            return f'h{hart}.restart', word
        case ['thread', thread, 'mask', _, 'pending', mask]:
            return f't{thread}.pending', signals(mask)
        case ['thread', thread, 'pc', pc]:
            return f't{thread}.pc', hexadecimal(pc)
    return None


def due(text: str) -> Iterator[tuple[str, str]]:
    """The keys and values of a place, but for its memory and its buffers."""
    running: dict[str, str] = {}
    for line in text.splitlines():
        words = line.split(' ')
        if found := due_of(line):
            yield found
        if words[0] == 'hart' and words[2] == 'thread':
            running[words[1]] = words[3]
            yield f't{words[3]}.pc', hexadecimal(words[5])
        elif words[0] == 'hart' and words[2] != 'x0' and words[2][0] == 'x' and words[2][1:].isdecimal():
            yield f't{running[words[1]]}.{words[2]}', hexadecimal(words[4])


def states(text: str) -> Iterator[tuple[str, str]]:
    """By a thread's key how what is said of its state begins."""
    for line in text.splitlines():
        match line.split(' '):
            case ['thread', thread, 'ready']:
                yield f't{thread}.state', 'ready'
            case ['thread', thread, 'running', hart]:
                yield f't{thread}.state', f'on hart {hart}'
            case ['thread', thread, 'waiting', at]:
                yield f't{thread}.state', f'waits in futex at {hexadecimal(at)}'


def buffers(text: str) -> dict[int, list[str]]:
    """The stores that wait, by hart, as a page shows their bytes."""
    found: dict[int, list[str]] = {}
    for line in text.splitlines():
        match line.split(' '):
            case ['hart', hart, 'store', at, size, value]:
                number = int(value, 16) & (1 << 8 * int(size)) - 1
                found.setdefault(int(hart), []).append(f'{size} at {hexadecimal(at)}: {number:#x}')
    return found


def memory(text: str) -> dict[str | None, dict[int, int]]:
    """What is in words of memory, by their address: as memory has them (None), and as harts see those that
    they see otherwise."""
    found: dict[str | None, dict[int, int]] = {None: {}}
    for line in text.splitlines():
        match line.split(' '):
            case ['memory', at, value, *_] if value != NO_BYTES:
                found[None][int(at, 16)] = int(value, 16)
            case ['hart', hart, 'sees', at, value, *_]:
                found.setdefault(hart, {})[int(at, 16)] = int(value, 16)
    return found


def part_of(words: Mapping[int, int], at: int, size: int) -> int:
    """The number in some bytes of words of memory."""
    return sum((words[byte & ~7] >> 8 * (byte & 7) & 0xFF) << 8 * (byte - at) for byte in range(at, at + size))


def due_memory(program: Program, text: str, parts: list[tuple[str, int, int]], harts: list[int]) -> Iterator[tuple[str, str]]:
    """What is due of each variable that is watched: in memory, and to each hart."""
    found = memory(text)
    for name, at, size in parts:
        if at & ~7 in found[None]:
            yield f'm.{name}', program.number(part_of(found[None], at, size), size)
            for hart in harts:
                seen = {**found[None], **found.get(str(hart), {})}
                yield f'v{hart}.{name}', program.number(part_of(seen, at, size), size)


def differences(
    program: Program, shown: Shown, text: str, parts: list[tuple[str, int, int]], harts: list[int]
) -> Iterator[Difference]:
    """Where a page shows something else than a text of `inspect` says."""
    for key, value in [*due(text), *due_memory(program, text, parts, harts)]:
        if is_shown(key, harts) and shown.get(key) != value:
            yield Difference(key, shown.get(key), value)
    for key, value in states(text):
        if not shown.get(key, '').startswith(value):
            yield Difference(key, shown.get(key), value)


def is_shown(key: str, harts: list[int]) -> bool:
    """Whether a page shows a key: it has the harts that do something."""
    return key[0] != 'h' or int(key[1 : key.index('.')]) in harts

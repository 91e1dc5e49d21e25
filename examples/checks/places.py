"""`inspect`: what it says of the place that a script leads to."""
from __future__ import annotations

from pathlib import Path
from typing import TypeVar

from .programs import DONE, SCRIPT_REFUSED, expect_play, on_script, want
from .texts import parts_of

Row = TypeVar('Row')


def asked(line: bytes) -> list[bytes]:
    """What a line of a script, or of a log, asks for: a hart and a kind of event, and for `run` the thread."""
    fields = line.split()
    return fields[:3] if fields[1] == b'run' else fields[:2]


def check_place(program: Path, elf: Path, lines: list[bytes], end: bytes) -> list[list[bytes]]:
    """`inspect` after these lines tells this end; the first and the last line that it says may come are played there, and the first
    and the last that may not are refused. Gives what may not come."""
    status, text = on_script(program, 'inspect', elf, b''.join(lines), '2')
    want('the status of its place', status, DONE)
    rows = text.splitlines(keepends=True)
    want('the head of its place', b''.join(rows[:2]), b'place %d\n' % len(lines) + end)
    check_memory(program, elf, lines, rows)
    may = [row[len(b'may '):] for row in rows if row.startswith(b'may ')]
    may_not = [asked(row[len(b'not '):]) for row in rows if row.startswith(b'not ')]
    for line in ends(may):
        status, text = on_script(program, 'play', elf, b''.join([*lines, line]), '2')
        want(f'the status of {line!r} behind line {len(lines)}', status, DONE)
        want(f'the last step of {line!r} behind line {len(lines)}', parts_of(text).log[-1], line)
    for fields in ends(may_not):
        expect_play(program, elf, b''.join([*lines, b' '.join(fields)]), '2', SCRIPT_REFUSED, b'fault script %d\n' % (len(lines) + 1))
    return may_not


def check_memory(program: Path, elf: Path, lines: list[bytes], rows: list[bytes]) -> None:
    """`inspect --memory` after these lines, of the bytes of the stores that wait: behind the place each hart sees its own stores there,
    the oldest first, over what memory has."""
    stores = [row.split()[1:] for row in rows if b' store ' in row]
    if not stores:
        return
    spans = b','.join(b'%s:%s' % (at, size) for _, _, at, size, _ in stores)
    status, text = on_script(program, 'inspect', elf, b''.join(lines), '2', '--memory', spans.decode())
    want('the status of its memory', status, DONE)
    told = text.splitlines(keepends=True)
    want('the place before its memory', told[:len(rows)], rows)
    due = []
    for row in told[len(rows):]:
        if row.startswith(b'memory '):
            at, held = (int(field, 16) for field in row.split()[1:])
            due += [row, *(seen_row(hart, at, held, stores) for hart in (b'0', b'1'))]
    want('what harts see of its memory', b''.join(told[len(rows):]), b''.join(due))


def seen_row(hart: bytes, at: int, held: int, stores: list[list[bytes]]) -> bytes:
    """The line of what a hart sees of 8 bytes where these stores wait; nothing where it sees what memory has."""
    seen = bytearray(held.to_bytes(8, 'little'))
    for owner, _, first, size, value in stores:
        for k, byte in enumerate(int(value, 16).to_bytes(8, 'little')[:int(size)]):
            place = int(first, 16) + k - at
            if owner == hart and 0 <= place < 8:
                seen[place] = byte
    number = int.from_bytes(seen, 'little')
    return b'' if number == held else b'hart %s sees %016x %016x\n' % (hart, at, number)


def ends(rows: list[Row]) -> list[Row]:
    """The first and the last of them, as far as there are."""
    return rows[:1] + rows[1:][-1:]

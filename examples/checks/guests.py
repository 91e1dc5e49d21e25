"""The guests, programs that are made for a size."""
from __future__ import annotations

import re
import tempfile
from collections.abc import Iterator
from functools import partial
from pathlib import Path

from .programs import DONE, STEPS, Check, Difference, passes, run, want
from .seeds import HARTS, check_draws, check_runs

GUESTS = {'counter': (100, 400), 'list': (50, 100), 'pool': (50, 512), 'dekker': (20, 0), 'signals': (20, 20), 'migrate': (8, 800),
          'ring': (100, 4000), 'urcu': (20, 0)}
URCU_SIZE, URCU_RUNS = '10', '4000'
BARRIER = bytes.fromhex('1305800093050000130600009308b01173000000')
"""a0 = 8, a1 = 0, a2 = 0, a7 = 283, ecall"""
NO_CALL = BARRIER[:-4] + bytes.fromhex('13000000')


def check_guests(program: Path, names: list[str]) -> tuple[int, int]:
    """How many guests fail, and how many there are."""
    guests = [guest for guest in GUESTS if not names or guest in names]
    broken = sum(not passes(guest, checks_of_guest(program, guest)) for guest in guests)
    print(f'{len(guests) - broken} guests passed' + (f', {broken} failed' if broken else ''))
    return broken, len(guests)


def checks_of_guest(program: Path, guest: str) -> Iterator[Check]:
    yield 'guest', partial(check_guest, program, guest)
    if guest == 'urcu':
        yield 'barrier', partial(check_barrier, program)


def check_guest(program: Path, guest: str) -> None:
    """A guest that is made runs by workers, by draws and by rounds, on each number of harts."""
    size, number = GUESTS[guest]
    console = b'%d\n' % number
    status, file = run(program, 'make', guest, str(size))
    want('the status of make', status, DONE)
    with tempfile.NamedTemporaryFile(suffix='.elf') as elf:
        elf.write(file)
        elf.flush()
        for harts in HARTS:
            check_runs(program, [(console, b'end exit 0\n')], elf.name, harts)
            check_draws(program, [(console, b'end exit 0\n')], elf.name, harts)
            check_trial(program, guest, size, console, harts)


def check_trial(program: Path, guest: str, size: int, console: bytes, harts: str) -> None:
    """`trial` of a guest on so many harts: its console, and the same text at a second call."""
    words = ('trial', guest, str(size), '--harts', harts, '--steps', STEPS)
    status, text = run(program, *words)
    want('its status', status, DONE)
    want('its text at a second call', run(program, *words), (status, text))
    want('its console', text.startswith(b'console %d\n%s\n' % (len(console), console)), True)


def outcomes_of(program: Path, file: bytes) -> int:
    """How many different outcomes `explore` finds of a program."""
    with tempfile.NamedTemporaryFile(suffix='.elf') as elf:
        elf.write(file)
        elf.flush()
        status, text = run(program, 'explore', elf.name, '--runs', URCU_RUNS, '--steps', '100000')
    want('the status of explore', status, DONE)
    found = re.match(rb'outcomes (\d+)\n', text)
    if found is None:
        raise Difference(f'explore prints {text[:60]!r}')
    return int(found[1])


def check_barrier(program: Path) -> None:
    """The guest urcu has one outcome, and more than one where its sync block calls no membarrier."""
    status, file = run(program, 'make', 'urcu', URCU_SIZE)
    want('the status of make', status, DONE)
    want('how many sync blocks there are', file.count(BARRIER), 1)
    want('the outcomes of urcu', outcomes_of(program, file), 1)
    want('whether urcu without its call has more', outcomes_of(program, file.replace(BARRIER, NO_CALL)) > 1, True)

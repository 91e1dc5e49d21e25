"""`run` and `draw` with seeds: each ends in one of the ways that are allowed."""
from __future__ import annotations

import re
from collections.abc import Iterator
from pathlib import Path

from .programs import DONE, STEPS, Difference, Word, run, want
from .scripts import check_replay
from .texts import parts_of

SEEDS = range(1, 11)
DRAWN_SEEDS = range(5)
HARTS = ('1', '2', '4', '8')
Allowed = tuple[bytes, bytes]
"""A console, as an expression, and the end that comes with it."""


def outcomes(folder: Path) -> Iterator[Allowed]:
    """The consoles with which a run of the example may end, as expressions, each with its end."""
    end = (folder / 'end.expected').read_bytes()
    yield re.escape((folder / 'console.expected').read_bytes()), end
    for console in folder.glob('outcomes/*.console'):
        yield re.escape(console.read_bytes()), end_of_outcome(console, end)
    for pattern in folder.glob('outcomes/*.pattern'):
        yield pattern.read_bytes(), end_of_outcome(pattern, end)


def end_of_outcome(outcome: Path, end: bytes) -> bytes:
    """The end beside an outcome; that of the example where none is there."""
    own = outcome.with_suffix('.end')
    return own.read_bytes() if own.is_file() else end


def with_seed(program: Path, command: str, elf: Word, harts: str, seed: int) -> bytes:
    """The text of a command on so many harts with a seed."""
    status, text = run(program, command, elf, '--harts', harts, '--seed', str(seed), '--steps', STEPS)
    want(f'its status with seed {seed}', status, DONE)
    return text


def check_outcome(program: Path, elf: Word, text: bytes, harts: str, seed: int, allowed: list[Allowed]) -> None:
    """The text of a run with a seed has one of these consoles with its end, and its log replays."""
    output = parts_of(text)
    if not any(re.fullmatch(console, output.console) and end == output.end for console, end in allowed):
        raise Difference(f'with seed {seed} it prints {output.console[:60]!r} and {output.end!r}')
    check_replay(program, elf, text, harts)


def check_runs(program: Path, allowed: list[Allowed], elf: Word, harts: str) -> None:
    """`run` on so many harts, with each seed: it ends in one of the ways that are allowed, and its log replays."""
    for seed in SEEDS:
        check_outcome(program, elf, with_seed(program, 'run', elf, harts, seed), harts, seed, allowed)


def check_draws(program: Path, allowed: list[Allowed], elf: Word, harts: str) -> None:
    """`draw` on so many harts, with a seed of each policy: it ends in one of the ways that are allowed, its log replays, and a second
    call prints the same."""
    for seed in DRAWN_SEEDS:
        text = with_seed(program, 'draw', elf, harts, seed)
        want(f'its text at a second call with seed {seed}', with_seed(program, 'draw', elf, harts, seed), text)
        check_outcome(program, elf, text, harts, seed, allowed)

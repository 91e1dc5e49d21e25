"""Reads what `rseq_run explore` prints: each outcome of the runs of some seeds, and how many runs there were."""
from __future__ import annotations

from dataclasses import dataclass

from .reader import Reader

OUTCOMES = b'outcomes '
"""How a text of `explore` begins, and one of `outcomes` too."""
FOUND, OTHERS = ('runs', 'seed', 'policy', 'steps'), ('others', 'seed')
SEEDS = 1 << 64


@dataclass(frozen=True)
class Found:
    """An outcome: how many runs came to it, and of the first of them the seed, the policy and the number of steps. With
    `--by end` its console isn't told, and empty here."""

    runs: int
    seed: int
    policy: str
    steps: int
    console: bytes
    end: str
    is_by_end: bool = False


@dataclass(frozen=True)
class Explored:
    """The outcomes that were told apart, how many runs came to none of them, how many runs there were, and how often in
    these an event was of another hart than the one before."""

    name: str
    found: list[Found]
    others: int
    runs: int
    switches: int

    @property
    def seeds(self) -> list[int]:
        """The seeds of all runs. The first run has the first outcome, and behind the last seed of all comes 0."""
        first = self.found[0].seed if self.found else 0
        return [(first + at) % SEEDS for at in range(self.runs)]


def read_found(reader: Reader) -> Found:
    """The next outcome: a line `runs N seed S policy NAME steps M`, the console, and the end."""
    line = reader.line('an outcome')
    fields = line.split(' ')
    if tuple(fields[::2]) != FOUND or not all(fields[at].isdecimal() for at in (1, 3, 7)):
        raise reader.fault(f'a line "runs N seed S policy NAME steps M" is due, and {line[:60]!r} came')
    runs, seed, steps = (int(fields[at]) for at in (1, 3, 7))
    is_by_end = not reader.rest.startswith(b'console ')
    console = b'' if is_by_end else reader.console()
    end = reader.line('the end of an outcome')
    if not end.startswith('end '):
        raise reader.fault(f'a line "end REASON" is due behind a console, and {end[:40]!r} came')
    return Found(runs, seed, fields[5], steps, console, end.removeprefix('end '), is_by_end)


def read_others(reader: Reader) -> int:
    """How many runs came to no outcome that is told: a line `others N seed S`, where there are any."""
    if not reader.rest.startswith(b'others '):
        return 0
    line = reader.line('a line "others N seed S"')
    fields = line.split(' ')
    if tuple(fields[::2]) != OTHERS or not all(field.isdecimal() for field in fields[1::2]):
        raise reader.fault(f'a line "others N seed S" is due, and {line[:60]!r} came')
    return int(fields[1])


def read_explored(name: str, text: bytes) -> Explored:
    """The outcomes in a text; a fault that names it where it is none of `explore`."""
    reader = Reader(name, text)
    found = [read_found(reader) for _ in range(reader.number('outcomes'))]
    others, runs = read_others(reader), reader.number('runs')
    if runs != others + sum(one.runs for one in found):
        raise reader.fault(f'it is changed: {runs} runs are said to be there, and its outcomes have others')
    reader.line('a line "harts H N .."')
    return Explored(name, found, others, runs, reader.number('switches'))

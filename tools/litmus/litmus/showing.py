"""How a test's program shows an outcome: what is on the console, and how it ends."""
from __future__ import annotations

from typing import NamedTuple

from .enumeration import Outcome, outcomes
from .instructions import Litmus, value_bits
from .listing import results_size

WORD_BYTES = 4


class Shown(NamedTuple):
    """The bytes of the console, and the end, as in `exit 0`."""

    console: bytes
    end: str


def shown(litmus: Litmus, outcome: Outcome) -> Shown:
    """How the program shows an outcome."""
    values = [value for own in outcome.results for value in own]
    if litmus.is_status:
        bits = value_bits(litmus)
        return Shown(b'', f'exit {sum(value << at * bits for at, value in enumerate(values))}')
    words = (value.to_bytes(WORD_BYTES, 'little').ljust(litmus.spacing, b'\0') for value in outcome.memory)
    return Shown(bytes(values).ljust(results_size(litmus), b'\0') + b''.join(words), 'exit 0')


def all_shown(litmus: Litmus, harts: int) -> dict[Shown, Outcome]:
    """All that the program can show on so many harts, each with an outcome that shows so."""
    return {shown(litmus, outcome): outcome for outcome in outcomes(litmus, harts)}


def told(outcome: Outcome) -> str:
    """An outcome in words: the results of each thread, and what the words have at the end."""
    threads = ' | '.join(' '.join(map(str, own)) or '-' for own in outcome.results)
    return f'{threads}, words {" ".join(map(str, outcome.memory))}'

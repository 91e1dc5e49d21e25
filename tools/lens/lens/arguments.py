"""Words of the command line that `lens` and `sweep` share."""
from __future__ import annotations

import argparse

from .command_line import positive
from .machine import BUILT

LIMITS = ('harts', 'frames', 'steps')


def add_program(parser: argparse.ArgumentParser) -> None:
    """The program that is called, and the limits that it is given."""
    parser.add_argument(
        '--program', default=str(BUILT), help='the built rseq_run (RSEQ_RUN, or that of this repository)'
    )
    for limit in LIMITS:
        parser.add_argument(f'--{limit}', type=positive, metavar='N', help='as the program has it')


def limits_of(arguments: argparse.Namespace) -> list[str]:
    """The limits that were given, as words for the program."""
    given = {limit: getattr(arguments, limit) for limit in LIMITS}
    return [f'--{limit}={value}' for limit, value in given.items() if value is not None]

"""The words of the command `sweep`."""
from __future__ import annotations

import argparse
import math

from lens.arguments import add_program
from lens.command_line import Parser, add_version, natural, positive

SEEDS = 1 << 64


def make_parser() -> argparse.ArgumentParser:
    parser = Parser(
        prog='sweep',
        description='Runs a program many times, each time with another seed, '
        'and says which outcomes came how often. The same command goes on with a sweep '
        'that was interrupted, and with more runs goes on where it was; with another ELF it begins anew. '
        'Ends with 1 where a run ended otherwise than --expect says.',
    )
    add_version(parser)
    parser.add_argument('elf', metavar='ELF', nargs='+', help='`sweep merge FOLDER ..` adds up what sweeps and explore left')
    parser.add_argument(
        '-o',
        '--out',
        metavar='FOLDER',
        required=True,
        help='where the sweep is kept; of several ELF files in FOLDER/NAME each',
    )
    add_seeds(parser)
    parser.add_argument('--expect', metavar='END', help="how each run is to end, as 'exit 0'")
    parser.add_argument('--junit', metavar='FILE', help='write a test case for each ELF file there, as JUnit does')
    parser.add_argument(
        '--github',
        action='store_true',
        help='print workflow commands of GitHub Actions too, which show at a source line what was not expected',
    )
    add_times(parser)
    parser.add_argument(
        '--sshlogin',
        action='append',
        default=[],
        metavar='LOGIN',
        help='a machine, as GNU parallel '
        'has it (`:` is this one); it needs the same files at the same paths; may be given again',
    )
    add_program(parser)
    return parser


def add_seeds(parser: argparse.ArgumentParser) -> None:
    """Which runs are made."""
    parser.add_argument('--runs', type=positive, default=1000, metavar='N', help='how many seeds (1000)')
    parser.add_argument('--first-seed', type=natural, default=1, metavar='S', help='the first of them (1)')
    parser.add_argument(
        '--by',
        choices=('draw', 'run'),
        default='draw',
        help='the command: by draw a seed gives one run on each machine; by run it repeats nothing (draw)',
    )


def add_times(parser: argparse.ArgumentParser) -> None:
    """How many jobs there are, and how long they may take."""
    parser.add_argument(
        '--seeds-a-job', type=positive, default=100, metavar='K', help='seeds of one process (100)'
    )
    parser.add_argument(
        '--jobs', type=positive, metavar='J', help='how many at once (one a processor, as memory allows)'
    )
    parser.add_argument(
        '--within', type=seconds, metavar='T', help='end after so many seconds, with the runs that were made by then'
    )
    parser.add_argument(
        '--seconds', type=seconds, default=600, metavar='T', help='how long a call of the program may take (600)'
    )


def seconds(words: str) -> float:
    """A time above 0."""
    try:
        found = float(words)
    except ValueError:
        found = math.nan
    if not 0 < found < math.inf:
        raise argparse.ArgumentTypeError(f'{words!r} is no number of seconds above 0')
    return found

#!/usr/bin/env python3
"""Breaks liburcu in one line a copy, and says in the how manyth drawn run each copy first fails.

    bench/broken_liburcu.py FOLDER [NAME ..] [--runs N] [--right N] [--seeds S,..] [--jobs N] [--program PROGRAM]

FOLDER gets musl and liburcu, as examples/real/build.py builds them, and the programs: examples/real/reclaim.c over each copy and over
liburcu as it is, and rcutorture, a stress test of liburcu's own, over both. A library that is there isn't built again. Each is explored
with all policies in turn (`explore --by end --until 2`), from three seeds by which no policy was chosen, for at most N runs (3,000) from
each. What is right makes N runs (1,000) from each seed, of which none may fail. The table says the number of the first run that failed,
and within how many it was to. Ends with 1 where a copy wasn't found so soon from two of three seeds, or a program failed that is right.
NAME is the name of a row.
"""
from __future__ import annotations

import argparse
import re
import subprocess
import sys
from collections.abc import Callable, Sequence
from dataclasses import dataclass
from functools import partial
from pathlib import Path

HERE = Path(__file__).resolve().parent
TOP = HERE.parent
REAL = TOP / 'examples' / 'real'
sys.path[:0] = [str(TOP / 'tools' / name) for name in ('runs', 'lens', 'musl')] + [str(REAL)]

import build  # noqa: E402 (found by the line above)
from lens.command_line import Parser, end  # noqa: E402
from lens.faults import LensFault  # noqa: E402

SEEDS = (50_000_001, 60_000_001, 70_000_001)
"""Seeds by which no policy was chosen."""
RUNS, RIGHT = 3000, 1000
STEPS = 400_000
"""A run of rcutorture has some 110,000 steps, and --calm is half of this."""
OUTCOME = re.compile(r'^runs \d+ seed (\d+) policy .*\nend (.*)$', re.MULTILINE)
FLAVOURS = {
    'memb': ('urcu.c', '-DRCU_MEMBARRIER'),
    'mb': ('urcu.c', '-DRCU_MB'),
    'bp': ('urcu-bp.c', '-DRCU_BP'),
    'signal': ('urcu.c', '-DRCU_SIGNAL'),
}
"""Of each flavour the file of its grace periods, and the option that chooses it."""


@dataclass(frozen=True)
class Edit:
    """A line, without the tabs in front, that becomes another: the first behind a line that is there once, or the only one."""

    line: str
    becomes: str
    behind: str | None = None

    def of(self, text: str) -> str:
        """The text with the line edited. One in which it can't be found is refused."""
        lines = text.splitlines(keepends=True)
        known = self.behind or self.line
        found = [at for at, line in enumerate(lines) if line.strip() == known]
        if len(found) != 1:
            raise LensFault(f'the line {known!r} is there {len(found)} times, and not once: is it another version?')
        at = next((at for at in range(found[0], len(lines)) if lines[at].strip() == self.line), None)
        if at is None:
            raise LensFault(f'there is no line {self.line!r} behind {known!r}: is it another version?')
        lines[at] = lines[at].replace(self.line, self.becomes)
        return ''.join(lines)


@dataclass(frozen=True)
class Copy:
    """A copy of a flavour in which something is wrong."""

    name: str
    what: str
    edit: Edit
    within: int | None
    """Within how many runs it is to be found; 0 where nothing is wrong by the rules of this machine, None where nothing is asked."""
    header: str | None = None
    """The file that is edited, where it isn't the one of the grace periods."""

    @property
    def flavour(self) -> str:
        return self.name.partition('-')[0]


FENCE, BARRIER = 'cmm_smp_mb();', 'smp_mb_master();'
MB_HEADER = 'include/urcu/static/urcu-mb.h'
MB_ENTERS = 'static inline void _urcu_mb_read_lock_update(unsigned long tmp)'
AT_FIRST = '/* Write new ptr before changing the qparity */'
AT_FUTEX = '/* Write futex before read reader_gp */'
AT_LAST = '* Finish waiting for reader threads before letting the old ptr'
WITH_FENCE = {name: Edit(f'if (caa_likely(urcu_{name}_has_sys_membarrier)) {{', 'if (0) {') for name in ('memb', 'bp')}
NO_FIRST = Edit(BARRIER, ';', AT_FIRST)
NO_SECOND_WAIT = Edit('wait_for_readers(&cur_snap_readers, NULL, &qsreaders);', 'cds_list_splice(&cur_snap_readers, &qsreaders);')
NO_FIRST_WAIT = Edit(
    'wait_for_readers(&registry, &cur_snap_readers, &qsreaders);',
    'cds_list_splice(&registry, &cur_snap_readers); CDS_INIT_LIST_HEAD(&registry);',
)
SIGNALS = Edit('force_mb_all_readers();', FENCE)
UNREGISTERED = Edit('if (membarrier(MEMBARRIER_CMD_REGISTER_PRIVATE_EXPEDITED, 0))', 'if (0)')
COMPILER_ALONE = Edit(FENCE, 'cmm_barrier();', MB_ENTERS)
TSO = Edit(FENCE, '__asm__ __volatile__ ("fence.tso" ::: "memory");', MB_ENTERS)
COPIES = (
    Copy('memb-fence', 'a fence of the writer in place of each membarrier', WITH_FENCE['memb'], 600),
    Copy('memb-first', 'no membarrier between the exchange and the first wait', NO_FIRST, 1500),
    Copy('memb-futex', 'no membarrier before the writer looks at readers and sleeps', Edit(BARRIER, ';', AT_FUTEX), None),
    Copy('memb-second-wait', 'no second wait', NO_SECOND_WAIT, 600),
    Copy('memb-first-wait', 'no first wait', NO_FIRST_WAIT, None),
    Copy('memb-unregistered', 'no registration for membarrier', UNREGISTERED, 600),
    Copy('memb-last', 'no membarrier behind the second wait: Ztso asks for none', Edit(BARRIER, ';', AT_LAST), 0),
    Copy('mb-reader', 'a reader enters without its fence', COMPILER_ALONE, 600, MB_HEADER),
    Copy('mb-reader-tso', 'a reader enters with `fence.tso`', TSO, 600, MB_HEADER),
    Copy('mb-second-wait', 'no second wait', NO_SECOND_WAIT, 600),
    Copy('mb-first-wait', 'no first wait', NO_FIRST_WAIT, None),
    Copy('bp-fence', 'a fence of the writer in place of each membarrier', WITH_FENCE['bp'], 600),
    Copy('bp-first', 'no membarrier between the exchange and the first wait', NO_FIRST, 1500),
    Copy('bp-second-wait', 'no second wait', NO_SECOND_WAIT, 600),
    Copy('bp-first-wait', 'no first wait', NO_FIRST_WAIT, None),
    Copy('signal-fence', 'a fence of the writer in place of signals to all readers', SIGNALS, 600),
)
TORTURE, RIGHT_TORTURE = 'memb-fence-rcutorture', 'rcutorture'
NAMES = (*(copy.name for copy in COPIES), TORTURE, *FLAVOURS, RIGHT_TORTURE)
TORTURE_WITHIN = 200
TORTURE_EDITS = (
    ('common/api.h', Edit('#define NR_THREADS 4096', '#define NR_THREADS 16')),
    ('regression/rcutorture.h', Edit('for (i = 0; i < 5; i++)', 'for (i = 0; i < 1; i++)')),
    ('regression/rcutorture.h', Edit('rdiag(" %lld", sum);', 'rdiag(" %lld", sum); n_mberror += i > 1 && sum;')),
)
"""rcutorture made small: few slots for threads, and one updater that only waits. Its own criterion, that no reader saw what was given
back two grace periods ago, becomes its status: it prints the numbers, and a person is to look."""


class Yard:
    """The folder in which the programs are built."""

    def __init__(self, folder: Path):
        self.shop = build.Workshop(folder)
        self.source = self.build_library()
        self.include = folder / 'urcu' / 'include'
        self.library = folder / 'urcu' / 'lib'

    def build_library(self) -> Path:
        """The source of liburcu, which is built, over musl."""
        self.shop.folder.mkdir(parents=True, exist_ok=True)
        build.build_musl(self.shop)
        return build.build_liburcu(self.shop)

    def room(self, name: str) -> Path:
        """A new folder for what a program is built of."""
        room = self.shop.folder / 'broken' / name
        room.mkdir(parents=True, exist_ok=True)
        return room

    def write_edited(self, edits: Sequence[tuple[str, Edit]], room: Path) -> None:
        """Writes files of the source as they are after their edits, under the same names in a room."""
        for name in dict.fromkeys(name for name, _ in edits):
            text = (self.source / name).read_text()
            for _, edit in (one for one in edits if one[0] == name):
                text = edit.of(text)
            (room / name).parent.mkdir(parents=True, exist_ok=True)
            (room / name).write_text(text)

    def broken_object(self, copy: Copy) -> Path:
        """The grace periods of a copy, compiled."""
        room, (file, option) = self.room(copy.name), FLAVOURS[copy.flavour]
        self.write_edited([(copy.header or f'src/{file}', copy.edit)], room)
        compiled = (room if not copy.header else self.source) / 'src' / file
        headers = ('-I', room / 'include', '-I', self.source / 'src', '-I', self.source / 'include')
        config = ('-include', self.source / 'include' / 'config.h')
        self.shop.compile(room / 'broken.o', room, '-w', '-c', *headers, *config, option, compiled)
        return room / 'broken.o'

    def link(self, made: Path, flavour: str, *words: object) -> Path:
        """Links a program with a flavour of liburcu, of which it takes what the words don't have."""
        libraries = ('-L', self.library, f'-lurcu-{flavour}', '-lurcu-common')
        self.shop.compile(made, self.shop.folder, *words, *libraries)
        return made

    def reclaim(self, name: str, flavour: str, *objects: Path) -> Path:
        """examples/real/reclaim.c over a flavour. That of "bp" has a header of its own, and the program includes urcu.h."""
        room = self.room(f'{flavour}-headers')
        if flavour == 'bp':
            (room / 'urcu.h').write_text('#include <urcu-bp.h>\n')
        words = (FLAVOURS[flavour][1], '-I', room, '-I', self.include, REAL / 'reclaim.c')
        return self.link(self.shop.folder / f'{name}.elf', flavour, *words, *objects)

    def torture(self, name: str, *objects: Path) -> Path:
        """rcutorture over the flavour "memb", for two readers."""
        room = self.room('rcutorture')
        self.write_edited([(f'tests/{file}', edit) for file, edit in TORTURE_EDITS], room)
        tests, option = self.source / 'tests', FLAVOURS['memb'][1]
        headers = ['-I', room / 'tests' / 'common', '-I', room / 'tests' / 'regression', '-I', tests / 'utils', '-I', self.include]
        main = room / 'urcutorture.c'
        main.write_text((tests / 'regression' / 'urcutorture.c').read_text())
        self.shop.compile(room / 'main.o', room, '-w', '-c', option, '-Dmain=main_of_program', *headers, main)
        self.shop.compile(room / 'arguments.o', room, '-c', '-DARGUMENTS="2","stress"', REAL / 'arguments.c')
        parts = (room / 'main.o', room / 'arguments.o', HERE / 'rcutorture_pauses.c', tests / 'utils' / 'tap.c')
        return self.link(self.shop.folder / f'{name}.elf', 'memb', '-w', *headers, *parts, *objects)


@dataclass(frozen=True)
class Program:
    """A row of the table: a program over liburcu, or over a copy of it."""

    what: str
    within: int | None
    build: Callable[[], Path]


def programs(yard: Yard) -> dict[str, Program]:
    """The programs by their names."""

    def over(copy: Copy) -> Path:
        return yard.reclaim(copy.name, copy.flavour, yard.broken_object(copy))

    fence = COPIES[0]
    broken = {copy.name: Program(copy.what, copy.within, partial(over, copy)) for copy in COPIES}
    torture = Program(f'rcutorture over `{fence.name}`', TORTURE_WITHIN, lambda: yard.torture(TORTURE, yard.broken_object(fence)))
    right = {flavour: Program('nothing', 0, partial(yard.reclaim, flavour, flavour)) for flavour in FLAVOURS}
    return broken | {TORTURE: torture} | right | {RIGHT_TORTURE: Program('nothing', 0, lambda: yard.torture(RIGHT_TORTURE))}


@dataclass(frozen=True)
class Search:
    """What is asked of `explore`."""

    program: str
    jobs: int
    seeds: tuple[int, ...]

    def first_failure(self, elf: Path, seed: int, runs: int) -> int | None:
        """The number of the first run, counted from 1, that doesn't end with `exit 0`."""
        options = [f'--seed={seed}', f'--runs={runs}', f'--jobs={self.jobs}', f'--steps={STEPS}', '--by=end', '--until=2']
        ran = subprocess.run([self.program, 'explore', str(elf), *options], capture_output=True, text=True)
        if ran.returncode:
            raise LensFault(f'{self.program}: status {ran.returncode}; {ran.stderr.strip()}')
        return min((int(at) - seed + 1 for at, end in OUTCOME.findall(ran.stdout) if end != 'exit 0'), default=None)

    def failures(self, elf: Path, runs: int) -> list[int | None]:
        """The same from each seed on."""
        return [self.first_failure(elf, seed, runs) for seed in self.seeds]


def is_as_asked(found: Sequence[int | None], within: int | None) -> bool:
    """Whether a copy was found within so many runs from two of three seeds; one that is right, from none."""
    if within is None:
        return True
    in_time = [one is not None and (not within or one <= within) for one in found]
    return 3 * sum(in_time) >= 2 * len(in_time) if within else not any(in_time)


def print_row(name: str, program: Program, found: Sequence[int | None], runs: int) -> None:
    """Prints a line of the table."""
    cells = [f'{one:,}' if one else f'none of {runs:,}' for one in found]
    asked = '-' if program.within is None else f'{program.within:,}' if program.within else 'none'
    print('| ' + ' | '.join([f'`{name}`', program.what, *cells, asked]) + ' |', flush=True)


def numbers(text: str) -> tuple[int, ...]:
    """The numbers of an option, one comma apart."""
    if not re.fullmatch(r'\d+(,\d+)*', text, re.ASCII):
        raise argparse.ArgumentTypeError(f'{text!r} isn\'t numbers one comma apart')
    return tuple(map(int, text.split(',')))


def make_parser() -> argparse.ArgumentParser:
    parser = Parser(prog='broken_liburcu.py', description='In how many runs `explore` finds what is wrong with copies of liburcu.')
    parser.add_argument('folder', metavar='FOLDER')
    parser.add_argument('names', nargs='*', metavar='NAME')
    parser.add_argument('--runs', type=int, default=RUNS, metavar='N')
    parser.add_argument('--right', type=int, default=RIGHT, metavar='N')
    parser.add_argument('--jobs', type=int, default=1, metavar='N')
    parser.add_argument('--seeds', type=numbers, default=SEEDS, metavar='S,..')
    parser.add_argument('--program', default=str(TOP / 'crates' / 'rseq_run' / 'out' / 'rseq_run'))
    return parser


def command() -> int:
    asked = make_parser().parse_args()
    unknown = [name for name in asked.names if name not in NAMES]
    if unknown:
        raise LensFault(f'there is no program {unknown[0]}: {", ".join(NAMES)} are there')
    search = Search(asked.program, asked.jobs, asked.seeds)
    known = programs(Yard(Path(asked.folder).resolve()))
    print('| program | what is wrong | ' + ' | '.join(f'from {seed:,}' for seed in search.seeds) + ' | within |')
    print('|---' * (len(search.seeds) + 3) + '|')
    is_well = True
    for name in asked.names or NAMES:
        runs = asked.right if known[name].within == 0 else asked.runs
        found = search.failures(known[name].build(), runs)
        print_row(name, known[name], found, runs)
        is_well = is_well and is_as_asked(found, known[name].within)
    return 0 if is_well else 1


if __name__ == '__main__':
    sys.exit(end('broken_liburcu.py', command))

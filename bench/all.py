#!/usr/bin/env python3
"""Measures the program, and prints the page docs/reference/PERFORMANCE.md: the figures of one machine and one program.

    bench/all.py [--quick] [--program PROGRAM] [--only WORD] > docs/reference/PERFORMANCE.md

PROGRAM is the one that RSEQ_RUN names, or crates/rseq_run/out/rseq_run. Each section has its command, and what that printed. It takes an
hour or two on a machine without other work, and the gate as long again. With --quick each call is made once, with small sizes, and what
takes minutes is left out: that tries this script, and its figures are worth nothing. With --only it makes the sections whose headings have
WORD in them. A section that can't be measured here says with which status its script ended.
"""
from __future__ import annotations

import argparse
import hashlib
import os
import platform
import subprocess
import sys
from dataclasses import dataclass
from datetime import datetime, timezone
from pathlib import Path

from costs import FULL, QUICK, Bench

HERE = Path(__file__).resolve().parent
ROOT = HERE.parent
BUILT = Path(os.environ.get('RSEQ_RUN', ROOT / 'crates' / 'rseq_run' / 'out' / 'rseq_run'))
OWN = 'bench/all.py'
PYTHON = '/usr/bin/python3' if Path('/usr/bin/python3').exists() else sys.executable
"""Debian's own, since the packages of the tools are Debian's."""


@dataclass(frozen=True)
class Section:
    """A section of the page: its heading, what it says, and the script that is run for it, with its words; with --quick others, or none."""

    heading: str
    says: str
    words: tuple[str, ...]
    quick: tuple[str, ...] | None = None
    names_program: bool = True
    """Whether the program is named by --program; it is a word alone else."""


@dataclass(frozen=True)
class Plot:
    """A plot of this script's own, by the name of the function that makes it."""

    heading: str
    says: str
    words: str
    made_by: str


START = 'The time of a start is taken off, so bars of one length say that the cost grows with the number and no faster.'
PLOTS = (
    Plot('Steps', f'One hart computes. {START}', 'solo bench/long.elf --steps N', 'by_steps'),
    Plot(
        'Threads',
        f'A guest with N threads, which each make 100 additions (`make migrate N > /tmp/migrate.elf`), drawn on 2 harts. {START}',
        'draw /tmp/migrate.elf --seed 1',
        'by_threads',
    ),
    Plot(
        'Pages',
        f'A program maps pages one by one until no frame is free. {START}',
        'solo bench/pages.elf --frames N --steps 1000000',
        'by_pages',
    ),
)
SECTIONS = (
    Section('Long runs', '`solo` and `play` of long logs.', ('solo.py',), None, False),
    Section('Many threads', 'The same program with one thread and with 64.', ('threads.py',), None, False),
    Section('Summaries of logs', '`blocks` beside `play` of the same log.', ('blocks.py',), None, False),
    Section('Gathered logs', '`gather` beside `blocks` of the same log.', ('gather.py',), None, False),
    Section('Workers', '`run`, by harts and processors.', ('run.py',), None, False),
    Section('Explorations', 'Runs a second of `explore`.', ('explorations.py',), ('explorations.py', '--rounds', '1')),
    Section('All outcomes', '`outcomes` of small programs.', ('outcomes.py',), ('outcomes.py', 'hello', 'litmus')),
    Section(
        'Reductions',
        'Random programs, searched with the reduction and without it.',
        ('reductions.py',),
        ('reductions.py', '--tests', '4', '--places', '500'),
    ),
    Section(
        'How soon bugs are drawn',
        'Of the broken examples: in how many of 400 drawn runs of each policy the bug shows.',
        ('draws.py',),
        ('draws.py', '--runs', '5', 'peterson'),
    ),
    Section('How soon bugs of a library are found', 'Copies of liburcu, each with one line changed.', ('broken_liburcu.py', '/tmp/rseq_run-liburcu')),
    Section('Shortening a run', '`lens shrink` of failing runs.', ('shrinks.py',), ('shrinks.py', 'peterson')),
    Section('gdb on a run', '`lens gdb` on long runs.', ('gdb_on_runs.py',), ('gdb_on_runs.py', '--steps', '10000')),
    Section('The gate', '`rt ci`, with nothing kept.', ('gate.py',), None, False),
)
NO_PROGRAM = ('gate.py',)
"""Scripts that are given no program."""


def heading() -> str:
    return (
        '# Performance\n\nThe figures of one machine and one program, made by one command:\n\n'
        f'    {OWN} > docs/reference/PERFORMANCE.md\n\n'
        'Each section has the command that measured it. Seconds are of a processor (user and system) unless a column says otherwise, the least '
        'of several equal calls. How the figures came about, and what was measured on the way, is in the history of this page.\n'
    )


def machine(program: Path, quick: bool) -> str:
    """What was measured, where and when."""
    digest = hashlib.sha256(program.read_bytes()).hexdigest()
    rows = {
        'day': f'{datetime.now(timezone.utc):%-d %B %Y}',
        'program': f'{program.stat().st_size:,} bytes, SHA-256 {digest[:16]}',
        'commit': first_line('git', '-C', str(ROOT), 'log', '-1', '--format=%h') or '-',
        'processor': f'{processor()}, {os.cpu_count()} of them',
        'memory': f'{os.sysconf("SC_PAGE_SIZE") * os.sysconf("SC_PHYS_PAGES") / 2**30:.0f} GiB',
        'system': f'{platform.system()} {platform.release()}',
        'load at the start': f'{os.getloadavg()[0]:.1f}',
    }
    table = ''.join(f'| {name} | {what} |\n' for name, what in rows.items())
    warning = '\n**Made by --quick: these figures are worth nothing.**\n' if quick else ''
    return f'| | |\n|---|---|\n{table}{warning}'


def first_line(*words: str) -> str:
    ran = subprocess.run(words, capture_output=True, text=True)
    return ran.stdout.partition('\n')[0] if ran.returncode == 0 else ''


def processor() -> str:
    lines = Path('/proc/cpuinfo').read_text().splitlines()
    return next((line.partition(': ')[2] for line in lines if line.startswith('model name')), platform.machine())


def indented(text: str) -> str:
    return ''.join(f'    {line}\n' if line else '\n' for line in text.rstrip('\n').split('\n'))


def told(text: str) -> str:
    """What a script printed: a table of Markdown as it is, else lines as they are."""
    return f'{text.rstrip()}\n' if text.startswith('|') else indented(text)


def plotted(one: Plot, bench: Bench) -> str:
    shown: str = getattr(bench, one.made_by)()
    return f'## {one.heading}\n\n{one.says}\n\n    rseq_run {one.words}\n\n{indented(shown)}'


def measured(one: Section, program: Path, quick: bool) -> str:
    """A section: its command, and what that printed; or why there is nothing."""
    words = one.quick if quick else one.words
    if words is None:
        return f'## {one.heading}\n\n{one.says} Left out by --quick.\n'
    named = [] if words[0] in NO_PROGRAM else ['--program', str(program)] if one.names_program else [str(program)]
    print(f'bench/{" ".join(words)}', file=sys.stderr)
    ran = subprocess.run([PYTHON, str(HERE / words[0]), *words[1:], *named], stdout=subprocess.PIPE, text=True)
    shown = told(ran.stdout) if ran.stdout else ''
    fault = f'It ended with status {ran.returncode}.\n' if ran.returncode else ''
    return '\n'.join(filter(None, [f'## {one.heading}\n\n{one.says}\n\n    bench/{" ".join(words)}\n', shown, fault]))


def make_parser() -> argparse.ArgumentParser:
    parser = argparse.ArgumentParser(description='Measures the program, and prints docs/reference/PERFORMANCE.md.')
    parser.add_argument('--quick', action='store_true', help='small sizes, each once: it tries this script')
    parser.add_argument('--program', type=Path, default=BUILT, help='the built rseq_run (RSEQ_RUN, or that of this repository)')
    parser.add_argument('--only', default='', metavar='WORD', help='the sections whose headings have this word')
    return parser


def main() -> None:
    arguments = make_parser().parse_args()
    program: Path = arguments.program
    if not os.access(program, os.X_OK):
        sys.exit(f'{program}: no program is there; `tools/bin/prove` makes it')
    bench = Bench(program, QUICK if arguments.quick else FULL)
    print(heading(), machine(program, arguments.quick), sep='\n')
    for plot in PLOTS:
        if arguments.only.lower() in plot.heading.lower():
            print(plotted(plot, bench), flush=True)
    for section in SECTIONS:
        if arguments.only.lower() in section.heading.lower():
            print(measured(section, program, arguments.quick), flush=True)


if __name__ == '__main__':
    main()

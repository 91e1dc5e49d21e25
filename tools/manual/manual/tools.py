"""The tools that have a man page, and what their pages say besides their commands and options."""
from __future__ import annotations

from dataclasses import dataclass, replace

from . import parsers, reference
from .table import Command, Option, Tool, Value, value_of

NAMES = ('rseq_run', 'lens', 'sweep', 'litmus', 'rvcc')
INTERRUPTED = ('130', 'It was interrupted.')
RSEQ_RUN = (
    'RSEQ_RUN',
    'The built program. Without it, and without `--program`, it is that of the folder in which the tools lie.',
)
WORDS = (
    'The first word is the command. Names and options follow in any order, each option at most once, as two words (`--steps 5`) or as '
    'one (`--steps=5`). The first `--` ends the options.'
)


@dataclass(frozen=True)
class Besides:
    """What a page says besides the table."""

    line: str
    description: str
    statuses: tuple[tuple[str, str], ...]
    examples: tuple[tuple[str, str], ...]
    environment: tuple[tuple[str, str], ...] = (RSEQ_RUN,)


BESIDES = {
    'rseq_run': Besides(
        'run a RISC-V program under a chosen order of events',
        '`rseq_run` runs a static ELF file for RISC-V (`rv64ima`) on a machine of up to eight processors, here called harts. Each '
        'preemption, each store that becomes visible late, each signal is an event of its own, and you choose the order of the events: by '
        'a script, by a seed, or all orders. It finds the order that breaks a program, and makes that run again, the same bytes on each '
        f'machine.\n\n{WORDS}',
        (),
        (
            ('rseq_run solo prog.elf', 'Run a program once, on one processor.'),
            ('rseq_run explore prog.elf --runs 10000', 'Look for an order that breaks it.'),
            ('rseq_run draw prog.elf --seed 3 > found.output', 'Make one of these runs again.'),
            ('rseq_run outcomes prog.elf', 'Look for every outcome of a small program.'),
        ),
        (),
    ),
    'lens': Besides(
        'show a run of rseq_run, and make scripts for it',
        '',
        (
            ('0', 'Done; also where nobody reads on, as in `lens list RUN ELF | head`.'),
            ('2', 'A word is wrong, or a file; one line on standard error says which.'),
            INTERRUPTED,
        ),
        (
            ('lens why found.output prog.elf', 'Say why a run ended as it did.'),
            ('lens list found.output prog.elf --around 32 --values', 'Show the steps round step 32, with what they read and wrote.'),
            ('lens report found.output prog.elf -o run.html', 'Make one HTML page of a run, to pass on.'),
            ('lens shrink found.output prog.elf', 'Make a short script whose run ends alike.'),
            ('lens gdb --seed 3 prog.elf', 'Debug the run that seed 3 draws, forwards and backwards.'),
        ),
    ),
    'sweep': Besides(
        'run a program with many seeds, and count its outcomes',
        '',
        (
            ('0', 'All runs were made, and each ended as `--expect` says, where that is given.'),
            ('1', 'A run ended otherwise than `--expect` says.'),
            ('2', 'A word or a file is wrong, a job failed, or no job ended in the time of `--within`; the same command goes on.'),
            INTERRUPTED,
        ),
        (("sweep prog.elf -o runs --runs 1000000 --expect 'exit 0'", 'Make a million runs, and stop with 1 where one fails.'),),
    ),
    'litmus': Besides(
        'run litmus files, and compare random tests with all outcomes',
        '',
        (
            ('0', 'The files were run, or the outcomes agree.'),
            ('1', 'They differ.'),
            ('2', 'A word or a file is wrong, or an assembler lacks.'),
            INTERRUPTED,
        ),
        (
            ('litmus SB.litmus MP.litmus', 'Run two tests of herd7\'s format, and print what herd7 prints.'),
            ('litmus compare --tests 50', 'Compare the tests of 50 seeds with what `outcomes` finds.'),
        ),
    ),
    'rvcc': Besides(
        'compile programs for rseq_run',
        '',
        (('0', 'The compiler is content.'), ('2', 'An option or a library lacks.'), ('other', 'The status of the compiler.')),
        (('rvcc -o prog.elf prog.c', 'Compile a program without a C library.'),),
        (
            ('RVCC', 'The compiler that is called, as `clang`.'),
            ('PICOLIBC', 'The folder of picolibc.'),
        ),
    ),
}
RVCC = Tool(
    'rvcc',
    '',
    'Compiles C and assembler to a static ELF file that `rseq_run` takes, by GCC or clang. All words but the first option are the '
    'compiler\'s own.',
    (
        Command(
            '',
            '[--musl FOLDER | --picolibc] OPTION .. FILE ..',
            '',
            (Value('FILE', is_file=True),),
            (
                Option(('--musl',), value_of('FOLDER'), 'With the C library musl and pthreads, which `tools/bin/musl` built in FOLDER.'),
                Option(('--picolibc',), None, 'With the C library picolibc. Without either option there is no C library.'),
                Option(('-o',), value_of('FILE'), 'Where the program is written.'),
            ),
        ),
    ),
)
"""The compiler, a script of the shell: the words that it takes are few."""


def table_of(name: str) -> Tool:
    """The table of a tool."""
    if name == RVCC.name:
        return RVCC
    return reference.program() if name == reference.PROGRAM else parsers.tool(name)


def tool(name: str) -> Tool:
    """The table of a tool, with all that its page says."""
    found, besides = table_of(name), BESIDES[name]
    return replace(
        found,
        line=besides.line,
        description='\n\n'.join(filter(None, [found.description, besides.description])),
        statuses=found.statuses or besides.statuses,
        environment=besides.environment,
        examples=besides.examples,
        see=tuple(other for other in NAMES if other != name),
    )

"""The command `litmus run FILE.litmus ..`, whose first word may be left out."""
from __future__ import annotations

import argparse
import os
import subprocess
import sys
import tempfile
from collections.abc import Container
from contextlib import ExitStack
from pathlib import Path

from lens.command_line import FAULT_STATUS, natural, positive
from lens.faults import LensFault
from lens.machine import BUILT

from ..building import build
from .layout import BASE, layout
from .listing import assembler
from .parts import Test
from .reading import read_test
from .report import report
from .running import Observation, Runner

COMMAND, SUFFIX = 'run', '.litmus'
PLACES = 1_000_000


def add_run(parser: argparse.ArgumentParser) -> None:
    """The words of the command."""
    parser.add_argument('files', nargs='+', metavar='FILE', help=f'the tests, of names that end in {SUFFIX}')
    parser.add_argument('--runs', type=positive, metavar='N', help='draw so many runs, and look at no others')
    places = f'how many places a search visits at most ({PLACES})'
    parser.add_argument('--places', type=positive, default=PLACES, metavar='N', help=places)
    parser.add_argument(
        '--preemptions', type=natural, metavar='P', help='look only at runs with so many preemptions at most'
    )
    scripts = 'leave there the programs, and a script of each state'
    parser.add_argument('--scripts', metavar='FOLDER', help=scripts)
    parser.add_argument(
        '--program', default=str(BUILT), help='the built rseq_run (RSEQ_RUN, or that of this repository)'
    )
    parser.set_defaults(act=run_files)


def with_command(words: list[str], commands: Container[str]) -> list[str]:
    """A command line; where it names litmus files and no command, with this one."""
    is_asked = any(word.endswith(SUFFIX) for word in words) and words[0] not in commands
    return [COMMAND, *words] if is_asked else words


def run_files(asked: argparse.Namespace) -> int:
    """Runs the tests, one after the other. What is wrong with one is said, and the others are run all the
    same."""
    check(asked)
    runner = Runner(asked.program, asked.places, asked.preemptions, asked.runs, asked.scripts is not None)
    status = 0
    for file in map(Path, asked.files):
        try:
            run_file(file, runner, asked.scripts)
        except LensFault as fault:
            sys.stdout.flush()
            print(f'litmus: {file}: {fault}', file=sys.stderr)
            status = FAULT_STATUS
    return status


def check(asked: argparse.Namespace) -> None:
    """Refuses words that can't be followed for any file."""
    if not os.access(asked.program, os.X_OK):
        raise LensFault(f'{asked.program}: no program is there')
    stems = [Path(file).stem for file in asked.files]
    twice = next((stem for stem in stems if stems.count(stem) > 1), None)
    if asked.scripts is not None and twice is not None:
        raise LensFault(f'--scripts {asked.scripts}: two files are named {twice}{SUFFIX}')
    if asked.runs is not None and asked.preemptions is not None:
        raise LensFault('--preemptions is for searches, and --runs draws')


def read_file(file: Path) -> Test:
    try:
        return read_test(file.read_text(encoding='utf-8'))
    except UnicodeDecodeError:
        raise LensFault('this is no text in UTF-8') from None
    except OSError as error:
        raise LensFault(f'{error.strerror}') from None


def run_file(file: Path, runner: Runner, scripts: str | None) -> None:
    """Runs a test, prints what came of it, and leaves its program and scripts in a folder where one is
    named."""
    test = read_file(file)
    placed = layout(test)
    with ExitStack() as stack:
        folder = Path(scripts or stack.enter_context(tempfile.TemporaryDirectory()))
        folder.mkdir(parents=True, exist_ok=True)
        elf = built(assembler(test, placed), folder / f'{file.stem}.elf')
        observation = runner.observe(elf, placed, len(test.threads))
        leave_scripts(folder / file.stem, observation)
    print('\n'.join(report(test, observation)) + '\n', flush=True)
    for remark in observation.remarks:
        print(f'litmus: {file}: {remark}', file=sys.stderr)


def built(text: str, elf: Path) -> Path:
    """The program of an assembler text, without what lies between the two."""
    try:
        build(text, elf, data=BASE)
    except subprocess.CalledProcessError as failed:
        raise LensFault(f'{failed.cmd[0]} ends with status {failed.returncode}') from None
    elf.with_suffix('.o').unlink()
    return elf


def leave_scripts(stem: Path, observation: Observation) -> None:
    """Writes the script of the N-th state to STEM.N.script."""
    for number, seen in enumerate(observation.seen, 1):
        if seen.script is not None:
            stem.with_name(f'{stem.name}.{number}.script').write_bytes(seen.script)

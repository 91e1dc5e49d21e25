"""What the tests share: the examples of the repository, the command, and small programs that are
assembled here."""
from __future__ import annotations

import os
import shutil
import subprocess
import unittest
from pathlib import Path

from lens.disassembly import find_objdump
from lens.history import History, make_history
from lens.machine import BUILT
from lens.output import read_output
from lens.program import Program
from lens.trace_text import parse_trace
from lens.values import Values

ROOT = Path(__file__).resolve().parents[3]
EXAMPLES = ROOT / 'examples'
GOLDEN = Path(__file__).with_name('golden')
TRACES = Path(__file__).with_name('traces')
"""Texts of `trace`, so that most tests need no built program."""
LENS = ROOT / 'tools' / 'bin' / 'lens'
PETERSON = EXAMPLES / 'peterson' / 'peterson.elf'
FENCED = EXAMPLES / 'peterson_fenced' / 'peterson_fenced.elf'
FOUND = EXAMPLES / 'peterson' / 'found.output'

START = 0x10078

TIMEOUT = 1800
"""Seconds that no command takes, on a slow machine that has other work too."""

GCC, CLANG = 'riscv64-unknown-elf-gcc', 'clang'
COMPILERS = [
    name for name in (GCC, CLANG) if shutil.which(name) and (name != CLANG or shutil.which('ld.lld'))
]
"""Those of the documented ones that are there."""
PICOLIBC = Path('/usr/lib/picolibc/riscv64-unknown-elf')

PROGRAM = BUILT.resolve()
"""The built program, or what RSEQ_RUN says."""

OBJDUMP = '2.40'
"""The one whose words the kept listings have (binutils of Debian 12); later ones write `addi` for `add`."""


def kept_runs() -> list[tuple[Path, Path]]:
    """The output texts of the examples that show a run of one process, each with its program."""
    return [
        (run, run.parent / f'{run.parent.name}.elf')
        for run in sorted(EXAMPLES.glob('*/*.output'))
        if not run.with_suffix('.pair').exists() and not run.read_bytes().startswith(b'fault ')
    ]


def objdump_version() -> str:
    """The version of the objdump that `lens` calls."""
    ran = subprocess.run([find_objdump() or 'objdump', '--version'], capture_output=True, text=True)
    return ran.stdout.splitlines()[0].split()[-1]


needs_objdump = unittest.skipUnless(objdump_version().startswith(OBJDUMP), f'objdump isn\'t {OBJDUMP}')
needs_gcc = unittest.skipUnless(shutil.which('riscv64-unknown-elf-gcc'), 'there is no gcc for RISC-V')
needs_compiler = unittest.skipUnless(COMPILERS, f'there is neither {GCC} nor {CLANG} with lld')
needs_picolibc = unittest.skipUnless(PICOLIBC.is_dir(), f'there is no picolibc in {PICOLIBC}')
needs_program = unittest.skipUnless(PROGRAM.is_file(), f'{PROGRAM} isn\'t built')


def found() -> History:
    """The run of the lock without a fence in which an addition is lost."""
    return history(FOUND, PETERSON)


def history(run: Path, elf: Path) -> History:
    return make_history(read_output(str(run)), Program(str(elf)))


def values(run: Path, elf: Path, trace: str) -> Values:
    """A run with what it read and wrote, as a kept text says it."""
    return Values(history(run, elf), parse_trace(trace, (TRACES / trace).read_bytes()))


def lens(*words: object, cwd: Path = ROOT, stdin: bytes = b'') -> subprocess.CompletedProcess:
    """What the command answers to some words."""
    return subprocess.run([LENS, *map(str, words)], cwd=cwd, input=stdin, capture_output=True, timeout=TIMEOUT)


def toolchain(tool: str, *words: object) -> None:
    subprocess.run([f'riscv64-unknown-elf-{tool}', *map(str, words)], check=True, capture_output=True)


def assemble(folder: Path, source: str) -> Path:
    """A program of these instructions, from START on."""
    text, made, elf = folder / 'made.S', folder / 'made.o', folder / 'made.elf'
    text.write_text(f'.globl _start\n_start:\n{source}\n')
    toolchain('as', '-march=rv64ima', '-mabi=lp64', '-mno-relax', '-o', made, text)
    toolchain('ld', f'-Ttext={START:#x}', '-o', elf, made)
    return elf


def compile_c(folder: Path, source: str, *options: str) -> Path:
    """A C program by gcc, with the headers of the examples and source lines."""
    text, elf, common = folder / 'made.c', folder / 'made.elf', EXAMPLES / 'common'
    text.write_text(source)
    flags = ('-g', '-march=rv64ima', '-mabi=lp64', '-O2', '-ffreestanding', '-msmall-data-limit=0', '-nostdlib', '-static')
    files = (f'-I{common}', '-Wl,-no-pie', '-o', elf, common / 'start.S', common / 'memory.c', text, '-lgcc')
    toolchain('gcc', *flags, *options, *files)
    return elf


def build(compiler: str, folder: Path, name: str, source: str, *options: str) -> Path:
    """A C program by the documented line: `rvcc OPTION .. -o NAME.elf NAME.c`."""
    text, elf = folder / f'{name}.c', folder / f'{name}.elf'
    text.write_text(source)
    words = [EXAMPLES / 'common' / 'rvcc', *options, '-o', elf, text]
    subprocess.run(words, env={**os.environ, 'RVCC': compiler}, check=True, capture_output=True, timeout=TIMEOUT)
    return elf


def counting_program(folder: Path) -> tuple[Path, Path]:
    """A program that does what the built one does, and the file to which it adds a line for each call."""
    program, calls = folder / 'counting', folder / 'calls'
    program.write_text(f'#!/bin/sh\necho >> {calls}\nexec {PROGRAM} "$@"\n')
    program.chmod(0o755)
    return program, calls


def output_text(lines: list[str], end: str = 'open', console: str = '') -> str:
    return (
        f'console {len(console)}\n{console}\nlog {len(lines)}\n'
        + ''.join(f'{line}\n' for line in lines)
        + f'end {end}\n'
    )

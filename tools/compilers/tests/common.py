"""What the tests share: the compilers that are there, programs built by rvcc, and outcomes of
explorations."""
from __future__ import annotations

import os
import shutil
import subprocess
import tempfile
import unittest
from pathlib import Path
from typing import NamedTuple

ROOT = Path(__file__).resolve().parents[3]
EXAMPLES = ROOT / 'examples'
COMMON = EXAMPLES / 'common'
RVCC = COMMON / 'rvcc'
PROGRAM = Path(os.environ.get('RSEQ_RUN', ROOT / 'crates' / 'rseq_run' / 'out' / 'rseq_run')).resolve()
GCC, CLANG, LINUX_GCC = 'riscv64-unknown-elf-gcc', 'clang', 'riscv64-linux-gnu-gcc'
PICOLIBC = Path('/usr/lib/picolibc/riscv64-unknown-elf')
TIMEOUT = 1800
"""Seconds that no build and no exploration takes, on a machine that has other work too."""


def is_there(compiler: str) -> bool:
    """Whether a compiler can make programs here: clang also needs lld."""
    return shutil.which(compiler) is not None and (compiler != CLANG or shutil.which('ld.lld') is not None)


COMPILERS = [compiler for compiler in (GCC, CLANG) if is_there(compiler)]
needs_compiler = unittest.skipUnless(COMPILERS, f'there is neither {GCC} nor {CLANG} with lld')
needs_gcc = unittest.skipUnless(is_there(GCC), f'there is no {GCC}')
needs_program = unittest.skipUnless(PROGRAM.is_file(), f'{PROGRAM} isn\'t built')
needs_picolibc = unittest.skipUnless(PICOLIBC.is_dir(), f'there is no picolibc in {PICOLIBC}')


class Outcome(NamedTuple):
    """One of an exploration: how many runs came to it, its first run's steps, its console, and its end."""

    runs: int
    steps: int
    console: str
    end: str


class Room(unittest.TestCase):
    """A test with a folder of its own."""

    def setUp(self) -> None:
        made = tempfile.TemporaryDirectory()
        self.addCleanup(made.cleanup)
        self.room = Path(made.name)

    def write(self, name: str, text: str) -> Path:
        path = self.room / name
        path.write_text(text)
        return path


def rvcc(compiler: str, *words: object) -> subprocess.CompletedProcess[str]:
    """What the script answers to some words, with a compiler."""
    return subprocess.run(
        [RVCC, *map(str, words)],
        env={**os.environ, 'RVCC': compiler},
        capture_output=True,
        text=True,
        timeout=TIMEOUT,
    )


def build(compiler: str, elf: Path, *words: object) -> Path:
    """A program of these sources and options, in which the compiler finds nothing to warn of."""
    first, rest = (words[:1], words[1:]) if words[:1] == ('--picolibc',) else ((), words)
    made = rvcc(compiler, *first, '-Wall', '-Wextra', '-Werror', '-o', elf, *rest)
    if made.returncode:
        raise AssertionError(f'{compiler} {" ".join(map(str, words))}: {made.stderr}')
    return elf


def run(command: str, elf: Path, *options: object) -> str:
    """The text of a command on a program, without its last newline."""
    words = [str(PROGRAM), command, str(elf), *map(str, options)]
    ran = subprocess.run(words, capture_output=True, timeout=TIMEOUT)
    text = ran.stdout.decode(errors='replace')
    if text.startswith('fault '):
        raise AssertionError(f'{" ".join(words)}: {text} {ran.stderr.decode(errors="replace")}')
    return text.rstrip('\n')


def outcomes(text: str) -> list[Outcome]:
    """The outcomes that a text of `explore` tells."""
    found, lines = [], text.split('\n')
    while lines:
        words = lines.pop(0).split()
        if words[:1] == ['runs'] and 'seed' in words:
            length = int(lines.pop(0).split()[1])
            rest = '\n'.join(lines)
            console, lines = rest[:length], rest[length + 1 :].split('\n')
            found.append(Outcome(int(words[1]), int(words[-1]), console, lines.pop(0).removeprefix('end ')))
    return found


def explore(elf: Path, *options: object) -> list[Outcome]:
    return outcomes(run('explore', elf, '--jobs', 1, *options))

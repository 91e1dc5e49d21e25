"""The table of docs/PROGRAMS.md on what a compiler makes of an atomic: each row is compiled and
disassembled."""
from __future__ import annotations

import re
import subprocess
import unittest
from collections.abc import Iterator
from pathlib import Path

from .common import CLANG, COMMON, COMPILERS, GCC, ROOT, TIMEOUT, Room, is_there, needs_compiler, needs_gcc

PAGE = ROOT / 'docs' / 'PROGRAMS.md'
HEADER = '| atomic | GCC 12.2 | clang 14 | with `ztso_atomics.h` |'
LEAST = 16
"""So many rows the table has at least."""
OWN = {GCC: 1, CLANG: 2}
INCLUDED = ('-include', COMMON / 'ztso_atomics.h')
COLUMNS = ((GCC, OWN[GCC], ()), (CLANG, OWN[CLANG], ()), (GCC, 3, INCLUDED), (CLANG, 3, INCLUDED))
"""Each compiler, the column of the table that it is for, and its options."""
VERSIONS = {GCC: r'\b12\.2\.', CLANG: r'version 14\.'}
TARGET = {GCC: (), CLANG: ('--target=riscv64-unknown-elf',)}
PRELUDE = '#include <stdatomic.h>\nunsigned x;\nunsigned char byte;\n_Atomic unsigned a;\n'
LOCAL = 'unsigned old = 0; (void)old;'
FLAGS = ('-march=rv64ima', '-mabi=lp64', '-O2', '-ffreestanding')
MEMORY = re.compile(r'(l[bhwd]u?|s[bhwd]|amo\S+|lr\.\S+|sc\.\S+|fence\S*)$')
CALL = re.compile(r'R_RISCV_CALL\S*\s+(\S+)')
NOTHING, UNCHANGED = 'nothing', 'as without'


def rows(text: str) -> Iterator[list[str]]:
    """The cells of each row of the table, without their quotes."""
    _, _, behind = text.partition(HEADER)
    for line in behind.split('\n')[2:]:
        if not line.startswith('|'):
            return
        yield [cell.strip().strip('`') for cell in line.replace(r'\|', '\0').strip('|').split('|')]


def has_version(compiler: str) -> bool:
    """Whether a compiler is there in the version that the table is of."""
    if not is_there(compiler):
        return False
    said = subprocess.run([compiler, '--version'], capture_output=True, text=True, check=True).stdout
    return re.search(VERSIONS[compiler], said) is not None


def memory_instructions(shown: str) -> str:
    """The instructions of a disassembly that are about memory, and its calls, in their order."""
    found = []
    for line in shown.split('\n'):
        called, parts = CALL.search(line), line.split('\t')
        if called:
            found.append(called.group(1))
        elif len(parts) > 2 and MEMORY.match(parts[2]):
            found.append(' '.join([parts[2], *parts[3:4]]) if parts[2] == 'fence' else parts[2])
    return '; '.join(found) or NOTHING


def functions(shown: str) -> list[str]:
    """The disassemblies of the functions row_0, row_1 and so on, in this order."""
    parts = re.split(r'<row_(\d+)>:\n', shown)
    numbered = dict(zip(map(int, parts[1::2]), parts[2::2]))
    return [numbered[number] for number in sorted(numbered)]


@needs_compiler
@needs_gcc
class Table(Room):
    def test_each_row(self) -> None:
        table = list(rows(PAGE.read_text()))
        self.assertGreaterEqual(len(table), LEAST)
        for compiler, column, options in COLUMNS:
            if compiler in COMPILERS and has_version(compiler):
                made = self.made(compiler, options, [row[0] for row in table])
                for row, found in zip(table, made, strict=True):
                    due = row[OWN[compiler]] if row[column] == UNCHANGED else row[column]
                    with self.subTest(compiler=compiler, options=options, atomic=row[0]):
                        self.assertEqual(found, due)

    def made(self, compiler: str, options: tuple[object, ...], atomics: list[str]) -> list[str]:
        """What a compiler makes of each of some atomics."""
        each = (f'void row_{at}(void) {{ {LOCAL} {it}; }}\n' for at, it in enumerate(atomics))
        source = self.write('rows.c', PRELUDE + ''.join(each))
        made = self.room / 'rows.o'
        words = [compiler, *TARGET[compiler], *FLAGS, *options, '-c', '-o', made, source]
        subprocess.run(words, check=True, capture_output=True, timeout=TIMEOUT)
        dump = [GCC.replace('gcc', 'objdump'), '-dr', '-M', 'no-aliases', made]
        shown = subprocess.run(dump, capture_output=True, text=True, check=True, timeout=TIMEOUT).stdout
        return [memory_instructions(function) for function in functions(shown)]


if __name__ == '__main__':
    unittest.main()

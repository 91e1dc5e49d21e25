"""What each atomic of ztso_atomics.h gives and leaves, at each level of optimization."""
from __future__ import annotations

import itertools
import unittest
from pathlib import Path

from .common import COMPILERS, LINUX_GCC, Room, build, is_there, needs_compiler, needs_program, run, rvcc

SOURCE = Path(__file__).parent / 'data' / 'values.c'
LEVELS = ('-O0', '-O2', '-Os')


@needs_compiler
@needs_program
class Values(Room):
    def test_each_level(self) -> None:
        compilers = COMPILERS + [LINUX_GCC] * is_there(LINUX_GCC)
        for compiler, spelling, level in itertools.product(compilers, ('-DBUILTINS', '-DSTDATOMIC'), LEVELS):
            with self.subTest(compiler=compiler, spelling=spelling, level=level):
                elf = build(compiler, self.room / 'values.elf', level, spelling, SOURCE)
                text = run('solo', elf)
                self.assertTrue(text.startswith('console 22\nall as they should be\n'), text[:200])
                self.assertTrue(text.endswith('end exit 0'), text[-20:])

    def test_a_size_that_no_atomic_has(self) -> None:
        declared = 'struct { int words[3]; } wide, other;\n'
        source = self.write('wide.c', declared + 'void f(void) { __atomic_load(&wide, &other, 0); }\n')
        made = rvcc(COMPILERS[0], '-c', '-o', self.room / 'wide.o', source)
        self.assertNotEqual(made.returncode, 0)
        self.assertIn('ztso_atomics_have_1_2_4_or_8_bytes', made.stderr)


if __name__ == '__main__':
    unittest.main()

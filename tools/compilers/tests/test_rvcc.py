"""The script that compiles, the checks of check.h, memory.c, and freed memory that is kept back."""
from __future__ import annotations

import subprocess
import unittest

from .common import (
    COMMON, COMPILERS, GCC, Room, build, is_there, needs_compiler, needs_gcc, needs_picolibc,
    needs_program,
)
from .common import run, rvcc

CHECKS = '''
#include "check.h"
static long count = -3;
static long second(long first, long second) { return first == 0 ? 0 : second; }
int main(void) {
    check(second(count, 1));
    check(count, <, 0);
#ifdef CONDITION
    check(count == second(count, 2));
#elif defined VALUES
    check(count, ==, 2);
#elif defined POINTERS
    check((char *)0x12c0, ==, (char *)0);
#endif
    return 0;
}
'''
FAILED = {
    '-DCONDITION': 'checks.c:9: check failed: count == second(count, 2)',
    '-DVALUES': 'checks.c:11: check failed: count == 2 (-3, 2)',
    '-DPOINTERS': 'checks.c:13: check failed: (char *)0x12c0 == (char *)0 (0x12c0, 0x0)',
}
FREED = '''
#include <stdlib.h>
#include "hosted.h"
static void *volatile first, *volatile other;
int main(void) {
    *(unsigned *)(first = malloc(100)) = 7;
    free(first);
    other = malloc(100);
    printf("%x %d\\n", *(volatile unsigned *)first, other == first);
    while (sbrk(4096) != (void *)-1)
        continue;
    other = malloc(100000);
    printf("%d ", other == NULL);
    other = malloc(100);
    printf("%d\\n", other != NULL);
    for (int at = 0; at < FREED_KEPT + 1; at++)
        first = malloc(8), free(first);
    free(first);
    return 0;
}
'''


@needs_compiler
class Compiles(Room):
    def test_an_object_alone(self) -> None:
        source = self.write('part.c', 'int part(void) { return 1; }\n')
        for compiler in COMPILERS:
            made = rvcc(compiler, '-c', '-o', self.room / 'part.o', source)
            self.assertEqual((made.returncode, made.stderr), (0, ''), compiler)

    def test_a_compiler_that_is_not_there(self) -> None:
        made = rvcc('no-such-compiler', '-o', self.room / 'it.elf', 'it.c')
        self.assertEqual(made.returncode, 2)
        self.assertEqual(made.stderr, 'rvcc: there is no no-such-compiler (RVCC names the compiler)\n')

    @needs_gcc
    def test_memory_calls_nothing(self) -> None:
        """What a compiler calls by itself doesn't call itself."""
        for compiler in COMPILERS:
            made = build(compiler, self.room / 'memory.o', '-c', COMMON / 'memory.c')
            dump = [GCC.replace('gcc', 'objdump'), '-r', made]
            shown = subprocess.run(dump, capture_output=True, text=True, check=True)
            self.assertNotRegex(shown.stdout, 'R_RISCV_(CALL|CALL_PLT|JAL) *(mem|strlen)', compiler)


@needs_compiler
@needs_program
class Runs(Room):
    def test_checks(self) -> None:
        source = self.write('checks.c', CHECKS)
        for compiler in COMPILERS:
            for option, line in FAILED.items():
                with self.subTest(compiler=compiler, option=option):
                    text = run('solo', build(compiler, self.room / 'checks.elf', option, source))
                    self.assertTrue(text.startswith(f'console {len(line) + 1}\n{line}\n\n'), text[:200])
                    self.assertTrue(text.endswith('end killed 5'))
            text = run('solo', build(compiler, self.room / 'checks.elf', source))
            self.assertTrue(text.startswith('console 0\n') and text.endswith('end exit 0'), compiler)

    @needs_picolibc
    def test_freed_memory(self) -> None:
        """It is filled, isn't used again as long as there is other memory, and isn't freed twice."""
        source = self.write('freed.c', FREED)
        for compiler in COMPILERS:
            with self.subTest(compiler=compiler):
                elf = build(compiler, self.room / 'freed.elf', '--picolibc', source)
                lines = run('solo', elf, '--frames', 128, '--steps', 1000000).split('\n')
                self.assertEqual(lines[1:3], ['dddddddd 0', '1 1'])
                self.assertRegex(lines[3], '^free: 0x[0-9a-f]{16} was freed before$')
                self.assertEqual(lines[-1], 'end killed 5')


if __name__ == '__main__':
    unittest.main()

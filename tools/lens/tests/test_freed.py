"""`lens watch --freed`: accesses to what was freed, of a program with a `malloc` of its own, and of programs over
examples/common/hosted.h, which keeps back what is freed."""
import re
import tempfile
import unittest
from pathlib import Path

from .common import (
    COMPILERS, FOUND, PETERSON, build, compile_c, lens, needs_compiler, needs_gcc, needs_picolibc, needs_program,
)

HEAP = """#include "calls.h"
static long room[64], used, kept;
void *__attribute__((noipa)) realloc(void *old, unsigned long size);
void *__attribute__((noipa)) malloc(unsigned long size) { used += 8; room[used] = 0; return size > 99 ? 0 : &room[used]; }
void __attribute__((noipa)) free(void *block) { if (block) *(long *)block = 0xdd; }
void *realloc(void *old, unsigned long size) { void *got = malloc(size); if (got) free(old); return got; }
static long __attribute__((noipa)) look(volatile long *at) { return at[1]; }
int main(void) {
    long *one = malloc(16), *two = malloc(32);
    kept = look(one);
    free(one);
    kept += look(one);
    ((volatile long *)one)[0] = 5;
    realloc(two, 100);
    kept += look(two);
    realloc(two, 40);
    kept += look(two);
    kept += look(two + 3);
    used = 0;
    kept += look(malloc(24));
    return 0;
}
"""
ACCESSES = [
    ('reads', 'look', 'made.c:7', 'byte 8 of 16', 'made.c:9', 'made.c:11'),
    ('waits', 'main', 'made.c:13', 'byte 0 of 16', 'made.c:9', 'made.c:11'),
    ('reads', 'look', 'made.c:7', 'byte 8 of 32', 'made.c:9', 'made.c:16'),
]
"""Of each access its kind, where it is, which byte of a block, and where that was given and freed. That of
line 15 isn't one, since `realloc` gave nothing; nor that of line 18, which is behind the block's bytes."""


FREED_BYTES = 0xDDDD_DDDD_DDDD_DDDD
READER = """#include <stdlib.h>
#include "hosted.h"
struct node { long value; struct node *next; };
static struct thread reader;
static volatile long seen;
static void __attribute__((noipa)) read_often(void *own) {
    volatile struct node *node = own;
    for (int times = 0; times < 60; times++)
        seen += node->value;
}
int main(void) {
    struct node *node = malloc(sizeof *node);
    node->value = 7;
    start_thread(&reader, read_often, node);
    free(node);
    join_thread(&reader);
    return 0;
}
"""
TWICE = """#include <stdlib.h>
#include "hosted.h"
static char *volatile kept;
static volatile int dropped;
static void __attribute__((noipa)) drop(void) { free(kept); dropped++; }
static void run(void *own) { (void)own; drop(); }
static struct thread other;
int main(void) {
    kept = malloc(24);
    start_thread(&other, run, 0);
    join_thread(&other);
    drop();
    return 0;
}
"""
BLOCK = (
    '^ +byte 0 of {size} at {at}, given to thread 1 in step [0-9]+, at main.*, {given}; '
    'freed by thread {thread} in step ([0-9]+), at {function}.*, {freed}, ([0-9]+) steps before$'
)
"""The line below an access: its numbers are the step of the `free`, and how many steps before that was."""


@needs_compiler
@needs_picolibc
@needs_program
class KeptBack(unittest.TestCase):
    """Programs by `rvcc --picolibc`, whose calls of `malloc` and `free` go to `__wrap_malloc` and `__wrap_free`."""

    def setUp(self) -> None:
        made = tempfile.TemporaryDirectory()
        self.addCleanup(made.cleanup)
        self.room = Path(made.name)

    def said(self, command: str, elf: Path, seed: int, *words: str) -> list[str]:
        """What a command of lens says of the run of a seed."""
        answer = lens(command, '--seed', seed, elf, *words)
        self.assertEqual((answer.returncode, answer.stderr), (0, b''))
        return answer.stdout.decode().splitlines()

    def test_who_reads_who_freed_and_when(self) -> None:
        """In some run the reader finds what was stored there and later what `free` fills in."""
        for compiler in COMPILERS:
            elf, values = build(compiler, self.room, 'reader', READER, '--picolibc'), set()
            for seed in (1, 2, 3, 4):
                *rows, _, last = self.said('watch', elf, seed, '--freed')
                for access, block in zip(rows[::2], rows[1::2], strict=True):
                    with self.subTest(compiler=compiler, seed=seed, access=access):
                        values.add(self.check_read(access, block))
                self.assertEqual(last, f'{len(rows) // 2} accesses to 1 freed block; end exit 0')
            self.assertEqual(values, {'7', f'{FREED_BYTES:#x}'}, compiler)

    def check_read(self, access: str, block: str) -> str:
        """An access is by the reader, and its block is main's, freed before it: the value that is read."""
        row = re.match(
            r' *(\d+)  hart [01]  thread 2  reads (0x[0-9a-f]+) = (\S+), store of step \d+ by thread 1  '
            r'read_often\S*  reader\.c:9  seen \+= node->value;$',
            access,
        )
        self.assertIsNotNone(row)
        due = BLOCK.format(size=16, at=row[2], given='reader.c:12', thread=1, function='main', freed='reader.c:15')
        self.assertRegex(block, due)
        freed, before = map(int, re.match(due, block).groups())
        self.assertEqual(int(row[1]) - freed, before)
        return row[3]

    def test_a_block_that_is_freed_twice(self) -> None:
        """`watch --freed` shows the second `free`, and `why` both."""
        for compiler in COMPILERS:
            with self.subTest(compiler=compiler):
                elf = build(compiler, self.room, 'twice', TWICE, '--picolibc')
                again, block, _, last = self.said('watch', elf, 1, '--freed')
                self.assertEqual(last, '1 access to 1 freed block, 1 of them a further `free`; end killed 5')
                row = re.match(r' *(\d+)  hart \d  thread 1  frees (0x[0-9a-f]+) again  drop\S*  twice\.c:5  ', again)
                self.assertIsNotNone(row, again)
                due = BLOCK.format(
                    size=24, at=row[2], given='twice.c:9', thread=2, function='drop', freed='twice.c:5'
                )
                self.assertRegex(block, due)
                freed, _ = re.match(due, block).groups()
                both = (
                    rf'^The block at {row[2]} was freed by thread 2 in step {freed}, at drop\S*, twice\.c:5, '
                    rf'and by thread 1 in step {row[1]}, at drop\S*, twice\.c:5\.$'
                )
                self.assertRegex(self.said('why', elf, 1)[-1], both)


class Freed(unittest.TestCase):
    @needs_gcc
    @needs_program
    def test_who_reads_and_who_freed(self):
        with tempfile.TemporaryDirectory() as name:
            answer = lens('watch', '--seed', 1, compile_c(Path(name), HEAP, '-fno-builtin'), '--freed')
        self.assertEqual((answer.returncode, answer.stderr), (0, b''))
        *rows, _, last = answer.stdout.decode().splitlines()
        self.assertEqual(last, '3 accesses to 2 freed blocks; end exit 0')
        for (access, block), due in zip(zip(rows[::2], rows[1::2]), ACCESSES, strict=True):
            kind, function, line, byte, given, freed = due
            with self.subTest(access=access):
                self.assertRegex(access, f'hart [01]  thread 1  {kind} 0x')
                self.assertRegex(access, f'  {function}(\\+0x[0-9a-f]+)?  {line}')
                self.assertRegex(block, f'^ +{byte} at 0x[0-9a-f]+, given to thread 1 in step [0-9]+, at main.*{given}; ')
                self.assertRegex(block, f'; freed by thread 1 in step [0-9]+, at main.*, {freed}, [0-9]+ steps before$')

    @needs_program
    def test_a_program_without_a_heap(self):
        answer = lens('watch', FOUND, PETERSON, '--freed')
        self.assertEqual((answer.returncode, answer.stderr.count(b'\n')), (2, 1))
        self.assertIn('has no functions `malloc` and `free`', answer.stderr.decode())

    def test_words(self):
        for words, wanted in (
            ((FOUND, PETERSON), 'RUN ELF NAME is wanted here, which is 3 words'),
            (('--seed', 1, PETERSON), 'ELF NAME is wanted here, which is 2 words'),
            ((FOUND, PETERSON, 'count', '--freed'), 'RUN ELF is wanted here, which is 2 words'),
        ):
            with self.subTest(words=words):
                answer = lens('watch', *words)
                self.assertEqual((answer.returncode, answer.stderr.decode()), (2, f'lens: {wanted}\n'))


if __name__ == '__main__':
    unittest.main()

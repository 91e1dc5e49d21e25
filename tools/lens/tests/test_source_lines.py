"""The source line of an instruction of a helper that the compiler put into another function: each command
says the line of the user's own file first, and the helper's in parentheses."""
import json
import tempfile
import unittest
from pathlib import Path

from lens.program import Program

from .common import EXAMPLES, FOUND, PETERSON, compile_c, lens, needs_gcc, needs_program

SOURCE = """#include "threads.h"
static struct thread other;
static volatile int cell;
static inline __attribute__((always_inline)) void put(int value) {
    cell = value;
}
static void run(void *own) {
    (void)own;
    put(1);
}
int main(void) {
    start_thread(&other, run, 0);
    put(2);
    join_thread(&other);
    return 0;
}
"""
RUN_PUTS, MAIN_PUTS = 'made.c:9 (made.c:5)  cell = value;', 'made.c:13 (made.c:5)  cell = value;'
SEED = 4
"""One in whose run nothing orders the two stores."""


class OfHelpers(unittest.TestCase):
    @classmethod
    def setUpClass(cls) -> None:
        made = tempfile.TemporaryDirectory()
        cls.addClassCleanup(made.cleanup)
        cls.room = Path(made.name)

    def shown(self, command: str, *words: object) -> str:
        answer = lens(command, '--seed', SEED, compile_c(self.room, SOURCE), *words)
        self.assertEqual((answer.returncode, answer.stderr), (0, b''))
        return answer.stdout.decode()

    @needs_gcc
    @needs_program
    def test_each_list(self) -> None:
        """`list`, `watch` and `races` show both calls of the helper, each by the line that calls it."""
        for words in (('list',), ('list', '--values'), ('watch', 'cell'), ('races',)):
            command, *more = words
            listed = self.shown(command, *more)
            for due in (RUN_PUTS, MAIN_PUTS):
                with self.subTest(words=words, due=due):
                    self.assertIn(due, listed)

    @needs_gcc
    @needs_program
    def test_races_part_the_callers(self) -> None:
        """The stores of one line of a helper are those of two lines of the file."""
        self.assertIn('1 pair of lines that nothing orders', self.shown('races'))

    @needs_gcc
    @needs_program
    def test_calls(self) -> None:
        listed = self.shown('calls'), self.shown('calls', '--values')
        for text in listed:
            self.assertRegex(text, r'clone\(.*  \(main\+0x[0-9a-f]+, made\.c:12 \(threads\.h:[0-9]+\)\)\n')

    @needs_gcc
    @needs_program
    def test_trace(self) -> None:
        slices = json.loads(self.shown('trace', '--values'))['traceEvents']
        sources = {one['args'].get('source') for one in slices if 'args' in one}
        self.assertLessEqual({RUN_PUTS, MAIN_PUTS}, sources)

    @needs_gcc
    def test_a_line_that_only_calls_helpers(self) -> None:
        """It names the helper's instructions; a line with instructions of its own names these alone."""
        program = Program(str(compile_c(self.room, SOURCE)))
        for line in ('made.c:9', 'made.c:13'):
            with self.subTest(line=line):
                stores = [at for at in program.addresses(line) if program.instruction(at).is_plain_store]
                self.assertEqual([program.line_name(at) for at in stores], [f'{line} (made.c:5)'])
        own = program.addresses('made.c:16')
        self.assertEqual({program.line_name(at) for at in own}, {'made.c:16'})

    def test_kept_runs(self) -> None:
        """No line of a header comes first in the lists of examples, but for what no file of the program calls."""
        threads = EXAMPLES / 'threads'
        for run, elf in ((FOUND, PETERSON), (threads / 'sleeps.output', threads / 'threads.elf')):
            with self.subTest(run=run.name):
                listed = lens('list', run, elf).stdout.decode()
                self.assertRegex(listed, r' [a-z]+\.c:[0-9]+ \(threads\.h:56\)  asm volatile')
                self.assertNotRegex(listed, r'(0x[0-9a-f]+|[a-z])  +[a-z]+\.h:[0-9]+ ')


if __name__ == '__main__':
    unittest.main()

"""Instructions, symbols and source lines of an ELF file, and files that don't fit."""
import subprocess
import tempfile
import unittest
from pathlib import Path

from lens.faults import LensFault
from lens.instructions import Instruction
from lens.program import Program

from .common import EXAMPLES, FENCED, FOUND, PETERSON, PROGRAM, ROOT, history, lens, needs_gcc, needs_program, toolchain

GCC = 'riscv64-unknown-elf-gcc'


class Symbols(unittest.TestCase):
    @classmethod
    def setUpClass(cls):
        cls.program = Program(str(PETERSON))

    def test_where(self):
        (take,) = self.program.addresses('take')
        self.assertEqual(self.program.where(take), 'take')
        self.assertEqual(self.program.where(take + 0x20), 'take+0x20')
        self.assertEqual(self.program.addresses('take+0x20'), self.program.addresses(f'{take + 32:#x}'))

    def test_source(self):
        (take,) = self.program.addresses('take')
        self.assertEqual(self.program.place(take).name, 'peterson.c:19')
        self.assertEqual(self.program.source(take), 'peterson.c:19  wants[me] = 1;')
        self.assertIn(take, self.program.addresses('peterson/peterson.c:19'))
        self.assertEqual(self.program.place(self.program.entry).name, 'start.S:8')

    @needs_gcc
    def test_source_of_a_mapped_folder(self):
        """The compiler ran in a folder that it was told to name from another one, which is round the file."""
        with tempfile.TemporaryDirectory() as name:
            (below := Path(name) / 'below').mkdir()
            (below / 'made.c').write_text('void _start(void) {\n    for (;;);\n}\n')
            options = f'-march=rv64ima -mabi=lp64 -nostdlib -ffile-prefix-map={name}=. -o made.elf made.c'.split()
            for version in ('-gdwarf-4', '-gdwarf-5'):
                subprocess.run([GCC, version, *options], cwd=below, check=True, capture_output=True)
                program = Program(str(below / 'made.elf'))
                with self.subTest(version=version):
                    self.assertEqual(program.source(program.entry), 'made.c:1  void _start(void) {')

    def test_instructions(self):
        (take,) = self.program.addresses('take')
        store = self.program.instruction(take + 0x18)
        self.assertEqual((store.text, store.is_plain_store), ('sw a3,0(a5)', True))
        self.assertIsNone(self.program.instruction(0x2000))

    def test_unknown_places(self):
        for words, said in {
            'nowhere': 'has no function or label',
            'take+0x9999999': 'has no instruction at',
            'take+0x2': 'has no instruction at',
            'peterson.c:1': 'has no instruction of the line',
            '0x4': 'has no instruction at',
        }.items():
            with self.subTest(words=words), self.assertRaisesRegex(LensFault, said):
                self.program.addresses(words)


class Words(unittest.TestCase):
    """Words as GNU as makes them."""

    def test_where_they_may_go(self):
        def goes(word, distance):
            return Instruction(0x1000, word, '').may_go_to(0x1000 + distance)

        beqz, jump, ret, add = 0x00068663, 0xFA9FF06F, 0x00008067, 0x00F707B3
        self.assertTrue(goes(beqz, 4) and goes(beqz, 12) and goes(beqz, 0) and not goes(beqz, 8))
        self.assertTrue(goes(jump, -0x58) and not goes(jump, 4))
        self.assertTrue(goes(ret, 0x1234))
        self.assertTrue(goes(add, 4) and not goes(add, 8))

    def test_immediates(self):
        li_a7, li_minus = Instruction(0, 0x05D00893, ''), Instruction(0, 0xFFF00893, '')
        self.assertEqual((li_a7.written, li_a7.immediate, li_minus.immediate), (17, 93, -1))
        self.assertIsNone(Instruction(0, 0x00158893, '').immediate)
        self.assertEqual(Instruction(0, 0x00F428A3, '').written, 0)


class OtherFiles(unittest.TestCase):
    """Files that aren't those of the run, each told in one line and with status 2."""

    def expect(self, elf, said, run=FOUND):
        answer = lens('list', run, elf)
        self.assertEqual((answer.returncode, answer.stdout, answer.stderr.count(b'\n')), (2, b'', 1))
        self.assertIn(said, answer.stderr.decode())

    def test_no_symbols(self):
        with tempfile.TemporaryDirectory() as folder:
            stripped = Path(folder) / 'stripped.elf'
            toolchain('strip', '-o', stripped, PETERSON)
            self.expect(
                stripped, 'it has no symbols: build it without -s (and with -g for its source lines)'
            )

    def test_no_source_lines(self):
        with tempfile.TemporaryDirectory() as folder:
            bare = Path(folder) / 'bare.elf'
            toolchain('strip', '--strip-debug', '-o', bare, PETERSON)
            self.assertIsNone(history(FOUND, bare).program.place(0x10210))
            with self.assertRaisesRegex(LensFault, 'build it with -g'):
                Program(str(bare)).addresses('peterson.c:19')

    def test_another_program(self):
        self.expect(EXAMPLES / 'hello' / 'hello.elf', 'at step 1 it starts at')

    def test_nearly_the_same_program(self):
        self.expect(FENCED, 'isn\'t a run of')

    @needs_gcc
    @needs_program
    def test_a_program_that_is_refused(self):
        """One for another ABI: the program says why, and a sentence more says what builds another."""
        with tempfile.TemporaryDirectory() as name:
            made = Path(name) / 'made.c'
            made.write_text('void _start(void) {\n    for (;;);\n}\n')
            options = ('-march=rv64gc', '-mabi=lp64d', '-nostdlib', '-o', made.with_suffix('.elf'), made)
            toolchain('gcc', *options)
            answer = lens('why', '--seed', 1, made.with_suffix('.elf'), '--program', PROGRAM)
        self.assertEqual(answer.returncode, 2)
        self.assertRegex(answer.stderr.decode(), 'fault elf 8.*no floating-point ABI \\(examples/common/rvcc builds a file')

    def test_no_program(self):
        self.expect(EXAMPLES / 'check.py', 'it is no ELF file')
        self.expect('/bin/true', 'it is no program for 64-bit RISC-V')
        self.expect(ROOT / 'nothing', 'No such file or directory')

    def test_no_run(self):
        self.expect(PETERSON, 'No such file or directory', run=ROOT / 'nothing')
        with tempfile.NamedTemporaryFile() as cut:
            cut.write(FOUND.read_bytes()[:5000])
            cut.flush()
            self.expect(PETERSON, 'it is cut off: line', run=cut.name)


if __name__ == '__main__':
    unittest.main()

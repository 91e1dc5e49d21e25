"""How variables are laid out: members by their names, and the names of bytes."""
import tempfile
import unittest
from pathlib import Path
from shutil import which

from lens.faults import LensFault
from lens.program import Program
from lens.watching import watched

from .common import EXAMPLES, toolchain

SOURCE = """
struct pair { unsigned a; union { unsigned long b; unsigned char bytes[8]; }; unsigned bits : 3; };
typedef struct pair pairs[3];
static const volatile pairs many = {{0}};
struct pair *first = (struct pair *)&many[1];
short table[2][3];
void _start(void) { for (;;) table[1][many[0].a] = first->a; }
"""
FLAGS = ('-g', '-march=rv64ima', '-mabi=lp64', '-O1', '-ffreestanding', '-nostdlib', '-static')

PLACES = {
    'many[2].a': (48, 4),
    'many[1].b': (32, 8),
    'many[1].bytes[3]': (35, 1),
    'many[1].bytes': (32, 8),
    'many[1]': (24, 24),
}
REFUSED = {
    'many.a': "many has no member 'a': it is an array of 3 elements",
    'many[3]': 'many has 3 elements, counted from 0, and none at 3',
    'many[0].c': "many[0] has no member 'c': it has a, b, bytes",
    'many[0].bits': "many[0] has no member 'bits': it has a, b, bytes",
    'many[0].a[0]': 'many[0].a is no array',
    'many[0].a.x': "many[0].a has no member 'x': it is no struct",
}


@unittest.skipUnless(which('riscv64-unknown-elf-gcc'), 'riscv64-unknown-elf-gcc isn\'t there')
class Layouts(unittest.TestCase):
    @classmethod
    def setUpClass(cls):
        cls.folder = tempfile.TemporaryDirectory()
        source, made = (Path(cls.folder.name) / name for name in ('made.c', 'made.elf'))
        source.write_text(SOURCE)
        toolchain('gcc', *FLAGS, '-o', made, source)
        cls.program = Program(str(made))
        cls.start = cls.address('many')

    @classmethod
    def tearDownClass(cls):
        cls.folder.cleanup()

    @classmethod
    def address(cls, name):
        return next(one.address for one in cls.program.variables if one.name == name)

    def test_members(self):
        for words, (offset, size) in PLACES.items():
            with self.subTest(words=words):
                range_ = watched(self.program, words)
                self.assertEqual((range_.at, range_.size), (self.start + offset, size))
        table = watched(self.program, 'table[1][2]')
        self.assertEqual((table.at, table.size), (self.address('table') + 10, 2))

    def test_what_there_is_in_place_of_one(self):
        for words, due in REFUSED.items():
            with self.subTest(words=words), self.assertRaises(LensFault) as raised:
                watched(self.program, words)
            self.assertEqual(str(raised.exception), due)

    def test_names_of_bytes(self):
        """Those of a union go by its first member that has just so many; those of two members by none."""
        for offset, size, due in (
            (24, 4, 'many[1].a'),
            (32, 8, 'many[1].b'),
            (33, 1, 'many[1].bytes[1]'),
            (33, 2, 'many+0x21:2'),
            (24, 8, 'many+0x18:8'),
        ):
            with self.subTest(offset=offset, size=size):
                self.assertEqual(self.program.bytes_of(self.start + offset, size), due)
        self.assertEqual(self.program.bytes_of(self.address('first'), 8), 'first')
        self.assertEqual(self.program.bytes_of(self.address('table') + 8, 2), 'table[1][1]')

    def test_what_a_pointer_points_to(self):
        for offset, due in {
            0: 'many[0]',
            24: 'many[1]',
            32: 'many[1].b',
            33: 'many[1].bytes[1]',
            28: 'many+0x1c',
        }.items():
            with self.subTest(offset=offset):
                self.assertEqual(self.program.target(self.start + offset), due)

    def test_a_file_without_types(self):
        program = Program(str(EXAMPLES / 'moves' / 'moves.elf'))
        self.assertFalse(program.layout.kinds)


if __name__ == '__main__':
    unittest.main()

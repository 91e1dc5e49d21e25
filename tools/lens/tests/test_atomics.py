"""`lens atomics`: the instructions that wait for stores, of small programs; and the DWARF 5 of clang."""
import shutil
import subprocess
import tempfile
import unittest
from pathlib import Path
from unittest import mock

from lens.faults import LensFault
from lens.program import Program

from .common import PETERSON, assemble, lens

CODE = """
    amoswap.w.rl zero, a1, (a0)
    amoswap.w a2, a1, (a0)
    amoadd.d zero, a1, (a0)
    lr.w a1, (a0)
    sc.w a1, a2, (a0)
    lw a1, 0(a0)
    fence iorw, iorw
    fence rw, rw
    fence w, r
    fence iorw, ow
    fence r, rw
    fence rw, w
    fence.tso
    .word 0x0000100f
    sw a1, 0(a0)
    ecall
"""
FOUND = [
    'amoswap.w.rl zero,a1,(a0)  _start       an atomic store',
    'amoswap.w a2,a1,(a0)       _start+0x4   a read and write',
    'amoadd.d zero,a1,(a0)      _start+0x8   a read and write',
    'lr.w a1,(a0)               _start+0xc   LR',
    'sc.w a1,a2,(a0)            _start+0x10  SC',
    'fence                      _start+0x18  a full fence behind a load',
    'fence rw,rw                _start+0x1c  a full fence',
    'fence w,r                  _start+0x20  a full fence',
]
COUNTED = (
    '8 instructions at which no store may wait: 1 atomic store, 2 reads and writes, 1 LR, 1 SC, '
    '1 full fence behind a load, 2 full fences'
)
SOURCE = """
struct node { struct node *next; volatile int held; } nodes[2];
static inline __attribute__((always_inline)) void hold(struct node *node) { node->held = 1; }
void _start(void) {
    __atomic_store_n(&nodes[0].next, &nodes[1], __ATOMIC_RELEASE);
    hold(&nodes[1]);
    __atomic_fetch_add(&nodes[0].held, 1, __ATOMIC_RELAXED);
    for (;;) ;
}
"""
CLANG = ('clang', '--target=riscv64-unknown-elf', '-march=rv64ima', '-mabi=lp64', '-O2', '-ffreestanding', '-nostdlib')
needs_clang = unittest.skipUnless(shutil.which('clang') and shutil.which('ld.lld'), 'there is no clang with lld')


def compiled(folder: Path, *options: str) -> Path:
    """SOURCE by clang."""
    source, elf = folder / 'nodes.c', folder / 'nodes.elf'
    source.write_text(SOURCE)
    words = (*CLANG, '-static', '-fuse-ld=lld', *options, '-o', elf, source)
    subprocess.run(words, check=True, capture_output=True)
    return elf


class Atomics(unittest.TestCase):
    maxDiff = None

    def test_each_instruction(self):
        with tempfile.TemporaryDirectory() as name:
            answer = lens('atomics', assemble(Path(name), CODE))
        self.assertEqual((answer.returncode, answer.stderr), (0, b''))
        lines = answer.stdout.decode().splitlines()
        self.assertEqual([line.partition('  ')[2].rstrip() for line in lines[1:-4]], FOUND)
        self.assertEqual(lines[-3], COUNTED)
        self.assertIn('-include ztso_atomics.h', lines[-1])

    def test_none(self):
        with tempfile.TemporaryDirectory() as name:
            answer = lens('atomics', assemble(Path(name), 'sw a1, 0(a0)\nfence rw, w\necall'))
        self.assertEqual(answer.stdout.decode(), '0 instructions at which no store may wait\n')

    def test_source_lines(self):
        """Of a helper that was put into another function, first the line that calls it."""
        self.assertIn('peterson.c:46 (threads.h:73)  while ((tid = ', lens('atomics', PETERSON).stdout.decode())


class Dwarf5(unittest.TestCase):
    @needs_clang
    def test_of_clang(self):
        """Lines, types (pointers have no size there) and calls that were put in, by both versions."""
        for version in ('-gdwarf-4', '-gdwarf-5'):
            with self.subTest(version=version), tempfile.TemporaryDirectory() as name:
                program = Program(str(compiled(Path(name), version)))
                self.assertEqual(program.lines.lacking, [])
                (nodes,) = (one for one in program.variables if one.name == 'nodes')
                self.assertEqual(program.bytes_of(nodes.address, 8), 'nodes[0].next')
                self.assertEqual(program.bytes_of(nodes.address + 24, 4), 'nodes[1].held')
                stores = [at for at in program.addresses('nodes.c:3')]
                self.assertEqual({program.line_name(at) for at in stores}, {'nodes.c:6 (nodes.c:3)'})
                answer = lens('atomics', program.path)
                self.assertIn('nodes.c:7  __atomic_fetch_add(', answer.stdout.decode())
                self.assertEqual(answer.stderr, b'')

    def test_lines_that_cannot_be_read(self):
        """They lack, and what lacks is known; all else goes on."""
        with mock.patch('lens.source.unit_rows', side_effect=KeyError('DW_FORM_of_later')):
            program = Program(str(PETERSON))
        self.assertEqual([one.partition(' ')[0] for one in program.lines.lacking], ['start.S', 'peterson/peterson.c'])
        self.assertIn('DW_FORM_of_later', program.lines.lacking[0])
        (take,) = program.addresses('take')
        self.assertEqual((program.spot(take), program.source(take)), ('take', ''))
        with self.assertRaisesRegex(LensFault, 'has no source lines'):
            program.addresses('peterson.c:19')

    def test_what_lacks_is_said_once(self):
        with tempfile.TemporaryDirectory() as name:
            broken = Path(name) / 'broken.elf'
            broken.write_bytes(without_lines(PETERSON.read_bytes()))
            answer = lens('atomics', broken)
        self.assertEqual((answer.returncode, answer.stderr.count(b'\n')), (0, 1))
        self.assertIn('source lines that can\'t be read, and lack: start.S', answer.stderr.decode())
        self.assertIn('main+0x98', answer.stdout.decode())


def without_lines(content: bytes) -> bytes:
    """An ELF file whose line tables are of a version that nobody knows, with forms that nobody knows."""
    from elftools.elf.elffile import ELFFile
    import io

    section = ELFFile(io.BytesIO(content)).get_section_by_name('.debug_line')
    start, size = section['sh_offset'], section['sh_size']
    return content[:start] + b'\x7f' * size + content[start + size :]


if __name__ == '__main__':
    unittest.main()

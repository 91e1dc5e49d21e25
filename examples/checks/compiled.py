"""The blocks and the headers of common/, as GCC compiles them."""
from __future__ import annotations

import shutil
import subprocess
import tempfile
from functools import partial
from pathlib import Path

from .programs import DONE, HERE, passes, run, want

BLOCKS = {'ADD': ('counter', 0x20020), 'PUSH': ('list', 0x20020), 'POP': ('list', 0x20040), 'ALLOC': ('pool', 0x20020),
          'FREE': ('pool', 0x20040)}
"""The blocks of percpu_blocks.h: the guest that has each, and the address of its descriptor there."""
CROSS = 'riscv64-unknown-elf-'
PICOLIBC = Path('/usr/lib/picolibc/riscv64-unknown-elf')
BLOCK_SOURCE = '''#include "percpu_blocks.h"
void block(void) {
    register long area asm("x8"), cells asm("x9"), value asm("x18");
    asm volatile(".pushsection .block, \\"ax\\"\\n" PERCPU_%s("%#x") ".popsection\\n"
                 : [value] "=&r"(value) : [area] "r"(area), [cells] "r"(cells));
}
'''


def check_blocks(program: Path, names: list[str]) -> int:
    """How many blocks differ; says so where they can't be assembled."""
    if names and 'blocks' not in names:
        return 0
    if not all(shutil.which(CROSS + tool) for tool in ('gcc', 'objcopy')):
        print(f'blocks left out: there is no {CROSS}gcc with its binutils')
        return 0
    differ = sum(not passes(block, [('block', partial(check_block, program, block))]) for block in BLOCKS)
    print(f'{len(BLOCKS) - differ} blocks passed' + (f', {differ} failed' if differ else ''))
    return differ


def check_block(program: Path, block: str) -> None:
    """A block's text is assembled to the bytes that its guest has."""
    guest, table = BLOCKS[block]
    status, file = run(program, 'make', guest, '1')
    want('the status of make', status, DONE)
    want(f'how often its bytes stand in {guest}', file.count(assembled(block, table)), 1)


def assembled(block: str, table: int) -> bytes:
    """The bytes that GCC and its assembler make of a block."""
    with tempfile.TemporaryDirectory() as folder:
        source, linked, bytes_of = (Path(folder, name) for name in ('block.c', 'block.elf', 'block.bin'))
        source.write_text(BLOCK_SOURCE % (block, table))
        subprocess.run([CROSS + 'gcc', '-march=rv64ima', '-mabi=lp64', '-O2', '-std=gnu11', '-ffreestanding', '-nostdlib', '-static', '-w',
                        '-Wl,-e,0', f'-I{HERE}/common', '-o', linked, source], check=True)
        subprocess.run([CROSS + 'objcopy', '-O', 'binary', '--only-section=.block', linked, bytes_of], check=True)
        return bytes_of.read_bytes()


def check_headers(names: list[str]) -> int:
    """How many orders of the headers of common/ fail, of those with each of them first; says so where they can't be compiled."""
    if names and 'headers' not in names:
        return 0
    if not shutil.which(CROSS + 'gcc') or not PICOLIBC.is_dir():
        print(f'headers left out: there is no {CROSS}gcc with picolibc')
        return 0
    every = sorted((HERE / 'common').glob('*.h'))
    orders = [every[at:] + every[:at] for at in range(len(every))]
    failed = sum(not passes(order[0].name, [('first', partial(check_order, order))]) for order in orders)
    print(f'{len(orders) - failed} orders of headers passed' + (f', {failed} failed' if failed else ''))
    return failed


def check_order(headers: list[Path]) -> None:
    """The headers, each included twice in this order, are compiled without a warning."""
    source = ''.join(f'#include "{header.name}"\n' for header in [*headers, *headers])
    words = [CROSS + 'gcc', '-march=rv64ima', '-mabi=lp64', '-O2', '-std=gnu11', '-Wall', '-Wextra', f'-I{HERE}/common', '-isystem',
             f'{PICOLIBC}/include', '-fsyntax-only', '-x', 'c', '-']
    ran = subprocess.run(words, input=source.encode(), capture_output=True)
    want('what the compiler says', ran.stdout + ran.stderr, b'')

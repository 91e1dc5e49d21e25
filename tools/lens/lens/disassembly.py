"""The text of instructions, by the toolchain's objdump."""
from __future__ import annotations

import re
import shutil
import subprocess

from .faults import LensFault

OBJDUMPS = ('riscv64-unknown-elf-objdump', 'riscv64-linux-gnu-objdump', 'llvm-objdump')
LINE = re.compile(r'\s*(?P<address>[0-9a-f]+):\s+(?P<text>\S.*)')
FUNCTION_NAMES = re.compile(r'\s+<[^>]*>')
COMMENT = re.compile(r'\s+#.*')


def find_objdump() -> str | None:
    return next((found for name in OBJDUMPS if (found := shutil.which(name))), None)


def disassemble(path: str) -> dict[int, str]:
    """The text of each instruction of the file's code, by address."""
    objdump = find_objdump()
    if objdump is None:
        raise LensFault('no objdump for RISC-V is installed: apt-get install binutils-riscv64-unknown-elf')
    ran = subprocess.run(
        [objdump, '--disassemble', '--no-show-raw-insn', path], capture_output=True, text=True
    )
    if ran.returncode:
        raise LensFault(f'{path}: {ran.stderr.strip().splitlines()[-1]}')
    matches = map(LINE.fullmatch, ran.stdout.splitlines())
    return {int(found['address'], 16): plain(found['text']) for found in matches if found}


def plain(text: str) -> str:
    """Mnemonic and operands one space apart, without the name that objdump adds to an address, and its
    remarks."""
    return ' '.join(FUNCTION_NAMES.sub('', COMMENT.sub('', text)).split())

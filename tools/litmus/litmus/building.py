"""Makes a program of an assembler text: by GNU's assembler and linker, or by clang and lld."""
from __future__ import annotations

import shutil
import subprocess
from pathlib import Path

GNU, LLVM = 'gnu', 'llvm'
CROSS = 'riscv64-unknown-elf-'
ARCHITECTURE = ('-march=rv64ima', '-mabi=lp64')
LINKED = ('-static', '-z', 'max-page-size=4096', '--build-id=none', '--no-relax')
TOOLS = {GNU: (CROSS + 'as', CROSS + 'ld'), LLVM: ('clang', 'ld.lld')}


class NoToolchain(Exception):
    """Nothing here makes programs of assembler."""


def toolchains() -> list[str]:
    """Those that are here."""
    return [name for name, tools in TOOLS.items() if all(map(shutil.which, tools))]


def build(text: str, elf: Path, toolchain: str | None = None, data: int | None = None) -> Path:
    """Builds a program beside its text, by one of the toolchains: where none is named, by the first that is
    here; and with its data at an address, where one is given."""
    found = toolchain or next(iter(toolchains()), None)
    if found is None:
        raise NoToolchain('neither riscv64-unknown-elf-as and -ld nor clang and ld.lld is here')
    assembler, linker = TOOLS[found]
    source, made = elf.with_suffix('.s'), elf.with_suffix('.o')
    source.write_text(text)
    words = ['--target=riscv64-unknown-elf', '-c'] if found == LLVM else []
    run(assembler, *words, *ARCHITECTURE, '-o', str(made), str(source))
    placed = [] if data is None else [f'-Tdata={data:#x}']
    run(linker, *LINKED, *placed, '-o', str(elf), str(made))
    return elf


def run(*words: str) -> None:
    """A tool, which has nothing to say."""
    subprocess.run(words, check=True, stdin=subprocess.DEVNULL)

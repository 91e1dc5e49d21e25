"""The file of a guest: its code by GNU's assembler and linker, and its ELF file by the System V ABI."""
from __future__ import annotations

import struct
import subprocess
import tempfile
from pathlib import Path
from typing import NamedTuple

from .listing import assembler

PREFIX = 'riscv64-unknown-elf-'
CODE_AT, CODE_SIZE, DATA_AT, DATA_SIZE, PAGE = 0x10000, 0x1000, 0x20000, 0x30000, 0x1000

# ELF (System V ABI, "ELF Header" and "Program Header"; RISC-V's number and the bit of Ztso: psABI).
ELF_64_LITTLE, EXECUTABLE, RISCV, LOADED, TSO = b'\x7fELF\x02\x01\x01', 2, 243, 1, 16
READ, WRITE, EXECUTE = 4, 2, 1
HEADER_SIZE, ENTRY_SIZE = 64, 56


class Code(NamedTuple):
    """The words of a guest, and where its labels stand."""

    words: bytes
    labels: dict[str, int]

    def descriptor(self, base: int) -> list[int]:
        """The words of `struct rseq_cs` for the block with these labels; 0 for a label that isn't there."""
        start, commit, abort = (self.labels.get(f'L{base + k}', 0) for k in (1, 2, 3))
        return [0, start, max(commit - start, 0), abort]


class Part(NamedTuple):
    at: int
    may: int
    held: bytes
    size: int


def run(folder: Path, tool: str, *words: str) -> str:
    """What a tool of binutils prints."""
    ran = subprocess.run([PREFIX + tool, *words], cwd=folder, check=True, capture_output=True, text=True)
    return ran.stdout


def assembled(text: str) -> Code:
    """The words of an assembler text whose first stands at the address of the code."""
    with tempfile.TemporaryDirectory() as name:
        folder = Path(name)
        (folder / 'guest.s').write_text(text)
        run(folder, 'as', '-march=rv64ima', '-mabi=lp64', '-o', 'guest.o', 'guest.s')
        at = f'{CODE_AT:#x}'
        run(folder, 'ld', '--no-relax', f'-Ttext={at}', '-e', at, '-o', 'guest', 'guest.o')
        run(folder, 'objcopy', '-O', 'binary', '-j', '.text', 'guest', 'guest.bin')
        symbols = (line.split() for line in run(folder, 'nm', 'guest').splitlines())
        labels = {fields[2]: int(fields[0], 16) for fields in symbols if len(fields) == 3}
        return Code((folder / 'guest.bin').read_bytes(), labels)


def header(entry: int, flags: int, count: int) -> bytes:
    """The file header of so many program headers, which stand behind it. There are no section headers."""
    places = (entry, HEADER_SIZE, 0)
    sizes = (HEADER_SIZE, ENTRY_SIZE, count, 0, 0, 0)
    rest = struct.pack('<HHIQQQIHHHHHH', EXECUTABLE, RISCV, 1, *places, flags, *sizes)
    return ELF_64_LITTLE.ljust(16, b'\0') + rest


def file_of(parts: list[Part], entry: int, flags: int) -> bytes:
    """An executable file of these parts, each at the lowest place that its address allows."""
    end = HEADER_SIZE + ENTRY_SIZE * len(parts)
    table, contents = b'', b''
    for part in parts:
        place = end + (part.at - end) % PAGE
        sizes = (len(part.held), part.size, PAGE)
        table += struct.pack('<IIQQQQQQ', LOADED, part.may, place, part.at, part.at, *sizes)
        contents += bytes(place - end) + part.held
        end = place + len(part.held)
    return header(entry, flags, len(parts)) + table + contents


def made(guest: str, size: int) -> bytes:
    """The file of a guest for a size. Its data begin with the size, the grace counter and two descriptors."""
    code = assembled(assembler(guest))
    words = [size, 1, 0, 0, *code.descriptor(0), *code.descriptor(8)]
    return file_of(
        [
            Part(CODE_AT, READ | EXECUTE, code.words, CODE_SIZE),
            Part(DATA_AT, READ | WRITE, struct.pack(f'<{len(words)}Q', *words), DATA_SIZE),
        ],
        CODE_AT,
        TSO,
    )

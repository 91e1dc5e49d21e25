"""Counts again, from logs that `draw` prints, what `explore` says in its line `overtaken N of M`: which plain stores
were executed, and which of these a later load of their hart overtook. It knows of the machine what the log says, and
of the program which of its instructions load and store.

    examples/overtaken.py PROGRAM ELF FIRST-SEED RUNS [OPTION..]

prints that line for RUNS seeds from FIRST-SEED on; the options are those of `draw`.
"""
from __future__ import annotations

import struct
import subprocess
import sys
from collections import defaultdict
from collections.abc import Iterable
from dataclasses import dataclass, field
from pathlib import Path

sys.path.append(str(Path(__file__).resolve().parents[1] / 'tools' / 'runs'))

from runs import DRAIN, EXEC, Step, parse_output  # noqa: E402 (found by the line above)

LOAD, STORE = 0x03, 0x23
"""The major opcodes of plain loads and stores (RISC-V Unprivileged ISA, "RV32/64G Instruction Set Listings")."""
EXECUTABLE = 1
SEEDS = 1 << 64


class Code:
    """The words of a program that may be executed, by their addresses (System V ABI, "Program Header")."""

    def __init__(self, elf: bytes) -> None:
        offset, = struct.unpack_from('<Q', elf, 32)
        size, count = struct.unpack_from('<HH', elf, 54)
        self.segments: list[tuple[int, bytes]] = []
        for at in range(offset, offset + size * count, size):
            kind, flags, start, address, _, length = struct.unpack_from('<IIQQQQ', elf, at)
            if kind == 1 and flags & EXECUTABLE:
                self.segments.append((address, elf[start:start + length]))

    def opcode(self, pc: int) -> int | None:
        """The major opcode of the instruction at an address."""
        for address, data in self.segments:
            if address <= pc < address + len(data):
                return data[pc - address] & 0x7F
        return None


@dataclass
class Stores:
    """The addresses of the instructions of stores: of those that were executed, and of those that were overtaken."""

    executed: set[int] = field(default_factory=set)
    overtaken: set[int] = field(default_factory=set)

    def count(self, code: Code, steps: Iterable[Step], faulted: bool) -> None:
        """Counts those of a run; where it ended by a fault the last step executed nothing."""
        waiting: dict[int, list[int]] = defaultdict(list)
        log = list(steps)
        for place, step in enumerate(log, 1):
            waits = waiting[step.hart]
            if step.kind == DRAIN:
                waits.pop(0)
            elif step.kind == EXEC and not (faulted and place == len(log)):
                opcode = code.opcode(step.pc)
                if opcode == STORE:
                    self.executed.add(step.pc)
                    waits.append(step.pc)
                elif opcode == LOAD:
                    self.overtaken.update(waits)

    def line(self) -> str:
        return f'overtaken {len(self.overtaken)} of {len(self.executed)}\n'


def overtaken_line(program: str, elf: str, first: int, runs: int, options: list[str]) -> str:
    """The line that is due for the runs of these seeds. A program whose handlers meet faults isn't for this: it takes
    each store to be executed but the last one of a run that was killed."""
    code, stores = Code(Path(elf).read_bytes()), Stores()
    for seed in range(first, first + runs):
        words = [program, 'draw', elf, '--seed', str(seed % SEEDS), *options]
        run = parse_output(f'seed {seed}', subprocess.run(words, capture_output=True, check=True).stdout)
        stores.count(code, run.steps, run.was_killed)
    return stores.line()


if __name__ == '__main__':
    print(overtaken_line(sys.argv[1], sys.argv[2], int(sys.argv[3]), int(sys.argv[4]), sys.argv[5:]), end='')

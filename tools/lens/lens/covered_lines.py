"""Which source lines some runs came by, and which functions."""
from __future__ import annotations

from collections import defaultdict
from dataclasses import dataclass
from functools import cached_property

from .coverage import Coverage
from .program import Program, Symbol
from .source import Place


@dataclass(frozen=True)
class Function:
    """A function, or code behind a label that no function is before: its instructions in order."""

    symbol: Symbol
    addresses: list[int]


class CoveredLines:
    """A program beside what was counted of its runs."""

    def __init__(self, program: Program, covered: Coverage):
        self.program = program
        self.covered = covered
        self.addresses = sorted(address for address in program.texts if program.has(address))

    @cached_property
    def functions(self) -> list[Function]:
        """The functions in the order of their addresses. A label inside of one begins none."""
        found: dict[Symbol, list[int]] = {}
        current: Symbol | None = None
        for address in self.addresses:
            if current is None or not address < current.address + current.size:
                current = self.program.symbol(address)
            if current:
                found.setdefault(current, []).append(address)
        return [Function(symbol, addresses) for symbol, addresses in found.items()]

    @cached_property
    def lines(self) -> dict[Place, int]:
        """How often each source line ran that has instructions: as often as the instruction of it that ran most often. An
        instruction of a helper that was put into another function is also one of the line that calls it."""
        times: dict[Place, int] = defaultdict(int)
        for address in self.addresses:
            inner = self.program.place(address)
            calls = (call.place for call in self.program.inlining.chain(address))
            for place in (inner, *calls) if inner else ():
                times[place] = max(times[place], self.covered.executed[address])
        return dict(times)

    def files(self) -> dict[tuple[str, str], dict[int, int]]:
        """The lines of each file, by its folder and its name."""
        files: dict[tuple[str, str], dict[int, int]] = defaultdict(dict)
        for place, times in sorted(self.lines.items(), key=lambda row: (row[0].file, row[0].line)):
            files[place.folder, place.file][place.line] = times
        return dict(files)

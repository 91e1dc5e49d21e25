"""Which line of the source an address comes from, by the file's DWARF line tables."""
from __future__ import annotations

from bisect import bisect_right
from collections.abc import Iterator
from dataclasses import dataclass
from functools import cache
from pathlib import Path, PurePosixPath

from elftools.dwarf.compileunit import CompileUnit
from elftools.dwarf.lineprogram import LineProgram
from elftools.elf.elffile import ELFFile

from .dwarf import FAULTS, attribute, text, units

DWARF_WITH_DIRECTORY_ZERO = 5


@dataclass(frozen=True)
class Place:
    """A line of a source file. The folder is where the compiler ran, and the file is named from there."""

    folder: str
    file: str
    line: int

    @property
    def name(self) -> str:
        return f'{PurePosixPath(self.file).name}:{self.line}'


@dataclass(frozen=True)
class Row:
    """The addresses from here to the next row come from this place, or from none."""

    address: int
    place: Place | None


class Lines:
    """The line tables of a file. What can't be read of them lacks: `lacking` says what, and why."""

    def __init__(self, elf: ELFFile, path: str):
        self.path = Path(path).resolve()
        self.lacking: list[str] = []
        self.rows = sorted(self.read(elf), key=lambda row: (row.address, row.place is not None))
        self.addresses = [row.address for row in self.rows]

    def read(self, elf: ELFFile) -> list[Row]:
        """The rows of all units that can be read."""
        rows: list[Row] = []
        try:
            for unit in units(elf):
                rows += self.read_unit(unit)
        except FAULTS as error:
            self.lacking.append(f'all after these ({words_of(error)})')
        return rows

    def read_unit(self, unit: CompileUnit) -> list[Row]:
        name = 'a unit without a name'
        try:
            name = text(attribute(unit.get_top_DIE(), 'name')) or name
            return list(unit_rows(unit))
        except FAULTS as error:
            self.lacking.append(f'{name} ({words_of(error)})')
            return []

    def at(self, address: int) -> Place | None:
        index = bisect_right(self.addresses, address)
        return self.rows[index - 1].place if index else None

    def text(self, place: Place) -> str:
        """The text of a line, where its file is found."""
        path = self.path_of(place)
        lines = read_lines(path) if path else ()
        return lines[place.line - 1].strip() if place.line <= len(lines) else ''

    def path_of(self, place: Place) -> Path | None:
        """Where the file of a place is found: where the compiler read it, or by its name from a folder round the ELF
        file."""
        named = PurePosixPath(place.folder) / place.file
        return find_file(named, (Path('/'),) if named.is_absolute() else tuple(self.path.parents))


@cache
def find_file(named: PurePosixPath, roots: tuple[Path, ...]) -> Path | None:
    """A file in the first of the folders that has it."""
    return next((root / named for root in roots if (root / named).is_file()), None)


@cache
def read_lines(path: Path) -> tuple[str, ...]:
    """The lines of a file."""
    return tuple(path.read_text(errors='replace').splitlines())


def unit_rows(unit: CompileUnit) -> Iterator[Row]:
    """The rows of a unit's line table, with one of no place at the end of each stretch of code."""
    program = unit.dwarfinfo.line_program_for_CU(unit)
    if program is None:
        return
    folder = folder_of(unit)
    states = (entry.state for entry in program.get_entries() if entry.state is not None)
    for state in states:
        named = None if state.end_sequence or not state.line else file_name(program, state.file)
        yield Row(state.address, Place(folder, named, state.line) if named else None)


def folder_of(unit: CompileUnit) -> str:
    """Where the compiler ran."""
    return text(attribute(unit.get_top_DIE(), 'comp_dir'))


def words_of(error: Exception) -> str:
    """What a fault of the library says, on one line."""
    return ' '.join(str(error.args[0] if error.args else '').split()) or type(error).__name__


def file_name(program: LineProgram, number: int) -> str:
    """The path of a file of a line table, from where the compiler ran: that is its directory 0. Before DWARF 5
    files and directories count from 1, and the table doesn't name directory 0."""
    header = program.header
    counts_from_zero = header.version >= DWARF_WITH_DIRECTORY_ZERO
    entry = header.file_entry[number if counts_from_zero else number - 1]
    named = [name.decode() for name in header.include_directory]
    directories = ['', *(named[1:] if counts_from_zero else named)]
    return str(PurePosixPath(directories[entry.dir_index]) / entry.name.decode())

"""Which calls the compiler put into other functions (DW_TAG_inlined_subroutine), so that an instruction of a
helper is also one of the line that calls it."""
from __future__ import annotations

import io
from collections.abc import Iterator
from dataclasses import dataclass
from pathlib import PurePosixPath

from elftools.dwarf.compileunit import CompileUnit
from elftools.elf.elffile import ELFFile

from .dwarf import FAULTS, attribute, ranges, text, units
from .source import Place, file_name, folder_of

INLINED = 'DW_TAG_inlined_subroutine'


@dataclass(frozen=True)
class Call:
    """The addresses that belong to a call that was put in, and the place of that call. `own` is the file that
    the unit was compiled from."""

    start: int
    end: int
    place: Place
    own: str


class Inlining:
    """The calls of a file, the outer ones before those in them; none where the file doesn't say them."""

    def __init__(self, path: str):
        self.calls: list[Call] = []
        with open(path, 'rb') as file:
            elf = ELFFile(io.BytesIO(file.read()))
        try:
            for unit in units(elf):
                self.calls += calls_of(unit)
        except FAULTS:
            return  # (what can't be read lacks)

    def chain(self, address: int) -> list[Call]:
        """The calls that an address belongs to, the innermost first."""
        return [call for call in reversed(self.calls) if call.start <= address < call.end]


def calls_of(unit: CompileUnit) -> Iterator[Call]:
    program = unit.dwarfinfo.line_program_for_CU(unit)
    own, folder = text(attribute(unit.get_top_DIE(), 'name')), folder_of(unit)
    for die in unit.iter_DIEs():
        if die.tag != INLINED or program is None or not attribute(die, 'call_line'):
            continue
        place = Place(folder, file_name(program, attribute(die, 'call_file')), attribute(die, 'call_line'))
        for start, end in ranges(unit, die):
            yield Call(start, end, place, own)


def outermost_own(inner: Place, chain: list[Call]) -> Place:
    """Of the places of an instruction, from the inner one out, the outermost in the file that was compiled;
    where none is there, the outermost of all."""
    places = [inner, *(call.place for call in chain)]
    own = [place for place in places if chain and is_same_file(place.file, chain[0].own)]
    return (own or places)[-1]


def is_same_file(one: str, other: str) -> bool:
    return PurePosixPath(one).name == PurePosixPath(other).name

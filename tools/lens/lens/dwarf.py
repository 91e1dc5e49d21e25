"""The DWARF of a file, by pyelftools; with what version 0.29 of that (Debian 12) lacks of DWARF 5, as clang
writes it."""
from __future__ import annotations

from collections.abc import Iterator
from typing import Any

from elftools.common.exceptions import DWARFError, ELFError
from elftools.construct import StaticField
from elftools.construct.core import ConstructError
from elftools.dwarf.compileunit import CompileUnit
from elftools.dwarf.die import DIE
from elftools.dwarf.structs import DWARFStructs
from elftools.elf.elffile import ELFFile

LACKING = {'DW_FORM_data16': 16}
"""Forms that it doesn't know, and how many bytes each has: the digest of a source file."""
FAULTS = (DWARFError, ELFError, ConstructError, KeyError, IndexError, ValueError, AttributeError)
"""What it raises where it can't read something."""
ADDRESS, ADDRESS_BY_INDEX = 0x03, 0xA1
"""DW_OP_addr: the address stands behind it. DW_OP_addrx: the place in the unit's list of addresses does."""
POINTER = 8


def know_forms() -> None:
    """Makes the forms that lack known."""
    create = DWARFStructs._create_dw_form

    def create_all(structs: DWARFStructs) -> None:
        create(structs)
        for form, size in LACKING.items():
            structs.Dwarf_dw_form.setdefault(form, StaticField('', size))

    DWARFStructs._create_dw_form = create_all


know_forms()


def units(elf: ELFFile) -> Iterator[CompileUnit]:
    """The units of a file, each of which was compiled by itself; none where the file has no DWARF."""
    if elf.has_dwarf_info():
        yield from elf.get_dwarf_info().iter_CUs()


def attribute(die: DIE, name: str) -> Any:
    """The value of an attribute; None where there is none."""
    found = die.attributes.get(f'DW_AT_{name}')
    return found.value if found else None


def text(value: object) -> str:
    return value.decode('utf-8', 'replace') if isinstance(value, bytes) else ''


def located(unit: CompileUnit, die: DIE) -> int | None:
    """The address of a variable that has one place all the time."""
    place = die.attributes.get('DW_AT_location')
    if place is None or place.form != 'DW_FORM_exprloc' or not place.value:
        return None
    operation, *rest = place.value
    if operation == ADDRESS and len(rest) == POINTER:
        return int.from_bytes(rest, 'little')
    if operation == ADDRESS_BY_INDEX:
        number, length = leb128(rest)
        return unit.dwarfinfo.get_addr(unit, number) if length == len(rest) else None
    return None


def leb128(digits: list[int]) -> tuple[int, int]:
    """The number that begins some bytes, and how many of them it has."""
    value = 0
    for at, byte in enumerate(digits):
        value |= (byte & 0x7F) << 7 * at
        if byte < 0x80:
            return value, at + 1
    return value, len(digits) + 1


def ranges(unit: CompileUnit, die: DIE) -> list[tuple[int, int]]:
    """From which address up to which the code of a function, or of a call of one, stands."""
    low, high = die.attributes.get('DW_AT_low_pc'), die.attributes.get('DW_AT_high_pc')
    if low is not None and high is not None:
        is_address = high.form.startswith('DW_FORM_addr')
        return [(low.value, high.value if is_address else low.value + high.value)]
    listed = die.attributes.get('DW_AT_ranges')
    if listed is None:
        return []
    return list(listed_ranges(unit, listed.value, attribute(unit.get_top_DIE(), 'low_pc') or 0))


def listed_ranges(unit: CompileUnit, offset: int, base: int) -> Iterator[tuple[int, int]]:
    """The ranges of a list, whose entries count from a base or stand by themselves."""
    for entry in unit.dwarfinfo.range_lists().get_range_list_at_offset(offset, cu=unit):
        if hasattr(entry, 'base_address'):
            base = entry.base_address
        else:
            start = 0 if getattr(entry, 'is_absolute', False) else base
            yield start + entry.begin_offset, start + entry.end_offset

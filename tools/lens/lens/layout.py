"""How the variables of a file are laid out, by the types of its DWARF: which bytes `readers[0].hazard` has,
and which member has some bytes."""
from __future__ import annotations

import io
import re
from collections.abc import Iterator
from dataclasses import dataclass

from elftools.dwarf.die import DIE
from elftools.elf.elffile import ELFFile

from .dwarf import FAULTS, POINTER, attribute, located, units
from .faults import LensFault

MEMBER = re.compile(r'\.(?P<name>\w+)|\[(?P<index>[0-9]+)\]')
PATH = re.compile(r'(?P<variable>\w+)(?P<members>(\.\w+|\[[0-9]+\])+)')
NAMED = (
    'DW_TAG_typedef',
    'DW_TAG_const_type',
    'DW_TAG_volatile_type',
    'DW_TAG_restrict_type',
    'DW_TAG_atomic_type',
)
"""Types that are another one by a further name, or with a qualifier."""
STRUCTS = ('DW_TAG_structure_type', 'DW_TAG_union_type')
POINTERS = ('DW_TAG_pointer_type', 'DW_TAG_reference_type', 'DW_TAG_rvalue_reference_type')
MARKS = {'DW_TAG_volatile_type': 'volatile', 'DW_TAG_atomic_type': 'atomic'}
BITS = 'DW_AT_bit_size'


@dataclass(frozen=True)
class Scalar:
    """A number or a pointer. `mark` says whether it was declared as `volatile` or `atomic` (_Atomic)."""

    size: int
    mark: str = ''


@dataclass(frozen=True)
class Array:
    count: int
    element: Kind

    @property
    def size(self) -> int:
        return self.count * self.element.size


@dataclass(frozen=True)
class Member:
    name: str
    at: int
    kind: Kind


@dataclass(frozen=True)
class Struct:
    """A struct or a union: its members, those of a member without a name among them. Bits aren't kept."""

    size: int
    members: tuple[Member, ...]


Kind = Scalar | Array | Struct


class Layout:
    """The types of the variables of a file, by their addresses."""

    def __init__(self, path: str):
        self.path = path
        self.known: dict[int, Kind] = {}
        self.kinds: dict[int, Kind] = {}
        with open(path, 'rb') as file:
            elf = ELFFile(io.BytesIO(file.read()))
        try:
            self.kinds.update(self.variables(elf))
        except FAULTS:
            return  # (the others have their places by the symbols alone)

    def variables(self, elf: ELFFile) -> Iterator[tuple[int, Kind]]:
        for unit in units(elf):
            for die in unit.iter_DIEs():
                address = located(unit, die) if die.tag == 'DW_TAG_variable' else None
                if address is not None:
                    is_whole = 'DW_AT_type' in die.attributes
                    declared = die if is_whole else die.get_DIE_from_attribute('DW_AT_specification')
                    yield address, self.kind_of(declared)

    def kind_of(self, die: DIE) -> Kind:
        """The type of a variable, a member or an array's elements."""
        if 'DW_AT_type' not in die.attributes:
            return Scalar(0)
        kind, mark = die.get_DIE_from_attribute('DW_AT_type'), ''
        while kind.tag in NAMED:
            mark = MARKS.get(kind.tag, mark)
            if 'DW_AT_type' not in kind.attributes:
                return Scalar(0, mark)
            kind = kind.get_DIE_from_attribute('DW_AT_type')
        if kind.offset not in self.known:
            self.known[kind.offset] = self.make_kind(kind)
        return marked(self.known[kind.offset], mark) if mark else self.known[kind.offset]

    def make_kind(self, die: DIE) -> Kind:
        size = attribute(die, 'byte_size')
        if die.tag in STRUCTS:
            return Struct(size or 0, tuple(self.members(die)))
        if die.tag != 'DW_TAG_array_type':
            return Scalar(size or (POINTER if die.tag in POINTERS else 0))
        kind = self.kind_of(die)
        for count in reversed(list(counts(die))):
            kind = Array(count, kind)
        return kind

    def members(self, struct: DIE) -> Iterator[Member]:
        for child in struct.iter_children():
            if child.tag != 'DW_TAG_member' or BITS in child.attributes:
                continue
            place = child.attributes.get('DW_AT_data_member_location')
            at, kind = place.value if place else 0, self.kind_of(child)
            if 'DW_AT_name' in child.attributes:
                yield Member(child.attributes['DW_AT_name'].value.decode(), at, kind)
            elif isinstance(kind, Struct):
                yield from (Member(inner.name, at + inner.at, inner.kind) for inner in kind.members)

    def member(self, address: int, variable: str, members: str) -> tuple[int, int]:
        """The address and the size of a member of the variable at an address; a fault that says what there is
        where there is no such member."""
        if address not in self.kinds:
            raise LensFault(f'{self.path} doesn\'t say which members {variable} has: build it with -g')
        at, words, kind = address, variable, self.kinds[address]
        for member in MEMBER.finditer(members):
            kind, offset = part_of(kind, words, member)
            at, words = at + offset, words + member[0]
        return at, kind.size

    def name(self, variable: str, address: int, offset: int, size: int) -> str | None:
        """The member that has just so many bytes from an offset in a variable on; None where none has."""
        kind = self.kinds.get(address)
        return name_in(kind, variable, offset, size) if kind else None

    def mark(self, address: int, offset: int) -> str:
        """Whether what has the byte at an offset in a variable was declared as `volatile` or `atomic`; else
        empty."""
        kind = self.kinds.get(address)
        return mark_in(kind, offset) if kind else ''

    def parts(self, variable: str, address: int, start: int, end: int) -> list[tuple[str, int, int]]:
        """The numbers and pointers of a variable that have a byte from one address up to another: name,
        address and size."""
        kind = self.kinds.get(address)
        return list(parts_in(kind, variable, address, start, end)) if kind else []

    def target(self, variable: str, address: int, offset: int) -> str | None:
        """What a pointer points to that has an address in a variable: the outermost member that begins there,
        of an array an element; None where none begins there."""
        kind = self.kinds.get(address)
        return target_in(kind, variable, offset) if kind else None


def marked(kind: Kind, mark: str) -> Kind:
    """The same type with each number and pointer in it marked."""
    match kind:
        case Array(count, element):
            return Array(count, marked(element, mark))
        case Struct(size, members):
            inside = tuple(Member(one.name, one.at, marked(one.kind, mark)) for one in members)
            return Struct(size, inside)
    return Scalar(kind.size, mark)


def mark_in(kind: Kind, offset: int) -> str:
    """How the number or pointer is marked that has the byte at an offset."""
    match kind:
        case Array(_, element):
            return mark_in(element, offset % element.size) if element.size else ''
        case Struct(_, members):
            inside = (one for one in members if one.at <= offset < one.at + one.kind.size)
            return next((mark_in(one.kind, offset - one.at) for one in inside), '')
    return kind.mark


def counts(array: DIE) -> Iterator[int]:
    """How many elements an array has in each direction; 0 where that isn't said."""
    for child in array.iter_children():
        if child.tag == 'DW_TAG_subrange_type':
            count = child.attributes.get('DW_AT_count')
            last = child.attributes.get('DW_AT_upper_bound')
            yield count.value if count else last.value + 1 if last else 0


def part_of(kind: Kind, words: str, member: re.Match[str]) -> tuple[Kind, int]:
    """The type of a member or an element of what these words name, and how far behind its start it is."""
    if member['index']:
        if not isinstance(kind, Array):
            raise LensFault(f'{words} is no array')
        index = int(member['index'])
        if index >= kind.count:
            raise LensFault(f'{words} has {kind.count} elements, counted from 0, and none at {index}')
        return kind.element, index * kind.element.size
    members = kind.members if isinstance(kind, Struct) else ()
    found = next((one for one in members if one.name == member['name']), None)
    if found is None:
        raise LensFault(f'{words} has no member {member["name"]!r}: {what_is(kind)}')
    return found.kind, found.at


def what_is(kind: Kind) -> str:
    match kind:
        case Array(count, _):
            return f'it is an array of {count} elements'
        case Struct(_, members):
            return f'it has {", ".join(member.name for member in members)}'
    return 'it is no struct'


def name_in(kind: Kind, words: str, offset: int, size: int) -> str | None:
    match kind:
        case Array(_, element):
            index = offset // element.size if element.size else 0
            return name_in(element, f'{words}[{index}]', offset - index * element.size, size)
        case Struct(_, members):
            inside = (one for one in members if one.at <= offset < one.at + one.kind.size)
            names = (name_in(one.kind, f'{words}.{one.name}', offset - one.at, size) for one in inside)
            return next(filter(None, names), None)
    return words if (offset, kind.size) == (0, size) else None


def target_in(kind: Kind, words: str, offset: int) -> str | None:
    match kind:
        case Array(_, element):
            index = offset // element.size if element.size else 0
            return target_in(element, f'{words}[{index}]', offset - index * element.size)
        case Struct(_, members) if offset:
            inside = (one for one in members if one.at <= offset < one.at + one.kind.size)
            names = (target_in(one.kind, f'{words}.{one.name}', offset - one.at) for one in inside)
            return next(filter(None, names), None)
    return words if offset == 0 else None


def parts_in(kind: Kind, words: str, at: int, start: int, end: int) -> Iterator[tuple[str, int, int]]:
    """The numbers and pointers of what begins at an address that have a byte from `start` up to `end`."""
    match kind:
        case Array(count, element) if element.size:
            first, last = max(start - at, 0) // element.size, -(-(end - at) // element.size)
            for index in range(first, min(last, count)):
                yield from parts_in(element, f'{words}[{index}]', at + index * element.size, start, end)
        case Struct(_, members):
            for one in members:
                yield from parts_in(one.kind, f'{words}.{one.name}', at + one.at, start, end)
        case Scalar(size) if at < end and start < at + size:
            yield words, at, size

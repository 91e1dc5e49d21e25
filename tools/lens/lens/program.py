"""The ELF file of a run: its instructions, its symbols and its source lines."""
from __future__ import annotations

import re
import struct
from bisect import bisect_right
from collections.abc import Iterator
from dataclasses import dataclass, field
from functools import cache, cached_property

from elftools.common.exceptions import ELFError
from elftools.elf.constants import P_FLAGS
from elftools.elf.elffile import ELFFile

from .disassembly import disassemble
from .faults import LensFault
from .inlining import Inlining, outermost_own
from .instructions import SIZE, Instruction
from .layout import Layout
from .source import Lines, Place

SYMBOL_KINDS = ('STT_FUNC', 'STT_NOTYPE')
MARK = re.compile(r'\$[adtx].*|\.L.*')
SYMBOL_AND_OFFSET = re.compile(r'(?P<symbol>[^+]+?)(\+(?P<offset>0x[0-9a-fA-F]+|[0-9]+))?')
SOURCE_LINE = re.compile(r'(?P<file>[^:]+):(?P<line>[0-9]+)')
ADDRESS = re.compile(r'0x[0-9a-fA-F]+')
HANDLER_RETURN = 0x3F_FFFF_0000
SMALL, WORD = 4_096, 8
MOST_MEMBERS = 4
"""Of how many members of one access each is named."""
DESCRIPTOR, DESCRIPTORS = struct.Struct('<IIQQQ'), '__rseq_cs'
RETURNING = {
    address: Instruction(address, word, text)
    for address, word, text in (
        (HANDLER_RETURN, 0x08B00893, 'li a7,139'),
        (HANDLER_RETURN + SIZE, 0x00000073, 'ecall'),
        (HANDLER_RETURN + 2 * SIZE, 0x08B00893, 'li a7,139'),
        (HANDLER_RETURN + 3 * SIZE, 0x00000073, 'ecall'),
    )
}
"""The code that signal handlers return to, without SA_SIGINFO and with it, which the machine maps beside the file's."""


@dataclass(frozen=True)
class Symbol:
    """A function or a label of the code."""

    address: int
    name: str
    is_function: bool
    size: int = 0
    """How many bytes of code it has, where the file says it."""


@dataclass(frozen=True)
class Variable:
    """A variable of the program that has a place of its own."""

    address: int
    size: int
    name: str


@dataclass(frozen=True)
class Segment:
    """Addresses that the file is loaded to, and what may be done there."""

    start: int
    end: int
    flags: int
    content: bytes = field(default=b'', repr=False)
    """What the file has from the start on; behind it all is 0."""

    @property
    def rights(self) -> str:
        """What may be done there, as `r-x`."""
        bits = ((P_FLAGS.PF_R, 'r'), (P_FLAGS.PF_W, 'w'), (P_FLAGS.PF_X, 'x'))
        return ''.join(letter if self.flags & bit else '-' for bit, letter in bits)


@dataclass(frozen=True)
class Descriptor:
    """A descriptor of a restartable sequence, as the file has it: from its start up to its end, and the abort
    handler."""

    start: int
    end: int
    abort: int


@dataclass(frozen=True)
class Code:
    """The bytes of a segment that may be executed."""

    start: int
    content: bytes

    def has(self, address: int) -> bool:
        return 0 <= address - self.start <= len(self.content) - SIZE

    def word(self, address: int) -> int:
        at = address - self.start
        return int.from_bytes(self.content[at : at + SIZE], 'little')


class Program:
    """What a listing needs of an ELF file."""

    def __init__(self, path: str):
        self.path = path
        try:
            with open(path, 'rb') as file:
                self.read(ELFFile(file))
        except OSError as error:
            raise LensFault(f'{path}: {error.strerror}') from None
        except ELFError as error:
            raise LensFault(f'{path}: it is no ELF file ({error})') from None
        self.texts = disassemble(path)

    def read(self, elf: ELFFile) -> None:
        if elf.get_machine_arch() != 'RISC-V' or elf.elfclass != 64:
            raise LensFault(f'{self.path}: it is no program for 64-bit RISC-V (examples/common/rvcc builds one)')
        self.entry = elf.header.e_entry
        self.code = [
            Code(segment['p_vaddr'], segment.data())
            for segment in elf.iter_segments('PT_LOAD')
            if segment['p_flags'] & P_FLAGS.PF_X
        ]
        self.segments = [
            Segment(
                segment['p_vaddr'],
                segment['p_vaddr'] + segment['p_memsz'],
                segment['p_flags'],
                segment.data(),
            )
            for segment in elf.iter_segments('PT_LOAD')
        ]
        self.descriptors = list(descriptors(elf))
        self.symbols = sorted(code_symbols(elf, self.code), key=place_of_symbol)
        if not self.symbols:
            raise LensFault(
                f'{self.path}: it has no symbols: build it without -s (and with -g for its source lines)'
            )
        self.starts = [symbol.address for symbol in self.symbols]
        self.variables = sorted(variables(elf), key=lambda variable: variable.address)
        self.variable_starts = [variable.address for variable in self.variables]
        self.lines = Lines(elf, self.path)
        # (a log comes by the same few addresses again and again)
        self.instruction = cache(self.find_instruction)
        self.where = cache(self.find_where)
        self.source = cache(self.find_source)
        self.variable = cache(self.find_variable)
        self.target = cache(self.find_target)
        self.bytes_of = cache(self.find_bytes)
        self.number = cache(self.find_number)
        self.members_of = cache(self.members)

    def has(self, address: int) -> bool:
        return any(code.has(address) for code in self.code)

    def find_instruction(self, address: int) -> Instruction | None:
        """The instruction at an address; None where there is no code, neither the file's nor that to which
        handlers return."""
        code = next((code for code in self.code if code.has(address)), None)
        if code is None:
            return RETURNING.get(address)
        word = code.word(address)
        return Instruction(address, word, self.texts.get(address, f'.word {word:#010x}'))

    def symbol(self, address: int) -> Symbol | None:
        """The last function or label at or before an address."""
        index = bisect_right(self.starts, address)
        return self.symbols[index - 1] if index else None

    def function(self, address: int) -> str:
        symbol = self.symbol(address)
        return symbol.name if symbol and self.has(address) else f'{address:#x}'

    def find_where(self, address: int) -> str:
        """An address as function+offset."""
        symbol = self.symbol(address)
        if symbol is None or not self.has(address):
            return f'{address:#x}'
        offset = address - symbol.address
        return f'{symbol.name}+{offset:#x}' if offset else symbol.name

    def spot(self, address: int) -> str:
        """An address as function+offset, and its source line as `line_name` says it."""
        name = self.line_name(address)
        return self.where(address) + (f', {name}' if name else '')

    @cached_property
    def layout(self) -> Layout:
        return Layout(self.path)

    @cached_property
    def inlining(self) -> Inlining:
        return Inlining(self.path)

    def outer_place(self, address: int) -> Place | None:
        """The outermost line of the file that was compiled that an instruction belongs to, also where it is
        one of a helper that was put in there."""
        inner = self.place(address)
        return outermost_own(inner, self.inlining.chain(address)) if inner else None

    def line_name(self, address: int) -> str:
        """The source line of an address as `prog.c:21`, of a helper that was put in there as
        `prog.c:21 (threads.h:34)`; empty where the file says none."""
        inner, outer = self.place(address), self.outer_place(address)
        if inner is None or outer is None:
            return ''
        return outer.name if outer == inner else f'{outer.name} ({inner.name})'

    def outer_source(self, address: int) -> list[str]:
        """The text of its source line, and before it that of the line in which a helper was put in."""
        places = dict.fromkeys(filter(None, (self.outer_place(address), self.place(address))))
        return [f'{place.name}  {self.lines.text(place)}'.rstrip() for place in places]

    def variable_at(self, address: int) -> Variable | None:
        """The variable that has the byte at an address."""
        index = bisect_right(self.variable_starts, address)
        found = self.variables[index - 1] if index else None
        return found if found and address < found.address + found.size else None

    def find_variable(self, address: int) -> str:
        """An address as variable+offset, or in hexadecimal where no variable has it."""
        found = self.variable_at(address)
        if found is None:
            return self.where(address)
        return f'{found.name}+{address - found.address:#x}' if address > found.address else found.name

    def find_target(self, address: int) -> str:
        """The variable, its member or its element that begins at an address; else as `variable` says it."""
        found = self.variable_at(address)
        name = found and self.layout.target(found.name, found.address, address - found.address)
        return name or self.variable(address)

    def find_bytes(self, address: int, size: int) -> str:
        """The variable or its member that has just so many bytes from an address on; else `variable+offset`,
        with `:SIZE` where these aren't all of the variable."""
        found = self.variable_at(address)
        name = found and self.layout.name(found.name, found.address, address - found.address, size)
        is_all = found and (found.address, found.size) == (address, size)
        return name or f'{self.variable(address)}{"" if is_all else f":{size}"}'

    def members(self, address: int, size: int) -> list[tuple[str, int, int]]:
        """The members that make up just so many bytes, where they are two to four, and no text: name, address
        and size."""
        end = address + size
        parts = [part for part in self.parts(address, end) if address <= part[1] and part[1] + part[2] <= end]
        lengths = [length for _, _, length in parts]
        is_whole = sum(lengths) == size and 1 < len(parts) <= MOST_MEMBERS and max(lengths) > 1
        return parts if is_whole and size <= WORD else []

    def find_number(self, value: int, size: int) -> str:
        """A value of so many bytes in words: a small one in decimal, with a sign where that makes it small;
        else in hexadecimal, or the variable or the function whose address it is."""
        if value < SMALL:
            return str(value)
        if size > 1 and value >= (1 << 8 * size) - SMALL:
            return str(value - (1 << 8 * size))
        shown = f'{value:#x}'
        name = self.target(value) if size == WORD else ''
        return shown if name in ('', shown) else f'&{name}'

    def parts(self, start: int, end: int) -> Iterator[tuple[str, int, int]]:
        """What the bytes from one address up to another belong to: each variable, or of one with members each
        member that is a number or a pointer, by its name, its address and its size. Bytes of which none is
        known have the name of their place."""
        while start < end:
            found = self.variable_at(start)
            last = min(end, found.address + found.size if found else self.next_variable(start, end))
            known = self.layout.parts(found.name, found.address, start, last) if found else []
            yield from known or [(self.bytes_of(start, last - start), start, last - start)]
            start = last

    def next_variable(self, start: int, end: int) -> int:
        """Where the first variable behind an address begins; `end` where none does."""
        index = bisect_right(self.variable_starts, start)
        return self.variable_starts[index] if index < len(self.variables) else end

    def word(self, address: int) -> int | None:
        """The word of the code at an address."""
        return next((code.word(address) for code in self.code if code.has(address)), None)

    def segment(self, address: int) -> Segment | None:
        return next((part for part in self.segments if part.start <= address < part.end), None)

    def place(self, address: int) -> Place | None:
        """The source line of an address, where the file says it."""
        return self.lines.at(address) if self.has(address) else None

    def find_source(self, address: int) -> str:
        """The source line of an address as `line_name` says it, and the text of the innermost line, where its
        file is found; empty where the file says no line."""
        place = self.place(address)
        return f'{self.line_name(address)}  {self.lines.text(place)}'.rstrip() if place else ''

    def addresses(self, words: str) -> list[int]:
        """The addresses that `function+0x10`, a label, `file.c:21` or `0x10140` name: for a line of the
        source all of its instructions (where it has none of its own, those of the helpers that were put in
        there), else one."""
        if ADDRESS.fullmatch(words):
            return self.checked(words, [int(words, 16)])
        if found := SOURCE_LINE.fullmatch(words):
            return self.line_addresses(words, found['file'], int(found['line']))
        found = SYMBOL_AND_OFFSET.fullmatch(words)
        named = [symbol.address for symbol in self.symbols if found and symbol.name == found['symbol']]
        if not found or not named:
            raise LensFault(f'{self.path} has no function or label {words!r}')
        return self.checked(words, [address + int(found['offset'] or '0', 0) for address in named])

    def checked(self, words: str, addresses: list[int]) -> list[int]:
        if not all(self.instruction(address) and address % SIZE == 0 for address in addresses):
            raise LensFault(f'{self.path} has no instruction at {words}')
        return addresses

    def line_addresses(self, words: str, file: str, line: int) -> list[int]:
        if not self.lines.rows:
            raise LensFault(f'{self.path} has no source lines, and {words!r} needs them: build it with -g')
        every = [
            address
            for code in self.code
            for address in range(code.start, code.start + len(code.content) - SIZE + 1, SIZE)
        ]

        def has_line(place: Place | None) -> bool:
            return place is not None and place.line == line and is_named(place.file, file)

        found = [address for address in every if has_line(self.lines.at(address))]
        found = found or [address for address in every if has_line(self.outer_place(address))]
        if not found:
            raise LensFault(f'{self.path} has no instruction of the line {words}')
        return found


def is_named(path: str, name: str) -> bool:
    """Whether a path is the one that a person names by its last parts."""
    parts, wanted = path.split('/'), name.split('/')
    return parts[-len(wanted) :] == wanted


def place_of_symbol(symbol: Symbol) -> tuple[int, bool]:
    return symbol.address, symbol.is_function


def code_symbols(elf: ELFFile, code: list[Code]) -> Iterator[Symbol]:
    """The functions and labels of the code, without the assembler's own marks."""
    table = elf.get_section_by_name('.symtab')
    for symbol in table.iter_symbols() if table else ():
        kind = symbol['st_info']['type']
        is_of_code = any(part.has(symbol['st_value']) for part in code)
        is_kept = (
            symbol.name
            and not MARK.fullmatch(symbol.name)
            and symbol['st_shndx'] not in ('SHN_ABS', 'SHN_UNDEF')
        )
        if kind in SYMBOL_KINDS and is_of_code and is_kept:
            yield Symbol(symbol['st_value'], symbol.name, kind == 'STT_FUNC', symbol['st_size'])


def variables(elf: ELFFile) -> Iterator[Variable]:
    """The variables of the program."""
    table = elf.get_section_by_name('.symtab')
    for symbol in table.iter_symbols() if table else ():
        is_variable = symbol['st_info']['type'] == 'STT_OBJECT' and symbol['st_shndx'] != 'SHN_UNDEF'
        if is_variable and symbol['st_size']:
            yield Variable(symbol['st_value'], symbol['st_size'], symbol.name)


def descriptors(elf: ELFFile) -> Iterator[Descriptor]:
    """The descriptors of restartable sequences that the file has in the section for them."""
    section = elf.get_section_by_name(DESCRIPTORS)
    content = section.data() if section else b''
    whole = content[: len(content) // DESCRIPTOR.size * DESCRIPTOR.size]
    for _, _, start, length, abort in DESCRIPTOR.iter_unpack(whole):
        yield Descriptor(start, start + length, abort)

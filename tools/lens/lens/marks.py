"""Whether a line of the source makes an access on purpose beside others: an atomic one, a volatile one, or one
in assembler."""
from __future__ import annotations

import re
from functools import cache

from .program import Program
from .source import Place

ATOMIC, VOLATILE, ASSEMBLER = 'atomic', 'volatile', 'asm'
ATOMIC_CALL = re.compile(
    r'\b(?:__atomic_|__c11_atomic_|atomic_|__sync_)\w+\s*\((?P<object>[^,()]*(?:\([^()]*\)[^,()]*)*)'
)
"""A call of an atomic operation, with its first argument."""
IN_ASSEMBLER = re.compile(r'\b(?:__asm__|asm)\b')
IS_VOLATILE = re.compile(r'\bvolatile\b|\b(?:READ|WRITE)_ONCE\b')
NAME = re.compile(r'[A-Za-z_]\w*')
ENDS = re.compile(r'[;{}]\s*(?://.*|/\*.*)?$')
MOST_LINES = 6
"""How many lines of one statement are looked at on either side."""


class Marks:
    """The lines of a program, and how each is marked."""

    def __init__(self, program: Program):
        self.program = program
        self.of_text = cache(self.find_of_text)

    def mark(self, pc: int, at: int, size: int) -> str:
        """How the access of an instruction to some bytes is marked; empty for a plain one."""
        program, place = self.program, self.program.place(pc)
        names = NAME.findall(program.bytes_of(at, size).partition('+')[0]) if program.variable_at(at) else []
        told = self.of_text(place, names[-1] if names else '') if place else ''
        found = program.variable_at(at)
        return told or (program.layout.mark(found.address, at - found.address) if found else '')

    def find_of_text(self, place: Place, name: str) -> str:
        """What the text of a line says of an access to what has a name."""
        text = self.statement(place)
        if place.file.endswith(('.S', '.s')) or IN_ASSEMBLER.search(text):
            return ASSEMBLER
        objects = [found['object'] for found in ATOMIC_CALL.finditer(text)]
        is_inside = any(name in NAME.findall(words) for words in objects)
        is_outside = name in NAME.findall(ATOMIC_CALL.sub(' ', text))
        if objects and (is_inside or not is_outside):
            return ATOMIC
        return VOLATILE if IS_VOLATILE.search(text) else ''

    def statement(self, place: Place) -> str:
        """The text of a line, with the lines before and behind it that belong to the same statement."""
        lines = [self.program.lines.text(place)]
        for number in range(place.line - 1, max(place.line - MOST_LINES, 0), -1):
            before = self.line(place, number)
            if not before or ENDS.search(before):
                break
            lines.insert(0, before)
        number = place.line
        while lines[-1] and not ENDS.search(lines[-1]) and number < place.line + MOST_LINES:
            number += 1
            lines.append(self.line(place, number))
        return ' '.join(lines)

    def line(self, place: Place, number: int) -> str:
        return self.program.lines.text(Place(place.folder, place.file, number))

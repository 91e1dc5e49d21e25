"""The listings of the guests as GNU assembler: read from the steps in crates/guest_programs/src.

The blocks of the libraries come from blocks.s, which is written by docs/reference/BLOCKS.md and not by those sources.
"""
from __future__ import annotations

import re
from pathlib import Path
from typing import Iterator

SOURCES = Path(__file__).resolve().parents[3] / 'crates' / 'guest_programs' / 'src'
BLOCKS = Path(__file__).with_name('blocks.s')

# What all guests have, in the order in which it stands in the code; and the steps that only a guest has.
COMMON = ('BEGINNING', 'STARTING', 'ENDING', 'PRINTING', 'PINNING')
GUESTS = ('counter', 'list', 'pool', 'dekker', 'signals', 'migrate', 'ring', 'urcu')

CONSTANT = re.compile(r'const (\w+): (?:u8|u32|u64|i64) = ([^;\[]+);')
STEP = re.compile(
    r'label!\((?P<label>[^)]+)\)|inst!\((?P<inst>[^)]+)\)|branch!\((?P<branch>[^)]+)\)'
    r'|(?P<ecall>ecall!)\(\)|Step::Block\(BlockKind::(?P<block>\w+), (?P<base>\w+), (?P<table>\w+)\)'
)


class ListingFault(Exception):
    """What a listing has that this reader doesn't know."""


def constants(text: str) -> dict[str, str]:
    """The constants of a source, each with the text of its value."""
    return {name: value.strip() for name, value in CONSTANT.findall(text)}


def number(text: str, names: dict[str, str]) -> int:
    """The value of a sum of numbers and constants."""
    total = 0
    for term in text.split('+'):
        term = term.strip().removesuffix(' as i64')
        total += number(names[term], names) if term in names else int(term, 0)
    return total


def steps_of(text: str, name: str) -> str:
    """The steps of a listing, as they stand in a source."""
    found = re.search(rf'const {name}: \[Step; (\d+)\] = \[\n(.*?)\n\];', text, re.DOTALL)
    if found is None:
        raise ListingFault(f'no listing has the name {name}')
    body = re.sub(r'//.*', '', found[2])
    if len(STEP.findall(body)) != int(found[1]) or re.sub(r'[\s,]', '', STEP.sub('', body)):
        raise ListingFault(f'{name} has something that is no step')
    return body


def operands(text: str, names: dict[str, str]) -> tuple[str, dict[str, int]]:
    """The mnemonic of `Addi rd = A0, imm = 3`, and its fields."""
    mnemonic, _, rest = text.partition(' ')
    pairs = (field.split('=') for field in rest.split(','))
    return mnemonic.lower(), {name.strip(): number(value, names) for name, value in pairs}


def instruction(text: str, names: dict[str, str]) -> str:
    """An instruction of a step."""
    name, of = operands(text, names)
    match name:
        case 'lui':
            return f'lui x{of["rd"]}, {of["imm"] >> 12 & 0xFFFFF}'
        case 'lw' | 'ld' | 'jalr':
            return f'{name} x{of["rd"]}, {of["imm"]}(x{of["rs1"]})'
        case 'sb' | 'sw' | 'sd':
            return f'{name} x{of["rs2"]}, {of["imm"]}(x{of["rs1"]})'
        case 'addi' | 'sltiu':
            return f'{name} x{of["rd"]}, x{of["rs1"]}, {of["imm"]}'
        case 'slli' | 'srli':
            return f'{name} x{of["rd"]}, x{of["rs1"]}, {of["shamt"]}'
        case 'add' | 'sub' | 'or' | 'sll' | 'remu' | 'divu':
            return f'{name} x{of["rd"]}, x{of["rs1"]}, x{of["rs2"]}'
    raise ListingFault(f'{name} is in no listing that is known')


def branch(text: str, names: dict[str, str]) -> str:
    """A branch or a jump of a step, to a label."""
    before, _, label = text.partition('=>')
    name, of = operands(before.strip(), names)
    registers = [f'x{of[field]}' for field in ('rd', 'rs1', 'rs2') if field in of]
    return f'{name} {", ".join(registers)}, L{number(label, names)}'


def lines(body: str, names: dict[str, str]) -> Iterator[str]:
    """The lines of steps."""
    for step in STEP.finditer(body):
        if step['label']:
            yield f'L{number(step["label"], names)}:'
        elif step['inst']:
            yield instruction(step['inst'], names)
        elif step['branch']:
            yield branch(step['branch'], names)
        elif step['ecall']:
            yield 'ecall'
        else:
            base, table = number(step['base'], names), number(step['table'], names)
            block = step['block'].lower()
            slots = ', '.join(f'x{number(name, names)}' for name in ('AREA', 'CELLS_AT', 'VALUE'))
            yield f'{block}_block {", ".join(f"L{base + k}" for k in range(5))}, {slots}, {table}'


def assembler(guest: str) -> str:
    """The whole code of a guest."""
    shared = [(SOURCES / f'{name}.rt').read_text() for name in ('calls', 'labels', 'layout', 'registers')]
    own = (SOURCES / f'{guest}.rt').read_text()
    names = {name: value for text in (*shared, own) for name, value in constants(text).items()}
    common = (SOURCES / 'shared.rt').read_text()
    bodies = [*(steps_of(common, name) for name in COMMON), steps_of(own, guest.upper())]
    code = '\n'.join(line for body in bodies for line in lines(body, names))
    return f'{BLOCKS.read_text()}\n{code}\n'

"""Reads what a person gives as a run: an output text, or a script, which is played; and says what is wrong
with a line of a script that can't be read."""
from __future__ import annotations

import re
from dataclasses import dataclass

from runs.output import read_bytes
from runs.pair import is_pair, pair_outline
from runs.scripts import OUTPUT_BEGINS, is_output

from .faults import LensFault
from .output import EXEC, HARTS, KINDS, PC_DIGITS, RUN, Output, outline

__all__ = ['OUTPUT_BEGINS', 'Lines', 'first_unreadable', 'read_bytes', 'read_lines', 'script_lines', 'what_is_wrong']
LARGEST_THREAD = 2**32 - 1
SHOWN = 60
NUMBER = re.compile(r'0|[1-9][0-9]*')
PC = re.compile(r'[0-9a-f]{%d}' % PC_DIGITS)
PC_IN_CAPITALS = re.compile(r'[0-9a-fA-F]{%d}' % PC_DIGITS)


@dataclass(frozen=True)
class Lines:
    """The lines of a script, and where they came from."""

    name: str
    lines: list[bytes]
    output: Output | None = None
    """The run whose log they are, where they come from an output text."""

    def text(self) -> bytes:
        return b''.join(line + b'\n' for line in self.lines)

    def first(self, count: int | None) -> 'Lines':
        """The first lines; all where no number is given."""
        if count is None:
            return self
        if not 0 <= count <= len(self.lines):
            raise LensFault(f'{self.name} has {len(self.lines)} lines, and {count} are wanted')
        return Lines(self.name, self.lines[:count])


def read_lines(path: str) -> Lines:
    """The script that is in a file, or that an output text in it has as its log."""
    return read_lines_of(*read_bytes(path))


def read_lines_of(name: str, text: bytes) -> Lines:
    """The script that is in a text."""
    if not is_output(text):
        return script_lines(name, text)
    found = outline(name, text)
    return Lines(name, found.lines, found.output())


def read_script(path: str) -> Lines:
    """The same, also where the output is one of `pair`."""
    name, text = read_bytes(path)
    if text.startswith(b'console ') and is_pair(name, text):
        return script_lines(name, pair_outline(name, text).log)
    return read_lines_of(name, text)


def script_lines(name: str, text: bytes) -> Lines:
    """The lines of a script."""
    lines = text.split(b'\n')
    if lines[-1] == b'':
        lines.pop()
    return Lines(name, lines)


def first_unreadable(lines: list[bytes]) -> tuple[int, str] | None:
    """The number of the first line that can't be read, and what is wrong with it."""
    wrongs = ((number, what_is_wrong(line)) for number, line in enumerate(lines, 1))
    return next(((number, wrong) for number, wrong in wrongs if wrong), None)


def what_is_wrong(line: bytes) -> str | None:
    """Why a line of a script can't be read; None where it can. The README has the form of a line under
    Scripts."""
    try:
        text = line.decode('ascii')
    except UnicodeDecodeError as error:
        return f'byte {error.start + 1} of it is {line[error.start]:#04x}, and a script is plain ASCII'
    return wrong_bytes(text) or wrong_fields(text.split(' '))


def wrong_bytes(text: str) -> str | None:
    """What is wrong with the spaces of a line, and with what else isn't a field."""
    if text.endswith('\r'):
        return 'a carriage return stands at its end (as Windows ends a line): `tr -d "\\r"` takes them out'
    if not text:
        return 'it is empty, and a script has no empty lines'
    if '#' in text:
        return 'it has a comment, and a script has none; `lens steer` takes lines with comments'
    if '\t' in text:
        return 'it has a tab, and fields are one space apart'
    if text.startswith(' ') or text.endswith(' '):
        return f'a space stands at its {"beginning" if text.startswith(" ") else "end"}'
    if '  ' in text:
        return 'it has two spaces one behind the other, and fields are one space apart'
    return None


def wrong_fields(fields: list[str]) -> str | None:
    """What is wrong with the fields of a line."""
    hart, kind, rest = fields[0], fields[1] if len(fields) > 1 else None, fields[2:]
    if not (len(hart) == 1 and hart in '0123456789'):
        return f'it begins with {shown(hart)}, and a hart is one digit'
    if int(hart) >= HARTS:
        return f'there are at most {HARTS} harts, 0 to {HARTS - 1}'
    if kind is None:
        return f'the kind of event lacks: {", ".join(KINDS)}'
    if kind not in KINDS:
        small = ', in small letters' if kind.lower() in KINDS else ''
        return f'{shown(kind)} is no kind of event; they are {", ".join(KINDS)}{small}'
    if len(rest) > 2:
        return f'it has {len(fields)} fields, and 4 at most may be there: HART KIND THREAD PC'
    if kind == RUN and not rest:
        return 'which thread runs isn\'t said: HART run THREAD'
    if kind != RUN and len(rest) == 1:
        meant = times_meant(kind, rest[0])
        return f'behind `{kind}` stands either nothing, or both the thread and the pc{meant}'
    return wrong_thread(rest[0]) or wrong_pc(rest[1:]) if rest else None


def times_meant(kind: str, word: str) -> str:
    is_of_steer = kind == EXEC or word == 'all' or re.fullmatch('x[0-9]+', word)
    return ' (`lens steer` takes "exec x8", "exec all" and "exec until PLACE")' if is_of_steer else ''


def wrong_thread(word: str) -> str | None:
    if not re.fullmatch('[0-9]+', word):
        return f'{shown(word)} is no number of a thread, which has decimal digits alone'
    if not NUMBER.fullmatch(word):
        return f'the thread {shown(word)} begins with a 0'
    return None if int(word) <= LARGEST_THREAD else f'the thread {shown(word)} is above {LARGEST_THREAD}'


def wrong_pc(words: list[str]) -> str | None:
    if not words or PC.fullmatch(words[0]):
        return None
    if PC_IN_CAPITALS.fullmatch(words[0]):
        return 'the pc has capital digits, and has small ones: a to f'
    if words[0].lower().startswith('0x'):
        return f'the pc begins with 0x, and is {PC_DIGITS} digits alone'
    return f'the pc {shown(words[0])} isn\'t {PC_DIGITS} digits of 0 to 9 and a to f'


def shown(word: str) -> str:
    return repr(word if len(word) <= SHOWN else f'{word[:SHOWN]}..')

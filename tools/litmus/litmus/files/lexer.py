"""Parts a litmus file into its words, each with its line."""
from __future__ import annotations

import re
from collections.abc import Iterator
from typing import NamedTuple

from lens.faults import LensFault

NAME, NUMBER, MARK, END = 'name', 'number', 'mark', 'end'
WORDS = re.compile(
    r'(?P<name>[A-Za-z_][A-Za-z0-9_.]*)|(?P<number>-?(?:0[xX][0-9a-fA-F]+|[0-9]+))(?![A-Za-z0-9_])'
    r'|(?P<mark>/\\|\\/|=>|[~:;|=,()\[\]{}*])'
)
BLANK = re.compile(r'\s+')
UNKNOWN = re.compile(r'[^\s;|(),]+|.')
BEGIN_COMMENT, END_COMMENT = '(*', '*)'
COMMENT_MARK = re.compile(r'\(\*|\*\)')


class Word(NamedTuple):
    """A word of the file, of which kind it is, and on which line it stands."""

    kind: str
    text: str
    line: int

    def is_mark(self, *texts: str) -> bool:
        return self.kind == MARK and self.text in texts


class FileFault(LensFault):
    """What isn't taken in a file: the line, the word, and why."""

    def __init__(self, line: int, word: str, why: str):
        super().__init__(f'line {line}: {word!r}: {why}')


def refusal(word: Word, why: str) -> FileFault:
    return FileFault(word.line, word.text or 'end of the file', why)


def comment_end(text: str, at: int, line: int) -> int:
    """Where a comment ends that begins here; one may stand in another."""
    depth = 0
    for mark in COMMENT_MARK.finditer(text, at):
        depth += 1 if mark.group() == BEGIN_COMMENT else -1
        if depth == 0:
            return mark.end()
    raise FileFault(line, BEGIN_COMMENT, 'this comment has no end')


def words(text: str, line: int) -> Iterator[Word]:
    """The words of a text that begins on a line, and at last one of the kind END."""
    at = 0
    while at < len(text):
        begin = at
        if blank := BLANK.match(text, at):
            at = blank.end()
        elif text.startswith(BEGIN_COMMENT, at):
            at = comment_end(text, at, line)
        elif found := WORDS.match(text, at):
            yield Word(str(found.lastgroup), found.group(), line)
            at = found.end()
        else:
            unknown = UNKNOWN.match(text, at)
            word = unknown.group() if unknown else text[at]
            raise FileFault(line, word, 'this isn\'t a word of the format')
        line += text.count('\n', begin, at)
    yield Word(END, '', line)

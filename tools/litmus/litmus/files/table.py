"""The table of a file: its first row names the threads, and each further row has a cell of each of them."""
from __future__ import annotations

from .instructions import read_operation
from .lexer import END, NAME, Word, refusal
from .parts import Body, Label, Operation
from .reader import Reader

MOST_THREADS = 8
"""So many harts there are at most, and each thread has its own."""
SECTIONS = ('locations', 'exists', 'forall', 'filter')


def read_threads(reader: Reader) -> tuple[Body, ...]:
    """The threads, up to where the next section begins."""
    columns = [Column() for _ in range(read_names(reader))]
    while not is_over(reader.next):
        for column in columns:
            column.read_cell(reader)
            reader.expect(';' if column is columns[-1] else '|')
    return tuple(column.finished() for column in columns)


def is_over(word: Word) -> bool:
    return word.kind == END or word.text in SECTIONS or word.is_mark('~')


def read_names(reader: Reader) -> int:
    """`P0 | P1 ;`: how many threads there are."""
    threads = 0
    while threads == 0 or not reader.takes(';'):
        if threads:
            reader.expect('|')
        word = reader.of_kind(NAME, f'P{threads}')
        if word.text != f'P{threads}':
            raise refusal(word, f'P{threads} is due here')
        threads += 1
        if threads > MOST_THREADS:
            raise refusal(word, f'there are {MOST_THREADS} threads at most')
    return threads


class Column:
    """A thread, as far as it was read."""

    def __init__(self) -> None:
        self.body: list[Label | Operation] = []
        self.uses: list[Word] = []
        """The labels to which instructions go."""

    def read_cell(self, reader: Reader) -> None:
        """Labels, and then an instruction or nothing."""
        while reader.after.is_mark(':'):
            word = reader.of_kind(NAME, 'a label')
            if Label(word.text) in self.body:
                raise refusal(word, 'this label is there already')
            reader.expect(':')
            self.body.append(Label(word.text))
        if not reader.next.is_mark('|', ';'):
            operation = read_operation(reader)
            self.body.append(operation)
            if operation.label is not None:
                self.uses.append(reader.last)

    def finished(self) -> Body:
        for word in self.uses:
            if Label(word.text) not in self.body:
                raise refusal(word, 'this thread has no such label')
        return tuple(self.body)

"""Reads a litmus file in herd7's format, for RISC-V."""
from __future__ import annotations

from .conditions import read_question
from .declarations import Declarations
from .lexer import END, FileFault, refusal, words
from .parts import Observed, Test, atoms, in_order
from .reader import Reader
from .table import read_threads

ARCHITECTURE = 'RISCV'


def read_test(text: str) -> Test:
    """The test of a file; a fault where it isn't one that is taken."""
    name, line, rest = read_header(text)
    reader = Reader(list(words(rest, line)))
    declarations = Declarations(reader)
    declarations.read_initial()
    threads = read_threads(reader)
    seen = read_locations(reader, declarations)
    quantifier, proposition = read_question(reader, declarations)
    if reader.next.kind != END:
        raise refusal(reader.next, 'this isn\'t taken here')
    declarations.check_threads(len(threads))
    observed = in_order({*seen, *(atom.observed for atom in atoms(proposition))})
    variables = dict(sorted(declarations.variables.items()))
    return Test(name, variables, declarations.initial, threads, observed, quantifier, proposition)


def read_header(text: str) -> tuple[str, int, str]:
    """The name of a test, and what begins with its initial state, with the number of that line. What is
    between (a text in quotes, and lines `KEY=VALUE`) is for other tools."""
    first, _, rest = text.partition('\n')
    architecture, *name = first.split() or ['']
    if architecture != ARCHITECTURE:
        raise FileFault(1, architecture, f'a file begins with {ARCHITECTURE} and the name of its test')
    if len(name) != 1:
        raise FileFault(1, ' '.join(name), 'the name of the test is one word')
    before, brace, after = rest.partition('{')
    if not brace:
        raise FileFault(text.count('\n') + 1, 'end of the file', 'there is no initial state, as {x=0;}')
    return name[0], 2 + before.count('\n'), brace + after


def read_locations(reader: Reader, declarations: Declarations) -> list[Observed]:
    """`locations [0:x5; x;]`, where it is there: what is seen beside what the question names."""
    if reader.next.text != 'locations':
        return []
    reader.take()
    reader.expect('[')
    found: list[Observed] = []
    while not reader.takes(']'):
        found.append(declarations.observed())
        if not reader.next.is_mark(']'):
            reader.expect(';')
    return found

"""The question of a file: how it is read, of which states it holds, and how it is told."""
from __future__ import annotations

from collections.abc import Callable

from .declarations import Declarations
from .lexer import NAME, refusal
from .parts import (
    AND, EXISTS, FORALL, IMPLIES, NOT_EXISTS, OR, Both, Equal, Not, Observed, Proposition, Truth, Value,
)
from .reader import Reader

TRUTHS = {'true': Truth(True), 'false': Truth(False)}
JOINTS = (IMPLIES, OR, AND)
"""What binds least comes first."""


def read_question(reader: Reader, declarations: Declarations) -> tuple[str, Proposition]:
    """`exists (..)`, `~exists (..)` or `forall (..)`; where nothing is asked, `forall (true)`."""
    if reader.next.text not in (EXISTS, FORALL, '~'):
        return FORALL, Truth(True)
    is_negated = reader.takes('~')
    word = reader.of_kind(NAME, 'exists')
    if word.text not in (EXISTS,) if is_negated else word.text not in (EXISTS, FORALL):
        raise refusal(word, '"exists" is due here')
    quantifier = NOT_EXISTS if is_negated else word.text
    return quantifier, PropositionReader(reader, declarations).joined()


class PropositionReader:
    """Reads a proposition: `~` binds most, then /\\, then \\/, then =>, which groups to the right."""

    def __init__(self, reader: Reader, declarations: Declarations):
        self.reader = reader
        self.declarations = declarations

    def joined(self, level: int = 0) -> Proposition:
        if level == len(JOINTS):
            return self.single()
        joint = JOINTS[level]
        left = self.joined(level + 1)
        while self.reader.takes(joint):
            right = self.joined(level if joint == IMPLIES else level + 1)
            left = Both(joint, left, right)
        return left

    def single(self) -> Proposition:
        if self.reader.takes('~') or self.takes_name('not'):
            return Not(self.single())
        if self.reader.takes('('):
            inner = self.joined()
            self.reader.expect(')')
            return inner
        if self.reader.next.text in TRUTHS:
            return TRUTHS[self.reader.take().text]
        observed = self.declarations.observed()
        self.reader.expect('=')
        return Equal(observed, self.declarations.value())

    def takes_name(self, name: str) -> bool:
        found = self.reader.next.text == name
        if found:
            self.reader.take()
        return found


def holds(proposition: Proposition, is_equal: Callable[[Observed, Value], bool]) -> bool:
    """Whether it is true in a state, of which it is known what is equal there."""
    if isinstance(proposition, Equal):
        return is_equal(proposition.observed, proposition.value)
    if isinstance(proposition, Truth):
        return proposition.is_true
    if isinstance(proposition, Not):
        return not holds(proposition.inner, is_equal)
    left, right = (holds(it, is_equal) for it in (proposition.left, proposition.right))
    return {AND: left and right, OR: left or right, IMPLIES: not left or right}[proposition.joint]


def told_name(observed: Observed) -> str:
    """`0:x5`, or `[x]`."""
    return f'[{observed}]' if isinstance(observed, str) else str(observed)


def told(proposition: Proposition, level: int = 0) -> str:
    """A proposition as herd7 prints it, with no more brackets than it needs."""
    if isinstance(proposition, Equal):
        return f'{told_name(proposition.observed)}={proposition.value}'
    if isinstance(proposition, Truth):
        return 'true' if proposition.is_true else 'false'
    if isinstance(proposition, Not):
        return f'not ({told(proposition.inner)})'
    own = JOINTS.index(proposition.joint)
    is_right = proposition.joint == IMPLIES
    left = told(proposition.left, own + is_right)
    text = f'{left} {proposition.joint} {told(proposition.right, own + (not is_right))}'
    return f'({text})' if own < level else text

"""What a litmus file holds: variables, the registers of threads, instructions, and the question that it asks
of the states at the end."""
from __future__ import annotations

from collections.abc import Mapping
from dataclasses import dataclass
from typing import NamedTuple, Union

REGISTER_BITS = 64
EXISTS, NOT_EXISTS, FORALL = 'exists', '~exists', 'forall'
AND, OR, IMPLIES = '/\\', '\\/', '=>'

Value = Union[int, str]
"""A number; or the name of a variable, for its address."""


class Register(NamedTuple):
    """A register of a thread, as in `1:x5`."""

    thread: int
    number: int

    def __str__(self) -> str:
        return f'{self.thread}:x{self.number}'


class Kind(NamedTuple):
    """How many bytes a variable has, and whether it may be negative."""

    size: int
    is_signed: bool


WORD, DOUBLE = Kind(4, True), Kind(8, True)


class Variable(NamedTuple):
    """What a variable holds at first, and its kind; None where the file doesn't say it."""

    initial: Value = 0
    kind: Kind | None = None


Observed = Union[Register, str]
"""What a state has a value of: a register, or a variable by its name."""


@dataclass(frozen=True)
class Operation:
    """An instruction: its text in GNU's assembler, without the label that it may go to; the register that it
    writes, where it writes one; and whether that is then a number of 32 bits, and whether it touches 8 bytes
    of memory."""

    text: str
    registers: frozenset[int]
    target: int | None = None
    is_word: bool = False
    is_double_access: bool = False
    label: str | None = None


@dataclass(frozen=True)
class Label:
    name: str


Body = tuple[Union[Label, Operation], ...]


@dataclass(frozen=True)
class Equal:
    """Whether a register or a variable has a value."""

    observed: Observed
    value: Value


@dataclass(frozen=True)
class Truth:
    is_true: bool


@dataclass(frozen=True)
class Not:
    inner: Proposition


@dataclass(frozen=True)
class Both:
    """Two propositions, joined by AND, OR or IMPLIES."""

    joint: str
    left: Proposition
    right: Proposition


Proposition = Union[Equal, Truth, Not, Both]


@dataclass(frozen=True)
class Test:
    """A test: its variables and the first values of registers; its threads; what is seen of a state; and the
    question, by which quantifier and of what."""

    name: str
    variables: Mapping[str, Variable]
    initial: Mapping[Register, Value]
    threads: tuple[Body, ...]
    observed: tuple[Observed, ...]
    quantifier: str
    proposition: Proposition

    def operations(self, thread: int) -> list[Operation]:
        return [it for it in self.threads[thread] if isinstance(it, Operation)]

    def registers_seen(self, thread: int) -> list[Register]:
        return [it for it in self.observed if isinstance(it, Register) and it.thread == thread]

    def variables_seen(self) -> list[str]:
        return [it for it in self.observed if isinstance(it, str)]

    def kind(self, name: str) -> Kind:
        """The kind of a variable: where the file doesn't say it, it has 4 bytes, or 8 where some instruction
        of the test touches 8."""
        said = self.variables[name].kind
        bodies = (self.operations(thread) for thread in range(len(self.threads)))
        has_doubles = any(it.is_double_access for body in bodies for it in body)
        has_address = isinstance(self.variables[name].initial, str)
        return said or (DOUBLE if has_doubles or has_address else WORD)


def atoms(proposition: Proposition) -> list[Equal]:
    """All that a proposition looks at, in order."""
    if isinstance(proposition, Equal):
        return [proposition]
    if isinstance(proposition, Not):
        return atoms(proposition.inner)
    if isinstance(proposition, Both):
        return [*atoms(proposition.left), *atoms(proposition.right)]
    return []


def in_order(observed: set[Observed]) -> tuple[Observed, ...]:
    """The registers by thread and number, then the variables by name."""
    registers = sorted(it for it in observed if isinstance(it, Register))
    return (*registers, *sorted(it for it in observed if isinstance(it, str)))

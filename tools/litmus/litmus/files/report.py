"""What was seen of a test, as herd7 prints it."""
from __future__ import annotations

from collections.abc import Iterator

from .conditions import holds, told, told_name
from .layout import State
from .parts import EXISTS, FORALL, NOT_EXISTS, Test
from .running import Observation

TITLES = {EXISTS: 'Allowed', NOT_EXISTS: 'Forbidden', FORALL: 'Required'}
NEVER, NOT_SEEN, SOMETIMES, ALWAYS = 'Never', 'Not seen', 'Sometimes', 'Always'
OK, NO, UNKNOWN = 'Ok', 'No', 'Unknown'


def report(test: Test, observation: Observation) -> Iterator[str]:
    """The lines. (`Time` and `Hash` of herd7 are left out: the one is another at each call, and the other its
    own.)"""
    true, false = counts(test, observation)
    is_negated = test.quantifier == NOT_EXISTS
    yield f'Test {test.name} {TITLES[test.quantifier]}'
    yield f'States {len(observation.seen)}'
    for seen in observation.seen:
        yield told_state(seen.state)
    yield answer(test.quantifier, true, false, observation.is_complete)
    yield 'Witnesses'
    yield f'Positive: {false if is_negated else true} Negative: {true if is_negated else false}'
    yield f'Condition {test.quantifier} ({told(test.proposition)})'
    yield f'Observation {test.name} {word(true, false, observation.is_complete)} {true} {false}'


def told_state(state: State) -> str:
    """`0:x5=0; 1:x5=1;`"""
    pairs = zip(state.layout.slots, state.values)
    return ' '.join(f'{told_name(observed)}={state.told_value(value)};' for observed, value in pairs)


def counts(test: Test, observation: Observation) -> tuple[int, int]:
    """In how many states, or runs, the proposition is true, and in how many false."""
    true = sum(it.runs for it in observation.seen if holds(test.proposition, it.state.is_equal))
    return true, sum(it.runs for it in observation.seen) - true


def answer(quantifier: str, true: int, false: int, is_complete: bool) -> str:
    """Whether the question is answered by yes; unknown where a state that wasn't seen could answer it."""
    if quantifier == FORALL:
        return NO if false else OK if is_complete else UNKNOWN
    if true:
        return OK if quantifier == EXISTS else NO
    if not is_complete:
        return UNKNOWN
    return NO if quantifier == EXISTS else OK


def word(true: int, false: int, is_complete: bool) -> str:
    """How often the proposition is true. That it never or always is, only a complete search says."""
    if not is_complete:
        return SOMETIMES if true else NOT_SEEN
    return NEVER if not true else SOMETIMES if false else ALWAYS

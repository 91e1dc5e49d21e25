"""Which steps of a run are about what: `lens list --only switches,drains`."""
from __future__ import annotations

from collections.abc import Callable, Iterable, Iterator

from .calls import MEMBARRIER, RT_SIGRETURN, TGKILL, TKILL
from .history import History
from .machine import Act
from .output import DONE, DRAIN, PREEMPT, RUN, SIGNAL, TAKE

SEQUENCES = 'sequences'


def switches(history: History) -> Iterator[int]:
    """A thread comes to a hart or is taken from it; or another hart goes on than before."""
    before = None
    for step in history.output.steps:
        if step.kind in (RUN, PREEMPT) or step.hart != before:
            yield step.number
        before = step.hart


def events(kinds: tuple[str, ...], numbers: tuple[int, ...]) -> Callable[[History], Iterator[int]]:
    """Finds the events of some kinds, and the calls of some numbers."""

    def find(history: History) -> Iterator[int]:
        yield from (step.number for step in history.output.steps if step.kind in kinds)
        yield from (step for step, number in history.calls.items() if number in numbers)

    return find


SUBJECTS: dict[str, Callable[[History], Iterable[int]]] = {
    'switches': switches,
    'drains': events((DRAIN,), ()),
    'signals': events((SIGNAL,), (TKILL, TGKILL, RT_SIGRETURN)),
    'barriers': events((TAKE, DONE), (MEMBARRIER,)),
    'calls': lambda history: history.calls,
}
WORDS = (*SUBJECTS, SEQUENCES)


def steps_about(history: History, words: Iterable[str], acts: list[Act]) -> set[int]:
    """The numbers of the steps that are about one of these subjects. The acts are those of the run's
    sequences."""
    found: set[int] = set()
    for word in words:
        found.update(inside(history, acts) if word == SEQUENCES else SUBJECTS[word](history))
    return found


def inside(history: History, acts: list[Act]) -> Iterator[int]:
    """The steps of sequences, each of them with what its hart does from its first to its last."""
    for act in acts:
        between = history.output.steps[act.first - 1 : act.last]
        yield from (step.number for step in between if step.hart == act.hart)

"""The runs whose coverage is shown: those of an exploration, drawn again; of some seeds; or of a text or of a folder of
texts."""
from __future__ import annotations

from collections import deque
from collections.abc import Callable, Iterator
from concurrent.futures import ThreadPoolExecutor
from dataclasses import dataclass
from itertools import islice
from os import sched_getaffinity
from pathlib import Path
from typing import TypeVar

from runs.explored import OUTCOMES, SEEDS, Explored, read_explored
from runs.output import Outline, outline, read_bytes
from runs.pair import is_pair
from runs.scripts import is_output

from .faults import LensFault
from .machine import Machine
from .progress import Progress
from .scripts import Lines, first_unreadable, script_lines

Made = TypeVar('Made')
POLICIES = ('one', 'stretch', 'short', 'stall', 'spread')
"""By seed modulo 5, where none is named."""
AT_ONCE = 64
"""So many runs for each processor are asked for before the first of them is wanted."""


@dataclass(frozen=True)
class Runs:
    """Some runs, each of which is made when it is wanted; what they are, in words; and the exploration that they have to
    come out as."""

    words: str
    makers: list[Callable[[], Outline]]
    explored: Explored | None = None


def runs_of_seeds(machine: Machine, first: int, count: int, draws: tuple[str, ...]) -> Runs:
    """The runs that are drawn from a seed and from those behind it."""
    if first + count > SEEDS:
        raise LensFault(f'a seed is a number from 0 to {SEEDS - 1}')
    words = f'seed {first}' if count == 1 else f'the seeds {first} to {first + count - 1}'
    return Runs(words, [drawn(machine, first + at, draws) for at in range(count)])


def drawn(machine: Machine, seed: int, draws: tuple[str, ...]) -> Callable[[], Outline]:
    """The run of a seed; the words are those of its draw, as `--policy=one`."""
    return lambda: machine.draw_outline(seed, draws)


def runs_of(path: str, machine: Machine, draws: tuple[str, ...]) -> Runs:
    """The runs of an exploration's text, of an output or a script, or of all outputs and scripts in a folder."""
    if Path(path).is_dir():
        return runs_in(Path(path), machine)
    name, text = read_bytes(path)
    if text.startswith(OUTCOMES):
        return runs_of_exploration(read_explored(name, text), machine, draws)
    return Runs(name, [told(name, text, machine)])


def runs_of_exploration(explored: Explored, machine: Machine, draws: tuple[str, ...]) -> Runs:
    """The runs that an exploration made, drawn again. Where no policy is named, it follows from what the text says of
    its outcomes by which they were drawn."""
    policies = {one.policy for one in explored.found}
    is_by_seed = all(one.policy == POLICIES[one.seed % len(POLICIES)] for one in explored.found)
    if not is_by_seed and len(policies) == 1:
        draws = (f'--policy={policies.pop()}', *draws)
    span = f', the seeds {explored.seeds[0]} to {explored.seeds[-1]}' if explored.runs else ''
    makers = [drawn(machine, seed, draws) for seed in explored.seeds]
    return Runs(f'{explored.name}{span}', makers, explored)


def runs_in(folder: Path, machine: Machine) -> Runs:
    """The runs of all outputs in a folder, and of the scripts that have no output beside them. An output that is a fault
    line, and one of `pair`, is none of one process."""
    paths = [path for path in sorted(folder.iterdir()) if path.suffix == '.output']
    paths += [path for path in sorted(folder.glob('*.script')) if not path.with_suffix('.output').exists()]
    texts = [read_bytes(str(path)) for path in paths]
    shown = [(name, text) for name, text in texts if not text.startswith(b'fault ')]
    own = [(name, text) for name, text in shown if not (is_output(text) and is_pair(name, text))]
    if not own:
        raise LensFault(f'{folder} has neither outputs (*.output) nor scripts (*.script)')
    return Runs(str(folder), [told(name, text, machine) for name, text in own])


def told(name: str, text: bytes, machine: Machine) -> Callable[[], Outline]:
    """The run of an output, or of a script, which is played."""
    return lambda: outline(name, text) if is_output(text) else played(script_lines(name, text), machine)


def played(lines: Lines, machine: Machine) -> Outline:
    """The run of a script; a fault that says which of its lines is refused, and why."""
    unreadable = first_unreadable(lines.lines)
    if unreadable:
        raise LensFault(f'{lines.name}, line {unreadable[0]}: {unreadable[1]}')
    answer = machine.call('play', lines.text())
    if answer.status:
        raise LensFault(f'{lines.name}: {answer.words()}')
    return outline(lines.name, answer.text)


def each_made(runs: Runs, make: Callable[[Outline], Made], progress: Progress) -> Iterator[Made]:
    """What is made of each run, in their order; several at once, one for each processor."""
    processors, left = len(sched_getaffinity(0)), iter(runs.makers)
    with ThreadPoolExecutor(processors) as workers:
        waiting = deque(workers.submit(made_of, maker, make) for maker in islice(left, AT_ONCE * processors))
        done = 0
        while waiting:
            yield waiting.popleft().result()
            waiting.extend(workers.submit(made_of, maker, make) for maker in islice(left, 1))
            done += 1
            progress.say(f'{done} of {len(runs.makers)} runs')
    progress.clear()


def made_of(maker: Callable[[], Outline], make: Callable[[Outline], Made]) -> Made:
    return make(maker())

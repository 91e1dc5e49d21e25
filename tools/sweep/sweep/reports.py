"""What a sweep of one file came to, as reports of a pipeline need it."""
from __future__ import annotations

from dataclasses import dataclass
from pathlib import Path

from .records import Outcome


@dataclass(frozen=True)
class Failure:
    """An outcome that wasn't expected: how many runs came to it, the seed of the one that is kept, the command that
    makes that again, and the file with its output text."""

    outcome: Outcome
    runs: int
    seed: int
    again: str
    output: Path

    @property
    def words(self) -> str:
        return f'{self.outcome.end}, seed {self.seed}'


@dataclass(frozen=True)
class Report:
    """The sweep of one file: how many runs were made of how many, which of them failed, and what went wrong with the
    sweep itself. A file that no run was made of has neither runs nor a fault."""

    elf: str
    asked: int
    runs: int = 0
    seconds: float = 0.0
    expected: str = ''
    failures: tuple[Failure, ...] = ()
    fault: str = ''

    @property
    def is_skipped(self) -> bool:
        return not self.runs and not self.fault

    @property
    def failed_runs(self) -> int:
        return sum(failure.runs for failure in self.failures)

    def summary(self) -> str:
        """How many runs ended otherwise, and how the first of the outcomes did."""
        first = self.failures[0]
        return f'{first.words}: {self.failed_runs} of {self.runs} runs ended otherwise than {self.expected}'

"""The table of a sweep: which outcomes came how often, and how each is seen again."""
from __future__ import annotations

import argparse
import shlex

from lens.arguments import limits_of
from lens.output import shown_console

from .jobs import Swept
from .records import Folder, Met, Outcome


def sorted_outcomes(swept: Swept) -> list[tuple[Outcome, Met]]:
    """The outcomes, the most frequent one first."""
    return sorted(swept.tally.items(), key=lambda row: (-row[1].runs, row[0].end, row[0].console))


def table_of(swept: Swept, folder: Folder, arguments: argparse.Namespace, elf: str) -> str:
    """The outcomes, and how each is seen again."""
    rows = sorted_outcomes(swept)
    lines = [
        f'{swept.runs} runs of {elf}, {len(rows)} outcome{"s" if len(rows) != 1 else ""}',
        f'{"runs":>9}  {"end":<12}  {"steps":>9}  console',
    ]
    lines += [
        f'{met.runs:>9}  {outcome.end:<12}  {met.rank.steps:>9}  {shown_console(outcome.console)}'
        for outcome, met in rows
    ]
    lines += [
        '',
        'A run of each, again ("steps" are its steps; its text is in the file .output beside):',
    ]
    lines += [shlex.join(again(outcome, met, folder, arguments, elf)) for outcome, met in rows]
    return ''.join(f'{line}\n' for line in lines)


def again(outcome: Outcome, met: Met, folder: Folder, arguments: argparse.Namespace, elf: str) -> list[str]:
    """The words that make the kept run of an outcome again: its seed draws it, or its log is played."""
    limits = limits_of(arguments)
    if arguments.by == 'draw':
        return [arguments.program, 'draw', elf, f'--seed={met.rank.seed}', *limits]
    return [arguments.program, 'play', elf, str(folder.script_of(outcome)), *limits]

"""The texts that `runs` reads, by the names that `lens` has for them."""
from __future__ import annotations

from runs.output import CONSOLE_SHOWN, Outline, Output, outline, parse_output, read_output, shown_console
from runs.reader import Reader
from runs.steps import DONE, DRAIN, EXEC, HARTS, KINDS, LINE, PC_DIGITS, PREEMPT, RUN, SIGNAL, TAKE, Step, fields_of, line_of

__all__ = [
    'CONSOLE_SHOWN', 'DONE', 'DRAIN', 'EXEC', 'HARTS', 'KINDS', 'LINE', 'PC_DIGITS', 'PREEMPT', 'RUN', 'SIGNAL', 'TAKE',
    'Outline', 'Output', 'Reader', 'Step', 'fields_of', 'line_of', 'outline', 'parse_output', 'read_output', 'shown_console',
]

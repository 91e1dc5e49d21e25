"""Reads what `rseq_run` prints, for scripts of your own:

    from runs import read_output
    run = read_output('run.output')
    print(run.end, len(run.steps), run.console)

Each reader says in one line what is wrong with a text that it can't read (RunsFault). No package is needed.
"""
from __future__ import annotations

from .explored import Explored, Found, read_explored
from .faults import RunsFault
from .output import Outline, Output, outline, parse_output, read_bytes, read_output, shown_console
from .pair import PairOutline, is_pair, pair_outline
from .reader import Reader
from .scripts import is_output, script_of
from .steps import DONE, DRAIN, EXEC, HARTS, KINDS, PREEMPT, RUN, SIGNAL, TAKE, Step, fields_of

__all__ = [
    'DONE', 'DRAIN', 'EXEC', 'HARTS', 'KINDS', 'PREEMPT', 'RUN', 'SIGNAL', 'TAKE',
    'Explored', 'Found', 'Outline', 'Output', 'PairOutline', 'Reader', 'RunsFault', 'Step',
    'fields_of', 'is_output', 'is_pair', 'outline', 'pair_outline', 'parse_output', 'read_bytes',
    'read_explored', 'read_output', 'script_of', 'shown_console',
]

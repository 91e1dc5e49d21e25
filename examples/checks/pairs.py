"""Scripts on two programs."""
from __future__ import annotations

from functools import partial
from pathlib import Path

from .programs import DONE, HERE, SCRIPT_REFUSED, on_programs, passes, want
from .texts import TAKE_PAIR_SCRIPT, check_taken, parts_of_pair


def check_pair(program: Path, pair: Path) -> None:
    """A script on two programs gives the text beside it, and so do the log lines of that text."""
    elves = [pair.parent / name for name in pair.read_text().split()]
    script, text = pair.with_suffix('.script').read_bytes(), pair.with_suffix('.output').read_bytes()
    if text.startswith(b'fault script '):
        want('what comes of it', on_programs(program, 'pair', elves, script, '2'), (SCRIPT_REFUSED, text))
        return
    status, found = on_programs(program, 'pair', elves, script, '2')
    want('its status', status, DONE)
    want('its text', found, text)
    want('the text of its log lines', on_programs(program, 'pair', elves, b''.join(parts_of_pair(text).log), '2'), (DONE, text))
    check_taken(text, TAKE_PAIR_SCRIPT, parts_of_pair)


def check_pairs(program: Path, names: list[str]) -> tuple[int, int]:
    """How many scripts on two programs fail, and how many there are."""
    pairs = [pair for pair in sorted(HERE.glob('*/*.pair')) if not names or 'pairs' in names or pair.parent.name in names]
    failed = sum(not passes(f'{pair.parent.name}/{pair.stem}', [('pair', partial(check_pair, program, pair))]) for pair in pairs)
    print(f'{len(pairs) - failed} pairs passed' + (f', {failed} failed' if failed else ''))
    return failed, len(pairs)

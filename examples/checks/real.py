"""The programs with real libraries."""
from __future__ import annotations

import re
from functools import partial
from pathlib import Path

from .programs import DONE, HERE, Difference, passes, run, want

REAL = HERE / 'real'
ENDS = re.compile(r'(\S+): (\d+) runs: (.+)')
"""A line of `ends.expected`: a program, how many of its runs are explored, and their ends."""


def check_all_real(program: Path, names: list[str]) -> int:
    """How many of the programs with real libraries fail."""
    if names and 'real' not in names:
        return 0
    cases = [read_case(line) for line in (REAL / 'ends.expected').read_text().splitlines()]
    unlisted = {elf.name for elf in REAL.glob('*.elf')} ^ {elf for elf, _, _ in cases}
    failed = sum(not passes(elf, [('explore', partial(check_real, program, REAL / elf, runs, ends))]) for elf, runs, ends in cases)
    print(f'{len(cases) - failed} programs with real libraries passed' + (f', {failed} failed' if failed else ''))
    if unlisted:
        print(f'real/ends.expected: {" ".join(sorted(unlisted))}')
    return failed + len(unlisted)


def read_case(line: str) -> tuple[str, str, str]:
    """The program, the number of runs and the ends of a line."""
    found = ENDS.fullmatch(line)
    if found is None:
        raise Difference(f'real/ends.expected: {line!r} is no line "ELF: N runs: ENDS"')
    elf, runs, ends = found.groups()
    return elf, runs, ends


def check_real(program: Path, elf: Path, runs: str, ends: str) -> None:
    """So many drawn runs of a program with a real library have these ends."""
    status, text = run(program, 'explore', elf, '--runs', runs, '--by', 'end')
    want('the status of explore', status, DONE)
    want('its ends', sorted(re.findall(r'^end (.*)$', text.decode(), re.MULTILINE)), sorted(ends.split(', ')))

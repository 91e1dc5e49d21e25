"""The worked runs of crates/worked_runs."""
from __future__ import annotations

import os
from collections.abc import Iterator
from concurrent.futures import ThreadPoolExecutor
from functools import partial
from pathlib import Path

from .programs import HERE, UNREAD, Difference, run_whole, want

ROWS = HERE.parent / 'crates' / 'worked_runs' / 'data'


def check_worked(program: Path, names: list[str]) -> tuple[int, int]:
    """How many worked runs fail, and how many there are."""
    worked = list(rows(names))
    with ThreadPoolExecutor(os.cpu_count()) as workers:
        differ = sum(not is_well for is_well in workers.map(partial(row_passes, program), worked))
    print(f'{len(worked) - differ} worked runs passed' + (f', {differ} failed' if differ else ''))
    return differ, len(worked)


def rows(names: list[str]) -> Iterator[Path]:
    """The folders of the worked runs that the built program can make, of these names; all of them where no name is given."""
    for words in sorted(ROWS.glob('*/*/words')):
        row, group = words.parent, words.parent.parent.name
        if not (row / 'fails').exists() and (not names or f'{group}/' in names or f'{group}/{row.name}' in names):
            yield row


def are_listed() -> bool:
    """Whether the file `rows` lists the folders of the worked runs, in the order of their names; says which it doesn't, or lists too many."""
    there = sorted(f'{words.parent.parent.name}/{words.parent.name}' for words in ROWS.glob('*/*/words'))
    listed = (ROWS / 'rows').read_text().splitlines()
    if listed != there:
        print(f'crates/worked_runs/data/rows: {" ".join(sorted(set(listed) ^ set(there))) or "the names are out of order"}')
    return listed == there


def row_passes(program: Path, folder: Path) -> bool:
    """Whether each command line of a worked run passes; says which doesn't."""
    is_well = True
    for place, line in enumerate((folder / 'words').read_text().splitlines()):
        try:
            check_line(program, folder, place, line)
        except Difference as difference:
            is_well = False
            print(f'{folder.parent.name}/{folder.name}: {line}: {difference}')
    return is_well


def check_line(program: Path, folder: Path, place: int, line: str) -> None:
    """The command line of a worked run at this place gives the status and the texts that stand beside it."""
    status, text, said = run_whole(program, *words_of(line), folder=folder)
    want('its status', status, int((folder / 'status').read_text()))
    check_said(folder, place, status, said)
    if not (folder / 'stdout').is_file():
        begins, ends = (folder / 'begins').read_bytes(), (folder / 'ends').read_bytes()
        want('its beginning', text[:len(begins)], begins)
        want('its ending', text[max(0, len(text) - len(ends)):], ends)
        return
    if not (folder / 'any-hart').is_file() or text != (folder / 'any-hart').read_bytes():
        want('its text', text, (folder / 'stdout').read_bytes())


def words_of(line: str) -> list[str]:
    """The words of a command line: between spaces, or, where it has a tab, between tabs."""
    return line.split('\t') if '\t' in line else line.split()


def check_said(folder: Path, place: int, status: int, said: bytes) -> None:
    """What standard error says of the command line at this place is what stands beside it. Of a file that can't be read the system
    says more than a shelf in memory does."""
    if (folder / 'stderr').is_file():
        due, is_whole = (folder / 'stderr').read_bytes(), True
    elif (folder / 'told').is_file():
        due, is_whole = (folder / 'told').read_bytes().splitlines(keepends=True)[place], False
    else:
        return
    if status == UNREAD:
        due, is_whole = due.rstrip(b'\n'), False
    want('standard error', said if is_whole else said[:len(due)], due)

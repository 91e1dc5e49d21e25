"""Calls the built program, and says where what it gives differs from what is due."""
from __future__ import annotations

import os
import re
import subprocess
import tempfile
from collections.abc import Callable, Iterable, Sequence
from pathlib import Path

HERE = Path(__file__).resolve().parents[1]
"""The folder of the examples."""
STEPS = '1000000'
SECONDS = 1800
"""So many seconds no call takes, on a slow machine that has other work too."""
DONE, ENDED_OTHERWISE, SCRIPT_REFUSED, UNREAD, UNWRITTEN = 0, 1, 4, 5, 6
SAID = re.compile(
    rb'^(outcome \d+: end [^\n]*|rseq_run: (\d+ of \d+ (runs ended at the limit|places were still open)|places \d+, open|'
    rb'the search begins again)[^\n]*)\n',
    re.MULTILINE,
)
"""What `explore` and `outcomes` say on standard error where they take long."""
Word = str | os.PathLike[str]
Check = tuple[str, Callable[[], None]]
"""What is checked, in a word, and the check."""


class Difference(Exception):
    """What isn't as it should be, in words."""


def run(program: Path, *words: Word, folder: Path | None = None) -> tuple[int, bytes]:
    """The status and the standard output of the program on these words, in this folder."""
    status, text, _ = run_whole(program, *words, folder=folder)
    return status, text


def run_whole(program: Path, *words: Word, folder: Path | None = None) -> tuple[int, bytes, bytes]:
    """The status, the standard output and the standard error of the program on these words, in this folder."""
    try:
        ran = subprocess.run([program, *words], cwd=folder, stdin=subprocess.DEVNULL, capture_output=True, timeout=SECONDS)
    except subprocess.TimeoutExpired:
        raise Difference(f'{" ".join(map(str, words))}: it had not ended after {SECONDS} seconds') from None
    said = SAID.sub(b'', ran.stderr) if words[:1] in (('explore',), ('outcomes',)) else ran.stderr
    if (ran.returncode == DONE) != (not said):
        raise Difference(f'{" ".join(map(str, words))}: its status is {ran.returncode}, and standard error is {ran.stderr[:60]!r}')
    return ran.returncode, ran.stdout, ran.stderr


def first_difference(found: bytes, wanted: bytes) -> str:
    """Where two texts differ first: the line's number and both lines."""
    lines, due = found.splitlines(keepends=True), wanted.splitlines(keepends=True)
    at = next((at for at, (one, other) in enumerate(zip(lines, due)) if one != other), min(len(lines), len(due)))
    return f'line {at + 1} is {shown(lines[at:])}, and {shown(due[at:])} is due'


def shown(lines: list[bytes]) -> str:
    """The first of some lines."""
    return repr(lines[0][:60]) if lines else 'nothing'


def want(what: str, found: object, wanted: object) -> None:
    if found != wanted:
        where = first_difference(found, wanted) if isinstance(found, bytes) and isinstance(wanted, bytes) else f'{found}, and {wanted} is due'
        raise Difference(f'{what} differs: {where}')


def on_script(program: Path, command: str, elf: Word, script: bytes, harts: str, *options: str) -> tuple[int, bytes]:
    """The status and the text of a command on the bytes of a script, with further options."""
    return on_programs(program, command, [elf], script, harts, *options)


def on_programs(program: Path, command: str, elves: Sequence[Word], script: bytes, harts: str, *options: str) -> tuple[int, bytes]:
    """The same of a command that takes so many programs before its script."""
    with tempfile.NamedTemporaryFile(suffix='.script') as file:
        file.write(script)
        file.flush()
        return run(program, command, *elves, file.name, '--harts', harts, '--steps', STEPS, *options)


def expect_play(program: Path, elf: Word, script: bytes, harts: str, status: int, text: bytes) -> None:
    """Plays a script, and wants this status and this text."""
    got = on_script(program, 'play', elf, script, harts)
    want('its status', got[0], status)
    want('its text', got[1], text)


def passes(name: str, checks: Iterable[Check]) -> bool:
    """Whether the checks of an example or a guest pass; says which doesn't."""
    is_well = True
    for what, check in checks:
        try:
            check()
        except Difference as difference:
            is_well = False
            print(f'{name}: {what}: {difference}')
    return is_well

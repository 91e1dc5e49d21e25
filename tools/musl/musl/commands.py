"""Other commands that are called here, and what is wrong where one fails."""
from __future__ import annotations

import os
import shutil
import signal
import subprocess
from collections.abc import Iterator, Mapping
from contextlib import contextmanager
from pathlib import Path
from types import FrameType
from typing import NoReturn

from lens.faults import LensFault

TERMINATED_STATUS = 143
FAILED_STATUS = 1
"""Of a command that was called here and failed."""
LINES = 8
"""How many of its last lines are shown."""


class Failed(LensFault):
    """A command that was called failed; with the last lines that it printed."""

    status = FAILED_STATUS

    def __init__(self, what: str, printed: str):
        lines = [line for line in printed.splitlines() if line.strip()]
        super().__init__('\n    '.join([f'{what}:', *(lines[-LINES:] or ['it says nothing'])]))


def demand(packages: Mapping[str, str]) -> None:
    """Refuses where one of these commands isn't there, each of which has its package of Debian."""
    lacking = [command for command in packages if shutil.which(command) is None]
    if lacking:
        names = ' '.join(sorted({packages[command] for command in lacking}))
        raise LensFault(f'there is no {", no ".join(lacking)} (apt-get install {names})')


def call(words: list[str], folder: Path, what: str) -> str:
    """What a command prints, in a folder. It ends with this one, where that is interrupted."""
    process = subprocess.Popen(
        words,
        cwd=folder,
        stdin=subprocess.DEVNULL,
        stdout=subprocess.PIPE,
        stderr=subprocess.STDOUT,
        start_new_session=True,
        env={**os.environ, 'LC_ALL': 'C'},
    )
    try:
        printed = process.communicate()[0].decode(errors='replace')
    except BaseException:
        os.killpg(process.pid, signal.SIGKILL)
        process.wait()
        raise
    if process.returncode:
        raise Failed(what, printed)
    return printed


@contextmanager
def ended_by_sigterm() -> Iterator[None]:
    """SIGTERM ends the command in order meanwhile, so that nothing is left behind."""

    def end(number: int, frame: FrameType | None) -> NoReturn:
        raise SystemExit(TERMINATED_STATUS)

    before = signal.signal(signal.SIGTERM, end)
    try:
        yield
    finally:
        signal.signal(signal.SIGTERM, before)

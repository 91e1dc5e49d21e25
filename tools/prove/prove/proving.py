"""Proves the program and all libraries that it stands on, four side by side on four processors.

`rt run` proves one library after the other. `rt ci` proves those side by side that don't stand on one another, but it tries the wrong
bodies and makes the tests too. So it is called in a copy that has neither. What it proves there it keeps, for the gate as well.
"""
from __future__ import annotations

import os
import shutil
import subprocess
import tempfile
from pathlib import Path

from .crates import CRATES, lines_for, name_of
from .jobs import environment

PROGRAM = 'rseq_run'
HANDLES = 'HANDLES'
NOT_PROVED = ('out', 'must-fail')
"""Folders of a crate that no proof reads."""


def copy_crates(root: Path, to: Path) -> None:
    """Copies what the program is proved from."""
    lines = lines_for(PROGRAM, root)
    for crate in map(name_of, lines):
        shutil.copytree(root / 'crates' / crate, to / 'crates' / crate, ignore=shutil.ignore_patterns(*NOT_PROVED))
    (to / CRATES).write_text('\n'.join(lines) + '\n')
    shutil.copyfile(root / HANDLES, to / HANDLES)


def built_in(root: Path) -> Path:
    """Where the program lies once it is built."""
    return root / 'crates' / PROGRAM / 'out' / PROGRAM


def prove(root: Path) -> int:
    """Proves the program; its status is that of `rt ci`. Where it is 0, the program lies in its crate."""
    with tempfile.TemporaryDirectory() as folder:
        copy = Path(folder) / 'copy'
        copy.mkdir()
        copy_crates(root, copy)
        status = subprocess.run(['rt', 'ci'], cwd=copy, env=environment(os.environ)).returncode
        if status == 0:
            built_in(root).parent.mkdir(exist_ok=True)
            shutil.copy2(built_in(copy), built_in(root))
    return status

"""Sessions: commands, and what they print."""
from __future__ import annotations

import os
import shutil
import subprocess
import tempfile
from pathlib import Path

from .programs import SECONDS, want


def parts(session: str) -> list[tuple[str, str]]:
    """The commands of a session, each with what it is to print."""
    commands: list[tuple[str, list[str]]] = []
    for line in session.splitlines(keepends=True):
        if line.startswith('$ '):
            commands.append((line[len('$ '):].rstrip('\n'), []))
        elif not line.startswith('# '):
            commands[-1][1].append(line)
    return [(command, ''.join(printed)) for command, printed in commands]


def check_session(program: Path, session: Path) -> None:
    """The commands of a session, one behind the other in a copy of its folder, print what stands below them."""
    with tempfile.TemporaryDirectory() as name:
        room = shutil.copytree(session.parent, Path(name) / 'room')
        (Path(name) / 'rseq_run').symlink_to(program)
        path = f'{name}:{os.environ["PATH"]}'
        for command, printed in parts(session.read_text()):
            ran = subprocess.run(
                ['sh', '-c', command], cwd=room, env={**os.environ, 'PATH': path}, stdin=subprocess.DEVNULL, capture_output=True,
                timeout=SECONDS,
            )
            status = b'status %d\n' % ran.returncode if ran.returncode else b''
            want(f'what `{command}` prints', ran.stdout + ran.stderr + status, printed.encode())

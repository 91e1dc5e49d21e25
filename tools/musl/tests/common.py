"""What the tests share: the command, stand-ins for what it calls, and the blocks of a page."""
from __future__ import annotations

import os
import re
import shutil
import subprocess
import tempfile
import textwrap
import unittest
from pathlib import Path

from musl.building import TOOLS

ROOT = Path(__file__).resolve().parents[3]
MUSL = ROOT / 'tools' / 'bin' / 'musl'
PROGRAM = Path(os.environ.get('RSEQ_RUN', ROOT / 'crates' / 'rseq_run' / 'out' / 'rseq_run')).resolve()
TIMEOUT = 1800
"""Seconds that no command takes, on a machine that has other work too."""
BLOCK = re.compile(r'(?:^ {4}.*\n|^\n(?= {4}))+', re.MULTILINE)
COMMAND = re.compile(r'^(?:REPOSITORY/|musl/bin/rvcc -|root=|cd |\./configure |make ).*\n', re.MULTILINE)

LACKING = [tool for tool in TOOLS if shutil.which(tool) is None]
needs_packages = unittest.skipIf(LACKING, f'there is no {", ".join(LACKING)}')
needs_program = unittest.skipUnless(PROGRAM.is_file(), f'{PROGRAM} isn\'t built')


class Room(unittest.TestCase):
    """A test with a folder of its own, in which commands may stand that are found first."""

    def setUp(self) -> None:
        made = tempfile.TemporaryDirectory()
        self.addCleanup(made.cleanup)
        self.room = Path(made.name)
        (self.room / 'stand-ins').mkdir()

    def stand_in(self, name: str, *lines: str) -> None:
        """A shell script in place of a command."""
        path = self.room / 'stand-ins' / name
        path.write_text('\n'.join(('#!/bin/sh', *lines, '')))
        path.chmod(0o755)

    def environment(self) -> dict[str, str]:
        return {**os.environ, 'PATH': f'{self.room / "stand-ins"}:{os.environ["PATH"]}'}

    def musl(self, *words: object) -> subprocess.CompletedProcess[str]:
        """What the command answers to some words, in the folder of the test."""
        return subprocess.run(
            [MUSL, *map(str, words)],
            cwd=self.room,
            env=self.environment(),
            capture_output=True,
            text=True,
            timeout=TIMEOUT,
        )


def words(text: str) -> str:
    return ' '.join(text.split())


def section(page: str, heading: str) -> str:
    """What stands below a heading of the second level of a page, up to the next one."""
    parts = dict(part.split('\n', 1) for part in re.split(r'^## ', page, flags=re.MULTILINE)[1:])
    return parts[heading]


def commands(text: str) -> list[tuple[str, str]]:
    """The blocks of commands of a text, each with what is to be printed, which stands below the last command."""
    found = []
    for block in (textwrap.dedent(block).lstrip('\n') for block in BLOCK.findall(text)):
        last = [match.end() for match in COMMAND.finditer(block)][-1:]
        found += [(block[:end], block[end:].strip('\n')) for end in last]
    return found

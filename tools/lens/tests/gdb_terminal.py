"""A gdb on a terminal, as a person has it: commands go in, and what it shows comes back."""
from __future__ import annotations

import os
import pty
import re
import select
import subprocess
import termios
import time
from pathlib import Path

from .common import LENS, ROOT

PROMPT = '(gdb) '
PIECE = 1 << 16
SECONDS = 600
"""So long no command takes, on a slow machine that has other work too."""
PLAIN = [
    word
    for command in ('width 0', 'pagination off', 'style enabled off', 'confirm off', 'editing off')
    for word in ('-ex', f'set {command}')
]
CONTROL = re.compile(r'\x1b\[[0-9;?]*[a-zA-Z]|\x1b[=>]')


class Terminal:
    """`lens gdb` with some words, until it is closed."""

    def __init__(self, words: list[object], gdb_words: list[str], cwd: Path = ROOT):
        self.own, other = pty.openpty()
        attributes = termios.tcgetattr(other)
        attributes[3] &= ~termios.ECHO
        termios.tcsetattr(other, termios.TCSANOW, attributes)
        line = [LENS, 'gdb', *words, '--', '-nx', *PLAIN, *gdb_words]
        env = {**os.environ, 'TERM': 'dumb'}
        self.ran = subprocess.Popen(list(map(str, line)), cwd=cwd, stdin=other, stdout=other, stderr=other, env=env)
        os.close(other)
        self.began = self.until_prompt()

    def ask(self, command: str) -> str:
        """What gdb shows of a command."""
        os.write(self.own, f'{command}\n'.encode())
        return self.until_prompt()

    def until_prompt(self) -> str:
        """What is shown up to the next prompt, or to the end."""
        shown, last = '', time.monotonic() + SECONDS
        while not shown.endswith(PROMPT):
            ready, _, _ = select.select([self.own], [], [], max(0.0, last - time.monotonic()))
            if not ready:
                raise TimeoutError(shown)
            try:
                shown += os.read(self.own, PIECE).decode('utf-8', 'replace')
            except OSError:  # (the other side is closed)
                break
        return CONTROL.sub('', shown.replace('\r\n', '\n')).removesuffix(PROMPT)

    def close(self) -> int:
        """Ends gdb; the status of the command."""
        if self.ran.poll() is None:
            os.write(self.own, b'quit\n')
        try:
            return self.ran.wait(SECONDS)
        finally:
            os.close(self.own)

"""The parts of the texts that the program prints, by the readers of tools/runs; and the line of sed that takes the log out of
one, which knows nothing of these."""
from __future__ import annotations

import subprocess
import sys
from collections.abc import Callable
from dataclasses import dataclass
from pathlib import Path

sys.path.append(str(Path(__file__).resolve().parents[2] / 'tools' / 'runs'))

from runs import RunsFault, outline, pair_outline  # noqa: E402 (found by the line above)

from .programs import SECONDS, Difference, want  # noqa: E402

TAKE_SCRIPT = r"sed -n '/^log /{h;d;};$!H;${g;s/^log [0-9]*\n//p;}'"
TAKE_PAIR_SCRIPT = r"sed -n '/^log /{h;d;};/^process /d;$!H;${g;s/^log [0-9]*\n//p;}'"
LOOKS_LIKE_A_LOG = b'console 54\nlog 1\n\x00\xfflog 2\nlog 1\n0 run 1 00000000000100b0\nend open\n\nlog 1\n1 run 1 00000000000100b0\nend open\n'


@dataclass(frozen=True)
class Parts:
    """Of a text the console (of a pair that of its first process), the lines of the log, and the last line."""

    console: bytes
    log: list[bytes]
    end: bytes


def parts_of(text: bytes) -> Parts:
    """Those of a text of one process."""
    try:
        found = outline('it', text)
    except RunsFault as fault:
        raise Difference(str(fault)) from None
    return Parts(found.console, found.log.splitlines(keepends=True), f'end {found.end}\n'.encode())


def parts_of_pair(text: bytes) -> Parts:
    """Those of a text of `pair`."""
    try:
        found = pair_outline('it', text)
    except RunsFault as fault:
        raise Difference(str(fault)) from None
    return Parts(found.consoles[0], found.log.splitlines(keepends=True), f'end {found.end}\n'.encode())


def check_taken(text: bytes, command: str = TAKE_SCRIPT, parts: Callable[[bytes], Parts] = parts_of) -> None:
    """The line of sed takes exactly the log lines of a text."""
    ran = subprocess.run(['sh', '-c', command], input=text, capture_output=True, timeout=SECONDS)
    want('what sed takes', ran.stdout + ran.stderr, b''.join(parts(text).log))

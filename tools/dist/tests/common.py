"""What the tests of `dist` share."""
from __future__ import annotations

import os
import subprocess
import unittest
from pathlib import Path

from lens.machine import BUILT

ROOT = Path(__file__).resolve().parents[3]
DIST = ROOT / 'tools' / 'bin' / 'dist'
STAND_IN = Path('/bin/true').resolve()
"""A program for x86-64, where the built one isn't asked for."""
DEB, TAR = 'rseq-run_*_amd64.deb', 'rseq-run-*-amd64.tar.gz'
FIRST_COMMANDS = """
rseq_run solo examples/hello/hello.elf | sed -n 2p
crates/rseq_run/out/rseq_run draw examples/peterson/peterson.elf --seed 3 | tail -1
lens why examples/peterson/found.output examples/peterson/peterson.elf | sed -n 2p
"""
FIRST_ANSWERS = "Hello, hart\nend exit 1\nThe last line on the console is 'count 1: an addition is lost'.\n"
"""What a person tries first, in the folder of the package, and what it prints."""
TIMEOUT = 120
EPOCH = '1700000000'

needs_program = unittest.skipUnless(os.access(BUILT, os.X_OK), 'there is no built program')


def dist(folder: Path, *words: str, epoch: str = EPOCH) -> subprocess.CompletedProcess[str]:
    environment = {**os.environ, 'SOURCE_DATE_EPOCH': epoch}
    return subprocess.run(
        [DIST, '-o', folder, *words], env=environment, capture_output=True, text=True, timeout=TIMEOUT
    )


def only(folder: Path, pattern: str) -> Path:
    """The one file of a folder with such a name."""
    [found] = folder.glob(pattern)
    return found

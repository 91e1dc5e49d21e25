"""How many runs fit beside each other."""
from __future__ import annotations

import os
from pathlib import Path

MEBIBYTE = 1 << 20
FRAME = 4096
FRAMES, STEPS = 4096, 200_000
BASE_MEBIBYTES = 48
"""The program itself, its directory of pages, and the Python of a job."""
BYTES_A_STEP = 128
"""An entry of the log, its line in the text, and that text in the job, twice."""
SHARE = 0.8


def mebibytes_a_run(frames: int | None, steps: int | None) -> int:
    """What a run may take: its frames and a copy of its image, its log and its text."""
    size = 2 * FRAME * (frames or FRAMES) + BYTES_A_STEP * (steps or STEPS)
    return BASE_MEBIBYTES + size // MEBIBYTE


def available_mebibytes() -> int | None:
    """The memory that is free or can be made free, where the system says it."""
    try:
        lines = Path('/proc/meminfo').read_text().splitlines()
    except OSError:
        return None
    fields = {name: value for name, _, value in (line.partition(':') for line in lines)}
    return int(fields['MemAvailable'].split()[0]) // 1024 if 'MemAvailable' in fields else None


def jobs_that_fit(asked: int | None, mebibytes: int) -> int:
    """As many jobs as were asked for, or as there are processors; fewer where memory is short."""
    wanted = asked or len(os.sched_getaffinity(0))
    available = available_mebibytes()
    return wanted if available is None else max(1, min(wanted, int(available * SHARE) // mebibytes))

"""How many crates are proved at a time.

`rt ci` sets memory aside for each proof by the length of the crate, up to 8 GB, and leaves processors idle where there isn't so much for
each of them. The proofs of this repository take less than half of that. So `rt ci` gets the number from here (RT_JOBS).
"""
from __future__ import annotations

import os
import re
from collections.abc import Mapping
from pathlib import Path

JOBS = 'RT_JOBS'
"""The variable by which `rt` proves so many crates at a time, each by one processor."""

MOST_MEMORY = 4_000_000_000
"""How many bytes a proof takes at most, with some room: 3.7 GB were seen (`percpu_lib`, docs/reference/PERFORMANCE.md)."""

FREE = Path('/proc/meminfo')
LIMITS = (Path('/sys/fs/cgroup/memory.max'), Path('/sys/fs/cgroup/memory/memory.limit_in_bytes'))
"""Where a control group has its limit in bytes; no number stands there where it has none."""


def free_memory(free: Path = FREE, limits: tuple[Path, ...] = LIMITS) -> int:
    """How many bytes are free, and at most the limit of the control group. 0 where the system doesn't say."""
    found = re.search(r'MemAvailable:\s+(\d+)', text_of(free))
    told = [text_of(limit).strip() for limit in limits]
    return min([1024 * int(found[1]) if found else 0, *(int(limit) for limit in told if limit.isdigit())])


def text_of(file: Path) -> str:
    """What stands in a file; nothing where it can't be read."""
    try:
        return file.read_text()
    except OSError:
        return ''


def jobs_for(processors: int, memory: int) -> int:
    """One proof a processor, as many as memory holds, and one at least."""
    return max(1, min(processors, memory // MOST_MEMORY))


def environment(given: Mapping[str, str]) -> dict[str, str]:
    """These variables, with the number of proofs at a time, unless they have it."""
    if given.get(JOBS):
        return dict(given)
    return {**given, JOBS: str(jobs_for(len(os.sched_getaffinity(0)), free_memory()))}

#!/usr/bin/env python3
"""Steps per second of `solo` and of `play`, the whole text written to a file, and the peak of memory.

    bench/solo.py [PROGRAM]

PROGRAM is crates/rseq_run/out/rseq_run where it isn't given. Each row is the best of 5 runs, and the peak is that of one more run
under GNU time (`apt-get install time`), where it is there. A step is a line of the log. The
row `played` plays the log lines of the row above it. The program of the last rows, bench/long.elf (examples/compute for 20 rounds),
isn't over after 1,000,000 steps; their last column is the nanoseconds for each step more than the row above made, so it shows
whether a step costs more the longer the log is.
"""
from __future__ import annotations

import sys
import tempfile
from pathlib import Path

from measured import HERE, MOST_STEPS, head, parts_of, program_named, row

COMPUTE = HERE.parent / 'examples' / 'compute' / 'compute.elf'
LONG = HERE / 'long.elf'


def main() -> None:
    program = program_named(sys.argv[1:])
    head()
    with tempfile.TemporaryDirectory() as room:
        path, script = Path(room) / 'text', Path(room) / 'script'
        row('compute', program, ['solo', COMPUTE, '--steps', MOST_STEPS], path)
        script.write_bytes(parts_of(path)[1])
        row('  played', program, ['play', COMPUTE, script, '--harts', '1', '--steps', MOST_STEPS], path)
        before = None
        for steps in ('1', '10000', '100000', MOST_STEPS):
            before = row('long', program, ['solo', LONG, '--steps', steps], path, before)


if __name__ == '__main__':
    main()

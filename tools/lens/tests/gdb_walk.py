"""Runs in gdb: makes the commands of a file, and notes after each where the run is, and what gdb believes of
its threads. The variables WALK_COMMANDS and WALK_NOTES name the two files."""
from __future__ import annotations

import json
import os

import gdb

NAMES = (
    'zero ra sp gp tp t0 t1 t2 fp s1 a0 a1 a2 a3 a4 a5 a6 a7 s2 s3 s4 s5 s6 s7 s8 s9 s10 s11 t3 t4 t5 t6 pc'.split()
)


def registers() -> list[int]:
    """Those of the chosen thread, unsigned."""
    frame = gdb.newest_frame()
    return [int(frame.read_register(name)) & (1 << 64) - 1 for name in NAMES]


def threads() -> dict[int, list[int]]:
    """The registers of each thread."""
    chosen, found = gdb.selected_thread(), {}
    for thread in gdb.selected_inferior().threads():
        thread.switch()
        found[thread.num] = registers()
    chosen.switch()
    return found


def note(command: str) -> dict[str, object]:
    """What comes of a command."""
    try:
        said = gdb.execute(command, to_string=True)
    except gdb.error as error:
        said = f'{error}'
    step = gdb.execute('monitor step', to_string=True)
    chosen = gdb.selected_thread().num
    return {'command': command, 'said': said, 'step': step, 'chosen': chosen, 'threads': threads()}


with open(os.environ['WALK_COMMANDS']) as commands, open(os.environ['WALK_NOTES'], 'w') as notes:
    for line in commands:
        notes.write(json.dumps(note(line.rstrip('\n'))) + '\n')
        notes.flush()

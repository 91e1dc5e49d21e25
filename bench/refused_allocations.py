#!/usr/bin/env python3
"""Refuses each allocation of the program in turn, and says what it answered.

    bench/refused_allocations.py [PROGRAM]

PROGRAM is crates/rseq_run/out/rseq_run where it isn't given. Wants a C compiler, `cc`, for bench/refuse_allocation.c, which stands
between the program and the C library. Each command line is run once with no refusal, once for each of its allocations with that one
refused, and once for each with that one and all later ones refused. The program must end with status 7 and `fault memory` (with
nothing printed while it takes the words of its command line), or give its own status and text; a search for all outcomes may also say
at its end that it is unfinished for want of memory. Standard error has a reason exactly
where the status isn't 0. Ends with 1 at any other answer.
"""
from __future__ import annotations

import collections
import os
import subprocess
import sys
import tempfile
from pathlib import Path

HERE = Path(__file__).resolve().parent
ROOT = HERE.parent
BUILT = ROOT / 'crates' / 'rseq_run' / 'out' / 'rseq_run'
EXAMPLES = ROOT / 'examples'
RING = EXAMPLES / 'segment_ring'
WANT = 7, b'fault memory\n'
NO_WORDS = 7, b''
UNFINISHED = 0, b'unfinished memory\n'

Answer = tuple[int, bytes]
"""A status and a text."""
LINES: list[list[str | Path]] = [
    ['solo', ROOT / 'crates' / 'rseq_run' / 'data' / 'exit7.elf'],
    ['solo', EXAMPLES / 'compute' / 'compute.elf', '--steps', '20000'],
    ['solo', EXAMPLES / 'fault' / 'fault.elf'],
    ['play', EXAMPLES / 'hello' / 'hello.elf', EXAMPLES / 'hello' / 'moved.script', '--harts', '2'],
    ['play', EXAMPLES / 'moves' / 'moves.elf', EXAMPLES / 'moves' / 'moved.script'],
    ['play', EXAMPLES / 'moves' / 'moves.elf', EXAMPLES / 'moves' / 'store_waits.script'],
    ['inspect', EXAMPLES / 'hello' / 'hello.elf', EXAMPLES / 'hello' / 'moved.script', '--harts', '2'],
    ['acts', EXAMPLES / 'percpu_counter' / 'percpu_counter.elf', EXAMPLES / 'percpu_counter' / 'side_by_side.script'],
    ['gather', EXAMPLES / 'percpu_counter' / 'percpu_counter.elf', EXAMPLES / 'percpu_counter' / 'side_by_side.script'],
    ['blocks', EXAMPLES / 'percpu_counter' / 'percpu_counter.elf', EXAMPLES / 'percpu_counter' / 'preempted.script'],
    ['draw', EXAMPLES / 'peterson' / 'peterson.elf', '--seed', '2'],
    ['explore', EXAMPLES / 'peterson' / 'peterson.elf', '--runs', '20', '--jobs', '1'],
    ['explore', EXAMPLES / 'peterson' / 'peterson.elf', '--runs', '20', '--jobs', '2'],
    ['outcomes', EXAMPLES / 'hello' / 'hello.elf', '--harts', '1'],
    ['pair', RING / 'producer.elf', RING / 'consumer.elf', RING / 'found.script'],
    ['pair', RING / 'producer.elf', RING / 'consumer.elf', RING / 'not_taken.script'],
    ['run', EXAMPLES / 'hello' / 'hello.elf', '--harts', '1'],
    ['solo', EXAMPLES / 'check.py'],
    ['make', 'counter', '1000'],
    ['make', 'counter', '0'],
    ['trial', 'counter', '1', '--steps', '100'],
    ['solo'],
]


def run(program: Path, shim: Path, line: list[str | Path], refuse: str) -> tuple[Answer, int]:
    """The status and the text of the program, and how often it asked for memory."""
    end, start = os.pipe()
    env = {**os.environ, 'LD_PRELOAD': str(shim), 'REFUSE': refuse, 'COUNT_TO': str(start)}
    ran = subprocess.run([program, *line], stdin=subprocess.DEVNULL, capture_output=True, pass_fds=[start], env=env)
    os.close(start)
    if ran.stderr[:10] != (b'rseq_run: ' if ran.returncode else b''):
        sys.exit(f'{line}, {refuse}: its status is {ran.returncode}, and standard error is {ran.stderr[:60]!r}')
    with os.fdopen(end) as count:
        is_unfinished = line[0] == 'outcomes' and ran.returncode == 0 and ran.stdout.endswith(UNFINISHED[1])
        return UNFINISHED if is_unfinished else (ran.returncode, ran.stdout), int(count.read())


def ranges(numbers: list[int]) -> str:
    """Numbers as text, neighbours joined."""
    parts: list[list[int]] = []
    for number in numbers:
        if parts and parts[-1][1] == number - 1:
            parts[-1][1] = number
        else:
            parts.append([number, number])
    return ', '.join(str(one) if one == other else f'{one} to {other}' for one, other in parts)


def sweep(program: Path, shim: Path, line: list[str | Path]) -> bool:
    """Runs a command line with each refusal, prints what came, and says whether nothing else did."""
    own, count = run(program, shim, line, '0')
    names = {own: f'its own answer (status {own[0]}, {len(own[1])} bytes)', WANT: 'status 7, fault memory', NO_WORDS: 'status 7, nothing printed',
             UNFINISHED: 'status 0, unfinished memory'}
    shown = ' '.join(word if isinstance(word, str) else word.name for word in line)
    print(f'{shown}: {count} allocations')
    is_well = True
    for ending, what in [('', 'refused alone'), ('..', 'refused with all later ones')]:
        came: dict[Answer, list[int]] = collections.defaultdict(list)
        for number in range(1, count + 1):
            came[run(program, shim, line, f'{number}{ending}')[0]].append(number)
        # (once a fault line is printed, the words were taken)
        is_well &= max(came[NO_WORDS], default=0) < min(came[WANT], default=count + 1)
        for answer, numbers in came.items():
            if not numbers:
                continue
            is_well &= answer in names
            print(f'  {what}, {ranges(numbers)}: {names.get(answer, f"WRONG: status {answer[0]}, {answer[1][:60]!r}")}')
    return is_well


def main() -> None:
    program = Path(sys.argv[1]).resolve() if len(sys.argv) > 1 else BUILT
    if not program.is_file():
        sys.exit(f'{program} is no file: build it with `rt ci` first')
    with tempfile.TemporaryDirectory() as room:
        shim = Path(room) / 'refuse.so'
        subprocess.run(['cc', '-O1', '-shared', '-fPIC', '-o', shim, HERE / 'refuse_allocation.c', '-ldl'], check=True)
        wrong = sum(not sweep(program, shim, line) for line in LINES)
    print(f'{len(LINES) - wrong} of {len(LINES)} command lines gave no other answer')
    sys.exit(1 if wrong else 0)


if __name__ == '__main__':
    main()

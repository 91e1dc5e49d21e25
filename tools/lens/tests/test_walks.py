"""A real gdb walks at random over recorded runs: after each command the registers of all threads are those that
`inspect` says."""
from __future__ import annotations

import json
import os
import random
import re
import subprocess
import tempfile
import unittest
from collections.abc import Iterator
from functools import cache
from pathlib import Path

from lens.machine import Machine
from lens.output import read_output
from lens.program import Program
from lens.timeline import Timeline
from lens.timeline_reading import make_timeline

from .common import EXAMPLES, LENS, needs_program
from .recorded_runs import harts_of, machine_of, needs_gdb

WALK = Path(__file__).with_name('gdb_walk.py')
RUNS = (
    'peterson/found',
    'percpu_counter/preempted',
    'percpu_counter_wrong_signature/killed',
    'signal_in_sequence/inside',
    'segv_handler/moved',
    'handler_add_plain/lost',
    'threads/sleeps',
    'ring_wake_lost/asleep',
    'pages/late',
    'rcu/taken',
)
COMMANDS = int(os.environ.get('GDB_COMMANDS', '200'))
"""So many commands are made over each run."""
SECONDS = 600
"""So long no walk takes, on a slow machine that has other work too."""
SEED = int(os.environ.get('GDB_SEED', '1'))
STEPS = 'stepi nexti step next'.split()
FURTHER = 'finish until continue'.split()
BACK = [f'reverse-{command}' for command in (*STEPS, 'finish', 'continue')]
LOCKS = ('replay', 'off', 'step', 'on')
WRONG = re.compile(r'internal-error|Assertion|SIGTRAP|Remote connection closed|unexpectedly')
PLACE = re.compile(r'before step ([0-9]+):|after the last step, ([0-9]+):')


class Walk:
    """Commands for one run, drawn by a seed."""

    def __init__(self, program: Program, timeline: Timeline, seed: int):
        self.random = random.Random(seed)
        self.size, self.threads = timeline.size, len(timeline.threads)
        self.functions = sorted({symbol.name for symbol in program.symbols if symbol.is_function})
        self.pcs = sorted(timeline.executions)
        touched = {*timeline.memory.made.words, *timeline.memory.reads.words}
        self.places = [f'*({kind} *) {8 * word:#x}' for word in sorted(touched) for kind in ('int', 'long')]

    def commands(self, count: int) -> Iterator[str]:
        yield 'set confirm off'
        yield 'set pagination off'
        for _ in range(count - 2):
            yield self.command()

    def command(self) -> str:
        draw = self.random
        kind = draw.choices(
            ('step', 'further', 'back', 'times', 'thread', 'goto', 'break', 'watch', 'delete', 'lock', 'other'),
            (20, 16, 26, 6, 8, 6, 8, 6, 6, 2, 4),
        )[0]
        match kind:
            case 'step':
                return draw.choice(STEPS)
            case 'further':
                return draw.choice(FURTHER)
            case 'back':
                return draw.choice(BACK)
            case 'times':
                return f'{draw.choice((*STEPS, *BACK[:4]))} {draw.randrange(2, 12)}'
            case 'thread':
                return f'thread {draw.randrange(self.threads) + 1}'
            case 'goto':
                return f'goto {draw.randrange(self.size + 1) + 1}'
            case 'break':
                return self.breakpoint()
            case 'watch':
                word = draw.choice(('watch', 'awatch', 'rwatch', 'writes', 'watch'))
                return f'{word} {draw.choice(self.places)}'
            case 'delete':
                return 'delete'
            case 'lock':
                return f'set scheduler-locking {draw.choice(LOCKS)}'
        return draw.choice(('next-call', 'previous-call', 'moment enters', 'moment made', 'up', 'info threads', 'bt'))

    def breakpoint(self) -> str:
        draw = self.random
        where = draw.choice((draw.choice(self.functions), f'*{draw.choice(self.pcs):#x}'))
        whose = f' thread {draw.randrange(self.threads) + 1}' if draw.random() < 0.2 else ''
        condition = f' if $sp % {draw.choice((32, 64, 256))} != 0' if draw.random() < 0.3 else ''
        return f'{draw.choice(("break", "tbreak"))} {where}{whose}{condition}'


class Inspected:
    """The registers of threads at places of a run."""

    def __init__(self, machine: Machine, lines: list[bytes]):
        self.machine, self.lines = machine, lines
        self.at = cache(self.ask)

    def ask(self, place: int) -> dict[int, dict[int, int]]:
        """By thread what `inspect` says of its registers: of one that runs nowhere the pc, which is 32."""
        text = self.machine.text_of('inspect', b''.join(self.lines[:place]))
        found: dict[int, dict[int, int]] = {}
        on_hart: dict[str, int] = {}
        for line in text.splitlines():
            match line.split(' '):
                case ['hart', hart, 'thread', thread, 'pc', pc, *_]:
                    on_hart[hart] = int(thread)
                    found[int(thread)] = {32: int(pc, 16)}
                case ['hart', hart, register, _, value] if register[1:].isdecimal() and register[0] == 'x':
                    found[on_hart[hart]][int(register[1:])] = int(value, 16)
                case ['thread', thread, 'pc', pc]:
                    found[int(thread)] = {32: int(pc, 16)}
        return found


@needs_program
@needs_gdb
class Walks(unittest.TestCase):
    def test_over_kept_runs(self) -> None:
        for number, name in enumerate(RUNS):
            with self.subTest(run=name), tempfile.TemporaryDirectory() as room:
                self.check_run(EXAMPLES / f'{name}.output', SEED * 1_000 + number, Path(room))

    def check_run(self, run: Path, seed: int, room: Path) -> None:
        elf = run.parent / f'{run.parent.name}.elf'
        machine = machine_of(run, elf, harts_of(run))
        lines = [step.line().encode() + b'\n' for step in read_output(str(run)).steps]
        program = Program(str(elf))
        timeline = make_timeline(str(run), b''.join(lines), program, machine)
        commands = list(Walk(program, timeline, seed).commands(COMMANDS))
        notes = self.walked(run, elf, commands, room)
        inspected = Inspected(machine, lines)
        for note in notes:
            self.check_note(note, inspected)
        self.assertEqual(len(notes), len(commands), notes[-1:])

    def walked(self, run: Path, elf: Path, commands: list[str], room: Path) -> list[dict]:
        """What gdb notes after each command."""
        (room / 'commands').write_text('\n'.join([*commands, '']))
        names = {'WALK_COMMANDS': str(room / 'commands'), 'WALK_NOTES': str(room / 'notes')}
        words = [LENS, 'gdb', run, elf, f'--harts={harts_of(run)}', '--', '-nx', '-batch', '-x', WALK]
        ran = subprocess.run(words, env={**os.environ, **names}, capture_output=True, text=True, timeout=SECONDS)
        self.assertNotRegex(ran.stdout + ran.stderr, WRONG)
        return [json.loads(line) for line in (room / 'notes').read_text().splitlines()]

    def check_note(self, note: dict, inspected: Inspected) -> None:
        self.assertNotRegex(note['said'], WRONG, note['command'])
        found = PLACE.search(note['step'])
        self.assertTrue(found, note['step'])
        place = int(found[1]) - 1 if found[1] else int(found[2])
        for thread, due in inspected.at(place).items():
            got = note['threads'][str(thread)]
            wrong = {number: (hex(got[number]), hex(value)) for number, value in due.items() if got[number] != value}
            self.assertEqual(wrong, {}, f'thread {thread} after {note["command"]!r} at place {place}')


if __name__ == '__main__':
    unittest.main()

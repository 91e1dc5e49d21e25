#!/usr/bin/python3
"""Stands in for rseq_run in the tests of the sweep: answers `draw FILE --seed=S`, and `run`, with an output text that
depends on the seed alone, and `explore FILE --seed=S --runs=N --jobs=1` with the outcomes of such runs. One seed in seven
loses, and the runs of an outcome have logs of different lengths. FILE's first line says how many seconds a run takes, and may
say which seed is refused, and that outcomes aren't told apart (`others`). With STAND_IN_LAST in the environment, runs of later
seeds than that don't end."""
import os
import sys
import time

LINES = ['0 run 1 0000000000010078'] + [f'0 exec 1 {pc:016x}' for pc in range(0x10078, 0x100B8, 4)]


class Refused(Exception):
    """A run was refused."""


class Runs:
    """How the runs of FILE go."""

    def __init__(self, file):
        with open(file) as text:
            seconds, *self.words = text.readline().split()
        self.seconds = float(seconds)

    def make(self, seed):
        """What the run of a seed comes to: its console, how many steps it has, and its end."""
        time.sleep(self.seconds)
        while seed > int(os.environ.get('STAND_IN_LAST', seed)):
            time.sleep(1)
        if str(seed) in self.words:
            raise Refused
        loses = seed % 7 == 3
        return ('count 1\n' if loses else 'count 2\n'), 4 + seed % 5, f'exit {int(loses)}'


def console_part(console):
    return f'console {len(console)}\n{console}\n'


def draw(runs, seed):
    console, steps, end = runs.make(seed)
    return ''.join([console_part(console), f'log {steps}\n', *(f'{line}\n' for line in LINES[:steps]), f'end {end}\n'])


def explore(runs, first, count):
    """Of each outcome its first line, which has the count of its runs behind it, and its text."""
    counts, texts = {}, {}
    for seed in range(first, first + count):
        console, steps, end = runs.make(seed)
        texts.setdefault(end, f'seed {seed} policy stretch steps {steps}\n{console_part(console)}end {end}\n')
        counts[end] = counts.get(end, 0) + 1
    others = ''
    if 'others' in runs.words:
        end, text = texts.popitem()
        others = f'others {counts[end]} {text.partition(" policy")[0]}\n'
    parts = ''.join(f'runs {counts[end]} {text}' for end, text in texts.items())
    return f'outcomes {len(texts)}\n{parts}{others}runs {count}\nharts 1 {count}\nswitches 0\npreemptions 0 inside 0\nwaited\novertaken 0 of 0\n'


def main():
    if sys.argv[1:] == ['--version']:
        print('rseq_run 0.4.0 (a stand-in)')
        return 0
    command, file, *options = sys.argv[1:]
    numbers = dict(option.removeprefix('--').split('=') for option in options)
    runs, seed = Runs(file), int(numbers['seed'])
    assert command in ('draw', 'run', 'explore'), command
    try:
        text = explore(runs, seed, int(numbers['runs'])) if command == 'explore' else draw(runs, seed)
    except Refused:
        print('fault memory')
        return 7
    print(text, end='')
    return 0


sys.exit(main())

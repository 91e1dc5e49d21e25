"""What `--json` prints is as its schema says, and says what the listing of the command does."""
from __future__ import annotations

import json
import re
import unittest
from pathlib import Path
from typing import Any

from lens.facts import SequenceEnds
from lens.traced_calls import BELOW

from .common import FOUND, PETERSON, kept_runs, lens, needs_program
from .recorded_runs import harts_of
from .schemas import FOLDER, faults, schema

COMMANDS = ('why', 'calls', 'sequences', 'races', 'watch')
RUNS = ('percpu_counter/preempted', 'ring_wake_lost/asleep', 'pages/late')
WATCHED = {'peterson/found': 'wants'}
Json = dict[str, Any]


def runs() -> list[tuple[str, Path, Path]]:
    named = [(f'{run.parent.name}/{run.stem}', run, elf) for run, elf in kept_runs()]
    return [one for one in named if one[0] in (*RUNS, *WATCHED)]


def answer(command: str, run: Path, elf: Path, *words: str) -> str:
    answered = lens(command, run, elf, *words, '--harts', str(harts_of(run)))
    if answered.returncode:
        raise AssertionError(answered.stderr.decode())
    return str(answered.stdout.decode())


def data(command: str, run: Path, elf: Path, *words: str) -> Json:
    return dict(json.loads(answer(command, run, elf, *words, '--json')))


@needs_program
class Commands(unittest.TestCase):
    def test_they_are_as_the_schemas_say(self) -> None:
        for name, run, elf in runs():
            for command in COMMANDS:
                watched = [WATCHED[name]] if command == 'watch' and name in WATCHED else []
                if watched or command != 'watch':
                    with self.subTest(run=name, command=command):
                        self.assertEqual(faults(schema(command), data(command, run, elf, *watched)), [])

    def test_why(self) -> None:
        for name, run, elf in runs():
            with self.subTest(run=name):
                told = data('why', run, elf)['sentences']
                listed = answer('why', run, elf).splitlines()
                self.assertEqual([one['text'] for one in told], [line.strip() for line in listed])
                named = [int(number) for line in listed for number in re.findall(r'\bstep (\d+)', line)]
                self.assertEqual([number for one in told for number in one['steps']], named)

    def test_calls(self) -> None:
        for name, run, elf in runs():
            with self.subTest(run=name):
                calls = data('calls', run, elf)['calls']
                lines = answer('calls', run, elf, '--values').splitlines()[1:-2]
                listed = [line for line in lines if not line.startswith(BELOW)]
                self.assertEqual(len(calls), len(listed))
                for call, line in zip(calls, listed):
                    self.assertEqual(line.split()[:2], [str(call['step']), str(call['thread'])])
                    self.assertIn(f'  {call["words"]}  (', line)

    def test_sequences(self) -> None:
        for name, run, elf in runs():
            with self.subTest(run=name):
                told = data('sequences', run, elf)
                listed = answer('sequences', run, elf).splitlines()[1:-2]
                self.assertEqual(len(told['sequences']), len(listed))
                for one, line in zip(told['sequences'], listed):
                    self.assertTrue(line.strip().startswith(f'{one["first"]} to {one["last"]} '), line)
                    self.assertTrue(line.endswith(one['words']), line)

    def test_watch(self) -> None:
        told = data('watch', FOUND, PETERSON, 'wants', '--from', '50', '--thread', '1')
        listed = answer('watch', FOUND, PETERSON, 'wants', '--from', '50', '--thread', '1').splitlines()[1:-2]
        self.assertEqual(len(told['accesses']), len(listed))
        for one, line in zip(told['accesses'], listed):
            self.assertEqual(line.split()[:4], [str(one[key]) for key in ('step', 'hart', 'thread', 'access')])
            self.assertIn(f'{one["name"]} = {int(one["value"], 16)}', line)
            self.assertEqual(one['place']['file'], 'peterson.c')

    def test_races(self) -> None:
        for words in ('', '--plain'):
            told = data('races', FOUND, PETERSON, *words.split())
            listed = answer('races', FOUND, PETERSON, *words.split())
            headings = [line for line in listed.splitlines()[:-2] if line.endswith(':')]
            self.assertEqual(len(told['pairs']), len(headings))
            for pair, heading in zip(told['pairs'], headings):
                self.assertTrue(heading.startswith(pair['names'][0]))

    def test_a_thread_alone(self) -> None:
        run, elf = next((run, elf) for name, run, elf in runs() if name == 'percpu_counter/preempted')
        for command in ('calls', 'sequences'):
            rows = data(command, run, elf, '--thread', '3')[command]
            self.assertEqual({row['thread'] for row in rows}, {3})

    def test_freed_has_none(self) -> None:
        answered = lens('watch', FOUND, PETERSON, '--freed', '--json')
        self.assertEqual(answered.returncode, 2)
        self.assertEqual(answered.stderr, b'lens: --json is of a NAME, and there is none for --freed\n')


class Schemas(unittest.TestCase):
    def test_there_is_one_for_each_command(self) -> None:
        self.assertEqual({path.stem for path in FOLDER.glob('*.json')}, set(COMMANDS))
        self.assertIn('form', SequenceEnds._fields)

    def test_data_of_another_form_is_refused(self) -> None:
        good: Json = {'run': 'r', 'program': 'p', 'steps': 3, 'end': 'exit 0', 'sentences': []}
        sentence: Json = {'text': 't', 'is_detail': False, 'steps': [3]}
        self.assertEqual(faults(schema('why'), {**good, 'sentences': [sentence]}), [])
        for wrong in (
            {**good, 'steps': '3'},
            {**good, 'steps': True},
            {**good, 'end': 'over'},
            {**good, 'more': 1},
            {key: value for key, value in good.items() if key != 'run'},
            {**good, 'sentences': [{**sentence, 'steps': [0]}]},
            {**good, 'sentences': [{**sentence, 'is_detail': 'no'}]},
        ):
            with self.subTest(wrong=wrong):
                self.assertEqual(len(faults(schema('why'), wrong)), 1)

    def test_an_unknown_word_of_a_schema_is_told(self) -> None:
        self.assertEqual(len(faults({'type': 'integer', 'multipleOf': 2}, 3)), 1)


if __name__ == '__main__':
    unittest.main()

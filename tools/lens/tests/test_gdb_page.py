"""The dialogues of docs/tutorial/GDB.md: a real gdb, asked what stands there, shows what stands below."""
from __future__ import annotations

import json
import os
import re
import subprocess
import tempfile
import textwrap
import unittest
from collections.abc import Iterator
from pathlib import Path
from typing import NamedTuple

from .common import PROGRAM, ROOT, TIMEOUT, needs_program
from .gdb_terminal import PROMPT, Terminal
from .recorded_runs import needs_gdb

PAGE = ROOT / 'docs' / 'tutorial' / 'GDB.md'
DIALOGUES = 3
"""So many there are at least."""
LENS_GDB = 'tools/bin/lens gdb '
BLOCK = re.compile(r'(?:^ {4}.*\n|^\n(?= {4}))+', re.MULTILINE)
COMMANDS = ('tools/bin/lens ', 'crates/rseq_run/out/rseq_run ')
FORMS = 'tools/bin/lens gdb RUN ELF'
"""How a block begins that shows the words of the command."""


class Asked(NamedTuple):
    """What gdb is asked, and what it is to show."""

    command: str
    shown: str


class Dialogue(NamedTuple):
    """Commands that go before, the words of `lens gdb`, and what is asked."""

    before: list[str]
    words: list[str]
    asked: list[Asked]


def dialogues(text: str) -> Iterator[Dialogue]:
    """Those of a page. One goes on in the blocks below its first, between which there is other text."""
    found: list[Dialogue] = []
    before: list[str] = []
    for block in BLOCK.findall(text):
        lines = textwrap.dedent(block).strip('\n')
        head, prompt, rest = lines.partition(PROMPT)
        for line in head.splitlines():
            if line.startswith(LENS_GDB) and not line.startswith(FORMS):
                words = line.split('#')[0].removeprefix(LENS_GDB).split()
                found.append(Dialogue(before, words, []))
                before = []
            elif line.startswith(COMMANDS) and not line.startswith(FORMS):
                before.append(line)
        if prompt and found:
            found[-1].asked.extend(asked_in(prompt + rest))
    yield from (dialogue for dialogue in found if dialogue.asked)


def asked_in(text: str) -> Iterator[Asked]:
    """What is asked, with what stands below each."""
    for part in re.split(r'^\(gdb\) ', text, flags=re.MULTILINE)[1:]:
        command, _, shown = part.partition('\n')
        yield Asked(command, shown)


def tidy(text: str) -> str:
    """A text without spaces at the ends of its lines, and without empty lines."""
    return '\n'.join(line.rstrip() for line in text.splitlines() if line.strip())


@needs_program
@needs_gdb
class Page(unittest.TestCase):
    def test_dialogues(self) -> None:
        found = list(dialogues(PAGE.read_text()))
        self.assertGreaterEqual(len(found), DIALOGUES)
        for dialogue in found:
            with self.subTest(words=dialogue.words), tempfile.TemporaryDirectory() as room:
                self.check(dialogue, room)

    def check(self, dialogue: Dialogue, room: str) -> None:
        for command in dialogue.before:
            subprocess.run(
                ['sh', '-c', command.replace('/tmp/', f'{room}/').replace('crates/rseq_run/out/rseq_run', str(PROGRAM))],
                cwd=ROOT,
                env={**os.environ, 'RSEQ_RUN': str(PROGRAM)},
                check=True,
                capture_output=True,
                timeout=TIMEOUT,
            )
        terminal = Terminal([word.replace('/tmp/', f'{room}/') for word in dialogue.words], [])
        try:
            for asked in dialogue.asked:
                shown = terminal.ask(asked.command).replace(f'{room}/', '/tmp/')
                self.assertEqual(tidy(shown), tidy(asked.shown), asked.command)
        finally:
            self.assertEqual(terminal.close(), 0)

    def test_the_words_for_editors(self) -> None:
        """They are JSON, and name what is there."""
        text = PAGE.read_text()
        block = re.search(r'^    \{\n(?:    .*\n)+?    \}\n', text, re.MULTILINE)
        assert block
        words = json.loads(textwrap.dedent(block[0]))
        self.assertEqual((words['type'], words['MIMode'], words['miDebuggerPath']), ('cppdbg', 'gdb', 'gdb-multiarch'))
        script = words['setupCommands'][0]['text'].removeprefix('source ${workspaceFolder}/')
        self.assertTrue((ROOT / script).is_file(), script)
        self.assertTrue((ROOT / Path(words['program'].removeprefix('${workspaceFolder}/'))).is_file())


if __name__ == '__main__':
    unittest.main()

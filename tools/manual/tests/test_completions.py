"""The completions of words, by the shells themselves."""
from __future__ import annotations

import os
import pty
import re
import select
import shutil
import subprocess
import tempfile
import time
import unittest
from pathlib import Path

from manual.cli import SHELLS, all_files
from manual.tools import NAMES, tool

TIMEOUT = 20
OFFERS = {
    'rseq_run so': {'solo'},
    'rseq_run --v': {'--version'},
    'rseq_run pair --he': {'--help'},
    'rseq_run explore f.elf --po': {'--policy'},
    'rseq_run explore f.elf --policy st': {'stretch', 'stall'},
    'rseq_run outcomes f.elf --without ': {'local-steps'},
    'rseq_run make co': {'counter'},
    'rseq_run solo here': {'here.elf'},
    'rseq_run draw here.elf --after here': {'here.elf'},
    'lens shr': {'shrink'},
    'lens shrink here.elf --by ': {'text', 'end'},
    'lens why here': {'here.elf'},
    'lens list here.elf --aro': {'--around'},
    'sweep --exp': {'--expect'},
    'sweep --by ': {'draw', 'run'},
    'sweep here': {'here.elf'},
    'litmus com': {'compare'},
    'litmus run --sc': {'--scripts'},
    'rvcc --pico': {'--picolibc'},
    'rvcc -o prog.elf here': {'here.elf'},
}
"""What is offered of the words of a command line."""
BASH = """
source "$1"; shift
COMP_WORDS=("$@"); COMP_CWORD=$(($# - 1)); COMPREPLY=()
"_$1"
printf '%s\\n' "${COMPREPLY[@]}"
"""
ZSH = """
PS1='ready> '; unsetopt zle_bracketed_paste; fpath=({scripts} $fpath); autoload -U compinit; compinit -u -D
zstyle ':completion:*' menu no; unsetopt auto_menu list_beep; setopt no_list_ambiguous
for name in rseq_run lens sweep litmus rvcc; do functions[$name]='print -r -- "<""took:$*>"'; done
"""
TOOK = re.compile(r'<took:([^>]*)>')


class Completions(unittest.TestCase):
    def setUp(self) -> None:
        folder = tempfile.TemporaryDirectory()
        self.addCleanup(folder.cleanup)
        self.folder = Path(folder.name)
        for path, text in all_files().items():
            file = self.folder / path
            file.parent.mkdir(exist_ok=True)
            file.write_text(text)
        self.room = self.folder / 'room'
        self.room.mkdir()
        (self.room / 'here.elf').touch()

    def script(self, shell: str, name: str) -> Path:
        return self.folder / shell / {'bash': name, 'zsh': f'_{name}', 'fish': f'{name}.fish'}[shell]

    def call(self, *words: str) -> str:
        ran = subprocess.run(words, cwd=self.room, capture_output=True, text=True, timeout=TIMEOUT)
        self.assertEqual(ran.stderr, '')
        return ran.stdout

    def by_bash(self, words: list[str]) -> set[str]:
        return set(self.call('bash', '--norc', '-c', BASH, 'bash', str(self.script('bash', words[0])), *words).split())

    def test_each_shell_has_a_script_of_each_tool(self) -> None:
        for shell in SHELLS:
            for name in NAMES:
                self.assertTrue(self.script(shell, name).is_file())

    @unittest.skipUnless(shutil.which('bash'), 'there is no bash')
    def test_bash(self) -> None:
        for line, due in OFFERS.items():
            with self.subTest(line=line):
                self.assertEqual(self.by_bash(line.split(' ')), due)

    @unittest.skipUnless(shutil.which('bash'), 'there is no bash')
    def test_bash_offers_each_command_and_option(self) -> None:
        for name in NAMES:
            table = tool(name)
            if table.has_commands():
                words = {command.word for command in table.commands}
                self.assertLessEqual(words, self.by_bash([name, '']))
            for command in table.commands:
                due = {option for row in command.options for option in row.names if option.startswith('--')}
                with self.subTest(tool=name, command=command.word):
                    self.assertEqual(self.by_bash([name, *filter(None, [command.word]), '--']), due)

    @unittest.skipUnless(shutil.which('bash'), 'there is no bash')
    def test_bash_takes_a_value_behind_an_equals_sign(self) -> None:
        """The sign is a word of its own for bash."""
        self.assertEqual(self.by_bash(['lens', 'shrink', '--by', '=']), {'text', 'end'})
        self.assertEqual(self.by_bash(['lens', 'shrink', '--by', '=', 'e']), {'end'})

    @unittest.skipUnless(shutil.which('fish'), 'there is no fish')
    def test_fish(self) -> None:
        for line, due in OFFERS.items():
            script = self.script('fish', line.split()[0])
            said = self.call('fish', '--no-config', '-c', f'source {script}; complete -C "{line}"')
            with self.subTest(line=line):
                self.assertEqual({row.split('\t')[0] for row in said.splitlines()}, due)

    @unittest.skipUnless(shutil.which('zsh'), 'there is no zsh')
    def test_zsh(self) -> None:
        """A word that is the only one is put into the line, which the command then takes."""
        lines = {line: due for line, due in OFFERS.items() if len(due) == 1}
        with Terminal(self.room) as terminal:
            terminal.ask(ZSH.format(scripts=self.folder / 'zsh'))
            for line, due in lines.items():
                with self.subTest(line=line):
                    took = terminal.complete(line)
                    self.assertEqual(took.split()[-1], *due)


class Terminal:
    """A zsh on a terminal of its own."""

    def __init__(self, room: Path) -> None:
        self.room = room

    def __enter__(self) -> Terminal:
        self.process, self.end = pty.fork()
        if self.process == 0:
            os.chdir(self.room)
            os.execvpe('zsh', ['zsh', '-f', '-i'], {**os.environ, 'TERM': 'dumb', 'HOME': str(self.room)})
        return self

    def __exit__(self, *_: object) -> None:
        os.close(self.end)
        os.waitpid(self.process, 0)

    def ask(self, script: str) -> None:
        os.write(self.end, script.strip().encode() + b'\nprint -r -- "<""took:ready>"\n')
        self.taken()

    def complete(self, line: str) -> str:
        """What the command takes where a person writes a line, asks for its end, and sends it."""
        os.write(self.end, line.encode() + b'\t\n')
        return self.taken()

    def taken(self) -> str:
        text, last = '', time.monotonic() + TIMEOUT
        while time.monotonic() < last:
            ready, _, _ = select.select([self.end], [], [], 0.1)
            text += os.read(self.end, 1 << 16).decode(errors='replace') if ready else ''
            if found := TOOK.search(text):
                return found[1]
        raise AssertionError(f'zsh said {text!r}')


if __name__ == '__main__':
    unittest.main()

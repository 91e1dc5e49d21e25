"""How gdb comes to a run and goes: a gdb that is started, one that connects, one with a pipe, an editor's words; and
what is wrong with a call."""
from __future__ import annotations

import os
import re
import signal
import socket
import subprocess
import tempfile
import time
import unittest
from pathlib import Path

from .common import EXAMPLES, FENCED, FOUND, LENS, PETERSON, ROOT, TIMEOUT, lens, needs_program
from .gdb_terminal import Terminal
from .recorded_runs import GDB, needs_gdb

PACKET = b'$%s#%02x'
ANSWER = re.compile(rb'\$(?!O[0-9a-f])[^#$]*#[0-9a-f]{2}$')
"""A packet at the end of what came that isn't a text for the user."""


def packet(content: bytes) -> bytes:
    return PACKET % (content, sum(content) & 0xFF)


class Listening:
    """`lens gdb --listen` with a free port, until it is ended."""

    def __init__(self, *words: object):
        line = [LENS, 'gdb', *words, '--listen', '127.0.0.1:0']
        self.ran = subprocess.Popen(list(map(str, line)), stdout=subprocess.PIPE, text=True)
        assert self.ran.stdout
        self.line = self.ran.stdout.readline()
        self.port = int(self.line.rpartition(':')[2])

    def __enter__(self) -> 'Listening':
        return self

    def __exit__(self, *_: object) -> None:
        self.ran.terminate()
        self.ran.wait(TIMEOUT)
        assert self.ran.stdout
        self.ran.stdout.close()


def asked(port: int, *contents: bytes) -> bytes:
    """What a stub answers to packets, without acknowledging them."""
    found = b''
    with socket.create_connection(('127.0.0.1', port), TIMEOUT) as link:
        for content in contents:
            link.sendall(packet(content))
            while not ANSWER.search(found):
                found += link.recv(4096)
    return found


class Room(unittest.TestCase):
    def setUp(self) -> None:
        made = tempfile.TemporaryDirectory()
        self.addCleanup(made.cleanup)
        self.room = Path(made.name)

    def program(self, text: str) -> Path:
        """A program of the shell."""
        path = self.room / 'program'
        path.write_text(f'#!/bin/sh\n{text}\n')
        path.chmod(0o755)
        return path


@needs_program
class WrongCalls(Room):
    def refused(self, *words: object) -> str:
        """The one line that a call is refused with."""
        answer = lens('gdb', *words)
        said = answer.stderr.decode()
        self.assertEqual((answer.returncode, answer.stdout, said.count('\n')), (2, b'', 1), said)
        return said.rstrip('\n')

    @needs_gdb
    def test_runs(self) -> None:
        """Of another file, with too few harts, cut off, without steps, and none."""
        cut, empty = self.room / 'cut.output', self.room / 'empty.script'
        cut.write_bytes(FOUND.read_bytes()[:2000])
        empty.write_bytes(b'')
        other = f'lens: {FOUND} isn\'t a run of {FENCED} under these limits: step '
        self.assertTrue(self.refused(FOUND, FENCED).startswith(other))
        self.assertIn('step 1 can\'t', self.refused(FOUND, PETERSON, '--harts', 1))
        self.assertIn('it is cut off', self.refused(cut, PETERSON))
        self.assertEqual(self.refused(empty, PETERSON), f'lens: {empty} has no steps')
        self.assertEqual(self.refused(PETERSON), 'lens: either RUN or --seed is wanted')
        self.assertIn('No such file', self.refused(self.room / 'none', PETERSON))

    def test_gdbs(self) -> None:
        """None, one without Python, one that doesn't know RISC-V."""
        none = self.room / 'none'
        hint = '(apt-get install gdb-multiarch; --gdb names another)'
        self.assertEqual(
            self.refused(FOUND, PETERSON, '--gdb', none), f'lens: {none}: No such file or directory {hint}'
        )
        bare = self.program('echo "Python scripting is not supported in this copy of GDB."')
        said = f'lens: {bare} has no Python, or is no gdb (--gdb names another)'
        self.assertEqual(self.refused(FOUND, PETERSON, '--gdb', bare), said)
        own = self.program('echo \'Undefined item: "riscv:rv64".\'; echo it has Python')
        said = f'lens: {own} doesn\'t know RISC-V (gdb-multiarch does; --gdb names another)'
        self.assertEqual(self.refused(FOUND, PETERSON, '--gdb', own), said)

    def test_ports(self) -> None:
        with socket.create_server(('127.0.0.1', 0)) as taken:
            port = taken.getsockname()[1]
            said = self.refused(FOUND, PETERSON, '--listen', f'127.0.0.1:{port}')
        self.assertEqual(said, f'lens: 127.0.0.1:{port}: Address already in use')
        for words in ('x', '127.0.0.1:x', ':70000', ''):
            with self.subTest(words=words):
                wrong = f'lens gdb: --listen: {words!r} is no HOST:PORT (`lens gdb --help` says the words)'
                self.assertEqual(self.refused(FOUND, PETERSON, '--listen', words), wrong)

    def test_words(self) -> None:
        self.assertIn('of no use', self.refused(FOUND, PETERSON, '--pipe', '--', '-nx'))
        self.assertIn('not allowed with', self.refused(FOUND, PETERSON, '--pipe', '--listen', '1'))


@needs_program
class WithoutGdb(unittest.TestCase):
    def test_one_after_another(self) -> None:
        """Each that connects begins at the beginning, and one that goes without a word is no matter."""
        with Listening(FOUND, PETERSON) as there:
            self.assertRegex(there.line, r'^listening on 127\.0\.0\.1:[0-9]+\n$')
            for _ in range(2):
                self.assertIn(b'T05thread:1;20:ec01010000000000;', asked(there.port, b'?'))
                self.assertIn(b'replaylog:end', asked(there.port, b'vCont;c'))

    def test_a_pipe(self) -> None:
        stdin = packet(b'QStartNoAckMode') + packet(b'?') + packet(b'vCont;c') + packet(b'k')
        answer = lens('gdb', FOUND, PETERSON, '--pipe', stdin=stdin)
        self.assertEqual((answer.returncode, answer.stderr), (0, b''))
        self.assertTrue(answer.stdout.startswith(b'+$OK#9a$T05thread:1;20:ec01010000000000;'))
        self.assertIn(b'$T05replaylog:end;thread:1;', answer.stdout)

    def test_a_pipe_that_ends(self) -> None:
        answer = lens('gdb', '--seed', 4, PETERSON, '--pipe', stdin=packet(b'?')[:3])
        self.assertEqual((answer.returncode, answer.stdout, answer.stderr), (0, b'', b''))


@needs_program
class GdbsEnd(Room):
    def test_its_status(self) -> None:
        """That of gdb, also where a signal ended it; then nothing is left."""
        for end, status in {'exit 7': 7, 'kill -SEGV $$': 128 + signal.SIGSEGV}.items():
            gdb = self.program(f'case "$*" in *architecture*) echo it has Python;; *) {end};; esac')
            with self.subTest(end=end):
                self.assertEqual(lens('gdb', FOUND, PETERSON, '--gdb', gdb).returncode, status)

    def test_a_signal_ends_both(self) -> None:
        number = self.room / 'number'
        there = f'echo $$ > {number}; exec sleep 1000'
        gdb = self.program(f'case "$*" in *architecture*) echo it has Python;; *) {there};; esac')
        ran = subprocess.Popen([LENS, 'gdb', str(FOUND), str(PETERSON), '--gdb', str(gdb)])
        last = time.monotonic() + TIMEOUT
        while not (number.exists() and number.read_text().strip()) and time.monotonic() < last:
            time.sleep(0.05)
        ran.terminate()
        self.assertEqual(ran.wait(TIMEOUT), 128 + signal.SIGTERM)
        with self.assertRaises(ProcessLookupError):
            os.kill(int(number.read_text()), 0)


@needs_program
@needs_gdb
class WithGdb(unittest.TestCase):
    def test_a_seed(self) -> None:
        """The run is drawn by the way."""
        terminal = Terminal(['--seed', '4', PETERSON], [])
        self.assertIn('(The run ends here, after step', terminal.ask('continue'))
        self.assertEqual(terminal.close(), 0)

    def test_words_for_gdb(self) -> None:
        words = ('--', '-nx', '-batch', '-ex', 'break add', '-ex', 'continue')
        answer = lens('gdb', FOUND, PETERSON, *words)
        self.assertEqual(answer.returncode, 0, answer.stderr)
        self.assertIn(b'hit Breakpoint 1, add () at peterson/peterson.c:31', answer.stdout)

    def test_frames_of_handlers(self) -> None:
        """From a handler through the frame of the signal to the line that was interrupted."""
        folder = EXAMPLES / 'signal_in_sequence'
        terminal = Terminal([folder / 'inside.output', folder / 'signal_in_sequence.elf'], [])
        terminal.ask('handle SIGUSR1 nostop noprint')
        terminal.ask('break count_signal')
        terminal.ask('continue')
        shown = terminal.ask('bt')
        terminal.close()
        self.assertRegex(shown, r'#0  count_signal .*\n#1  .*3fffff0000 in .*\n#2 .* addv ')

    def test_frames_of_handlers_with_more_to_read(self) -> None:
        """With SA_SIGINFO the registers lie elsewhere in the frame."""
        terminal = Terminal(['--seed', '1', EXAMPLES / 'segv_info' / 'segv_info.elf'], [])
        terminal.ask('handle all nostop noprint')
        terminal.ask('break mend')
        terminal.ask('continue')
        shown = terminal.ask('bt')
        terminal.close()
        self.assertRegex(shown, r'#0  mend .*\n#1  .*3fffff0008 in .*\n#2 .* main ')

    def test_help_and_completion(self) -> None:
        terminal = Terminal([FOUND, PETERSON], [])
        self.assertIn('Go to the place before a step of the run: goto N, or goto end.', terminal.ask('help goto'))
        self.assertEqual(terminal.ask('complete view m'), 'view memory\n')
        self.assertEqual(terminal.ask('complete goto e'), 'goto end\n')
        self.assertEqual(terminal.ask('complete writer cou'), 'writer count\n')
        self.assertIn('No symbol "nobody" in current context.', terminal.ask('writes nobody'))
        self.assertIn('there is no step 900: the run has the steps 1 to 276', terminal.ask('goto 900'))
        for command in ('step', 'harts', 'why', 'writer', 'writes', 'events', 'next-call', 'view', 'watch'):
            self.assertIn(f'monitor {command}', terminal.ask('monitor help'))
        terminal.close()

    def test_nothing_can_be_changed(self) -> None:
        terminal = Terminal([FOUND, PETERSON], [])
        self.assertIn('Cannot access memory', terminal.ask('set var count = 7'))
        self.assertEqual(terminal.ask('print count'), '$1 = 0\n')
        terminal.close()


EDITOR = (
    ('-list-target-features', r'\^done,features=\[.*"reverse"\]'),
    ('-break-insert add', r'\^done,bkpt=\{number="1".*line="31"'),
    ('-exec-continue', r'\*stopped,reason="breakpoint-hit".*line="31".*thread-id="2".*core="0"'),
    ('-thread-info', r'\^done,threads=\[\{id="1",.*details="on hart 1, .*core="1".*current-thread-id="2"'),
    ('-stack-list-frames', r'\^done,stack=\[frame=\{level="0".*func="add"'),
    ('-exec-next', r'\*stopped,reason="end-stepping-range"'),
    ('-thread-select 2', r'\^done,new-thread-id="2"'),
    ('-exec-step-instruction --reverse', r'\*stopped,.*thread-id="2"'),
    ('-exec-continue --reverse', r'\*stopped,reason="breakpoint-hit".*line="31"'),
    ('-data-evaluate-expression count', r'\^done,value="0"'),
    ('-exec-continue --reverse', r'No more reverse-execution history.*\n(.*\n)*\*stopped,.*thread-id="1"'),
)
"""What an editor with gdb's machine interface asks, and what it is answered."""


@needs_program
@needs_gdb
class Editors(unittest.TestCase):
    def test_the_machine_interface(self) -> None:
        with Listening(FOUND, PETERSON) as there:
            commands = [f'-target-select remote 127.0.0.1:{there.port}', *(command for command, _ in EDITOR)]
            answers = self.spoken(commands)
        self.assertRegex(answers[0], r'\^connected')
        for (command, due), answer in zip(EDITOR, answers[1:]):
            self.assertRegex(answer, due, command)

    def spoken(self, commands: list[str]) -> list[str]:
        """What gdb says of each command, up to the stop of one that resumes."""
        words = [GDB, '-nx', '-q', '-i', 'mi', '-x', str(ROOT / 'tools/lens/lens/gdb_side.py'), str(PETERSON)]
        answers = []
        with subprocess.Popen(words, stdin=subprocess.PIPE, stdout=subprocess.PIPE, text=True) as gdb:
            assert gdb.stdin and gdb.stdout
            for command in commands:
                gdb.stdin.write(f'{command}\n')
                gdb.stdin.flush()
                last = '*stopped' if command.startswith('-exec') else '^'
                said = ''
                while not said.rpartition('\n')[2].startswith(last):
                    said += '\n' + gdb.stdout.readline().rstrip('\n')
                answers.append(said)
            gdb.stdin.write('-gdb-exit\n')
        return answers


if __name__ == '__main__':
    unittest.main()

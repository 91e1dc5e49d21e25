"""What the command says where it can't do what it is asked, and that it leaves nothing behind then."""
from __future__ import annotations

import signal
import subprocess
import time
import unittest

from .common import MUSL, TIMEOUT, Room, needs_packages


class Refusals(Room):
    def check(self, status: int, said: str, *words: object) -> None:
        """The command ends with a status and begins what it says so; the folder `new` isn't there, nor
        anything else that wasn't."""
        before = sorted(self.room.iterdir())
        ended = self.musl(*words)
        self.assertEqual((ended.returncode, ended.stdout), (status, ''), ended.stderr)
        self.assertTrue(ended.stderr.startswith(f'musl: {said}'), ended.stderr)
        self.assertEqual(sorted(self.room.iterdir()), before)

    def test_words(self) -> None:
        self.check(2, 'the following arguments are required: FOLDER')
        self.check(2, "'two' is one word too many", 'one', 'two')

    def test_places(self) -> None:
        (self.room / 'full').mkdir()
        (self.room / 'full' / 'file').touch()
        self.check(2, f'{self.room}/full isn\'t empty', 'full')
        self.check(2, f'{self.room}/full/file is no folder', 'full/file')
        self.check(2, f'{self.room}/none is no folder in which', 'none/new')
        self.check(2, f'{self.room}/a b: make takes no such path', 'a b')

    @needs_packages
    def test_a_package_that_cannot_be_had(self) -> None:
        self.stand_in('apt-get', 'echo "E: nobody answers" >&2', 'exit 100')
        self.check(3, 'no source package musl can be had from here: apt-get source musl:\n    E: nobody', 'new')

    @needs_packages
    def test_a_package_that_cannot_be_built(self) -> None:
        configure = 'echo "echo a compiler lacks; exit 1" > musl-1/configure; chmod +x musl-1/configure'
        self.stand_in('apt-get', f'case "$*" in *source*) mkdir musl-1; {configure} ;; esac')
        self.check(1, 'musl can\'t be configured:\n    a compiler lacks\n', 'new')

    @needs_packages
    def test_a_tool_that_is_not_there(self) -> None:
        path = self.room / 'stand-ins'
        for tool in ('python3', 'env', 'sh'):
            self.stand_in(tool, f'exec /usr/bin/{tool} "$@"')
        ended = subprocess.run([MUSL, 'new'], cwd=self.room, env={'PATH': str(path)}, capture_output=True, text=True)
        self.assertEqual(ended.returncode, 2)
        self.assertRegex(ended.stderr, r'^musl: there is no .*no make \(apt-get install .*dpkg-dev.* make\)\n$')
        self.assertFalse((self.room / 'new').exists())

    @needs_packages
    def test_a_signal(self) -> None:
        """Nothing is left where the command is ended, and what it called ends too."""
        self.stand_in('apt-get', f'touch {self.room}/begun', f'sleep {TIMEOUT}')
        (self.room / 'place').mkdir()
        words = [MUSL, 'place/new']
        with subprocess.Popen(words, cwd=self.room, env=self.environment(), stderr=subprocess.PIPE) as process:
            while process.poll() is None and not (self.room / 'begun').exists():
                time.sleep(0.05)
            process.send_signal(signal.SIGTERM)
            process.communicate(timeout=TIMEOUT)
        self.assertEqual(process.returncode, 143)
        self.assertEqual(list((self.room / 'place').iterdir()), [])


if __name__ == '__main__':
    unittest.main()

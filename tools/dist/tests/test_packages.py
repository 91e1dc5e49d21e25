"""Both packages: what is in them, that two builds are the same bytes, and that the unpacked folder works where it lies."""
from __future__ import annotations

import os
import re
import shutil
import subprocess
import tarfile
import tempfile
import unittest
from pathlib import Path

from dist.archive import tar_file
from dist.contents import COMMANDS, File, c_library, is_taken
from dist.debian import HOME
from lens.machine import BUILT
from manual.release import release

from .common import DEB, EPOCH, FIRST_ANSWERS, FIRST_COMMANDS, ROOT, STAND_IN, TAR, TIMEOUT, dist, needs_program, only

needs_dpkg = unittest.skipUnless(shutil.which('dpkg-deb'), 'there is no dpkg-deb')
FIRST = 'tools/bin/lens', 'examples/hello/hello.elf', 'examples/common/calls.h', 'docs/index.md', 'README.md', 'share/man/man1/lens.1'


class Contents(unittest.TestCase):
    def test_what_is_taken(self) -> None:
        for path in ('README.md', 'tools/lens/lens/cli.py', 'examples/real/build.py', 'docs/how-to/INSTALL.md'):
            self.assertTrue(is_taken(path), path)
        for path in ('crates.txt', 'tools/lens/tests/test_page.py', 'examples/check.py', 'tools/bin/prove', 'README.md.orig'):
            self.assertFalse(is_taken(path), path)

    def test_the_page_names_the_files_of_this_version(self) -> None:
        page = (ROOT / 'docs' / 'how-to' / 'INSTALL.md').read_text()
        self.assertEqual(set(re.findall(r'rseq-run[_-](\d+\.\d+\.\d+)', page)), {release().version})

    def test_the_c_library(self) -> None:
        self.assertEqual(c_library(b'.. GLIBC_2.4 GLIBC_2.34 GLIBC_2.17'), '2.34')

    def test_the_order_of_files_doesnt_matter(self) -> None:
        files = {'b/x': File(b'1'), 'a': File(b'2', is_executable=True), 'c': File(link='a')}
        turned = dict(reversed(files.items()))
        self.assertEqual(tar_file(files, 'f', 7), tar_file(turned, 'f', 7))


@needs_dpkg
class Packages(unittest.TestCase):
    room: tempfile.TemporaryDirectory[str]
    folder: Path
    ran: subprocess.CompletedProcess[str]

    @classmethod
    def setUpClass(cls) -> None:
        cls.room = tempfile.TemporaryDirectory()
        cls.folder = Path(cls.room.name) / 'made'
        cls.ran = dist(cls.folder, '--program', str(STAND_IN))

    @classmethod
    def tearDownClass(cls) -> None:
        cls.room.cleanup()

    def test_it_says_what_it_made(self) -> None:
        self.assertEqual((self.ran.returncode, self.ran.stderr), (0, ''))
        check = subprocess.run(['sha256sum', '--check', '--quiet'], input=self.ran.stdout, text=True)
        self.assertEqual(check.returncode, 0)

    def test_two_builds_are_the_same_bytes(self) -> None:
        again = Path(self.room.name) / 'again'
        mask = os.umask(0o077)
        self.addCleanup(os.umask, mask)
        dist(again, '--program', str(STAND_IN))
        for pattern in (DEB, TAR):
            self.assertEqual(only(self.folder, pattern).read_bytes(), only(again, pattern).read_bytes(), pattern)

    def test_the_time_is_that_of_the_variable(self) -> None:
        with tarfile.open(only(self.folder, TAR)) as archive:
            self.assertEqual({member.mtime for member in archive}, {int(EPOCH)})

    def test_the_tar_file(self) -> None:
        with tarfile.open(only(self.folder, TAR)) as archive:
            names = {member.name.partition('/')[2] for member in archive}
        self.assertLessEqual({*FIRST, *(f'bin/{name}' for name in COMMANDS)}, names)
        self.assertFalse([name for name in names if 'tests' in name.split('/') or name.endswith('.pyc')])

    def test_the_package(self) -> None:
        package = str(only(self.folder, DEB))
        listed = subprocess.run(['dpkg-deb', '--contents', package], capture_output=True, text=True, check=True).stdout
        names = {line.split(None, 5)[5].partition(' -> ')[0].removeprefix('./') for line in listed.splitlines()}
        due = {f'usr/bin/{name}' for name in COMMANDS} | {f'{HOME}/{path}' for path in FIRST if not path.startswith('share/')}
        self.assertLessEqual(due, names)
        self.assertEqual({line.split()[1] for line in listed.splitlines()}, {'root/root'})

    def test_what_cant_be_made(self) -> None:
        cases = {
            ('--program', '/none'): '/none: No such file or directory',
            ('--program', str(ROOT / 'LICENSE')): f'{ROOT / "LICENSE"}: this is no program for x86-64',
        }
        for words, said in cases.items():
            ran = dist(Path(self.room.name) / 'none', *words)
            self.assertEqual((ran.returncode, ran.stderr), (2, f'dist: {said}\n'))
        ran = dist(Path(self.room.name) / 'none', '--program', str(STAND_IN), epoch='soon')
        self.assertEqual((ran.returncode, ran.stderr), (2, "dist: SOURCE_DATE_EPOCH is 'soon', which is no number of seconds\n"))

    @unittest.skipUnless(shutil.which('lintian'), 'there is no lintian')
    def test_lintian_has_nothing_to_say(self) -> None:
        call = ['lintian', '--fail-on', 'error,warning', str(only(self.folder, DEB))]
        ran = subprocess.run(call, capture_output=True, text=True, timeout=TIMEOUT)
        self.assertEqual((ran.returncode, ran.stdout), (0, ''), ran.stderr)


@needs_dpkg
@needs_program
class Unpacked(unittest.TestCase):
    def test_a_first_example(self) -> None:
        with tempfile.TemporaryDirectory() as name:
            folder = Path(name)
            dist(folder, '--program', str(BUILT))
            subprocess.run(['tar', '-xf', only(folder, TAR), '-C', name], check=True)
            [home] = (path for path in folder.iterdir() if path.is_dir())
            environment = {'PATH': f'{home}/bin:/usr/bin:/bin'}
            call = ['sh', '-c', FIRST_COMMANDS]
            ran = subprocess.run(call, cwd=home, env=environment, capture_output=True, text=True, timeout=TIMEOUT)
            self.assertEqual((ran.stdout, ran.stderr), (FIRST_ANSWERS, ''))


if __name__ == '__main__':
    unittest.main()

"""From an empty folder: musl, programs with pthreads, and a library, by the commands of docs/PROGRAMS.md."""
from __future__ import annotations

import shutil
import subprocess
import sys
import tempfile
import unittest
from pathlib import Path

from .common import PROGRAM, ROOT, TIMEOUT, commands, needs_packages, needs_program, section

PAGE = ROOT / 'docs' / 'PROGRAMS.md'
HEADING = 'Your program with pthreads'
SOURCES = sorted((ROOT / 'examples' / 'pthreads').glob('*.c'))
RUNS, STEPS = 200, 1000000
UNREACHED = 3


@needs_packages
@needs_program
class Road(unittest.TestCase):
    room: Path
    built: list[tuple[str, str, subprocess.CompletedProcess[str]]]

    @classmethod
    def setUpClass(cls) -> None:
        """Runs the commands of the page one behind the other; they end at the first one that fails."""
        made = tempfile.TemporaryDirectory()
        cls.addClassCleanup(made.cleanup)
        cls.room, cls.built = Path(made.name), []
        for command, below in commands(section(PAGE.read_text(), HEADING)):
            ran = cls.shell(f'set -e; {command}')
            if ran.returncode == UNREACHED:
                print(f'tools/musl: left out from here on: {ran.stderr.strip()}', file=sys.stderr)
                raise unittest.SkipTest(ran.stderr.strip())
            cls.built.append((command, below, ran))
            if ran.returncode:
                break

    @classmethod
    def shell(cls, command: str) -> subprocess.CompletedProcess[str]:
        here = command.replace('REPOSITORY/crates/rseq_run/out/rseq_run', str(PROGRAM))
        here = here.replace('REPOSITORY', str(ROOT))
        return subprocess.run(['sh', '-c', here], cwd=cls.room, capture_output=True, text=True, timeout=TIMEOUT)

    def test_the_commands_of_the_page(self) -> None:
        for command, below, ran in self.built:
            with self.subTest(command=command):
                self.assertEqual((ran.returncode, ran.stdout.split()), (0, below.split()), ran.stderr)
        self.assertEqual(len(self.built), 5)

    def test_what_was_tried(self) -> None:
        """The programs of the page's table are those that are there, and each has one outcome."""
        page = section(PAGE.read_text(), HEADING)
        self.assertEqual(len(SOURCES), page.count('.c` | '))
        for source in SOURCES:
            with self.subTest(source=source.name):
                self.assertIn(f'| `{source.name}` | ', page)
                text = self.explored(source)
                self.assertTrue(text.startswith('outcomes 1\n') and '\nend exit 0\n' in text, text[:400])

    def explored(self, source: Path) -> str:
        elf = self.room / source.stem
        built = self.shell(f'musl/bin/rvcc -Wall -Wextra -Werror -o {elf} {source}')
        self.assertEqual((built.returncode, built.stderr), (0, ''))
        return self.shell(f'{PROGRAM} explore {elf} --runs {RUNS} --steps {STEPS} --jobs 1').stdout

    def test_a_second_call_builds_nothing(self) -> None:
        """It does without any tool that a build needs."""
        tools = self.room / 'no tools'
        tools.mkdir()
        self.addCleanup(shutil.rmtree, tools)
        (tools / 'python3').symlink_to(sys.executable)
        ran = self.shell(f'PATH="{tools}" {ROOT}/tools/bin/musl musl')
        self.assertEqual((ran.returncode, ran.stdout, ran.stderr), (0, 'musl/bin/rvcc compiles with musl 1.2.3\n', ''))

    def test_nothing_else_is_left(self) -> None:
        self.assertEqual([path.name for path in self.room.iterdir() if path.name.startswith('.')], [])
        self.assertEqual({path.name for path in (self.room / 'musl' / 'src').iterdir() if not path.name[:1].isalpha()}, set())

    def test_its_lines_are_found(self) -> None:
        """The debug information of musl names its sources where they are."""
        told = self.shell(f'{ROOT}/tools/bin/lens list --seed 1 prog --only calls --harts 1 2>/dev/null | grep -c __asm_syscall')
        self.assertGreater(int(told.stdout or 0), 0)

    def test_a_compiler_for_questions(self) -> None:
        """As a `configure` asks it."""
        for question in ('--version', '-dumpmachine', '-v'):
            self.assertEqual(self.shell(f'musl/bin/rvcc {question}').returncode, 0, question)
        ran = self.shell('echo "int main(void) { return 0; }" > some.c; musl/bin/rvcc -shared -o some some.c')
        self.assertIn('rvcc: with -shared it may become a file that the machine refuses', ran.stderr)

    def test_moved_and_lost(self) -> None:
        """The folder may be moved; where this repository was, its compiler says what to do."""
        script = (self.room / 'musl' / 'bin' / 'rvcc').read_text()
        (self.room / 'lost').write_text(script.replace(str(ROOT), f'{self.room}/nowhere'))
        ran = self.shell('sh lost -o it prog.c')
        self.assertEqual((ran.returncode, ran.stderr), (2, f'rvcc: there is no {self.room}/nowhere/examples/common/rvcc any more: call tools/bin/musl again\n'))


if __name__ == '__main__':
    unittest.main()

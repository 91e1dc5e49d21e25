"""The pages with commands: run one behind the other as they stand there, the commands print what stands below
them."""
import os
import re
import shutil
import subprocess
import tempfile
import textwrap
import unittest
from pathlib import Path

from .common import PROGRAM, ROOT, TIMEOUT, needs_objdump, needs_program

PAGES = {
    'README.md': 3,
    'docs/how-to/LITMUS_FILES.md': 7,
    'docs/how-to/MANY_MACHINES.md': 1,
    'docs/how-to/REPORT.md': 3,
    'docs/how-to/SCRIPTS.md': 6,
    'docs/how-to/TESTS_IN_CI.md': 7,
    'docs/reference/COMMANDS.md': 2,
    'docs/reference/EXPLORE.md': 3,
    'docs/reference/FORMATS.md': 10,
    'docs/reference/KERNEL.md': 3,
    'docs/reference/OUTCOMES.md': 2,
    'docs/reference/STATUSES.md': 1,
    'docs/tutorial/FINDING_A_BUG.md': 33,
    'docs/tutorial/REAL_PROGRAMS.md': 18,
    'tools/lens/README.md': 15,
}
"""How many commands of each are tried at least."""
BLOCK = re.compile(r'(?:^ {4}.*\n|^\n(?= {4}))+', re.MULTILINE)
COMMANDS = (
    'tools/bin/lens ',
    'tools/bin/litmus ',
    'tools/bin/sweep ',
    'crates/rseq_run/out/rseq_run ',
    'cat /tmp/',
    'D=examples',
    'P=examples',
    'P=crates',
    'head -n',
    'printf',
    'sed -n',
    'echo ',
    'grep ',
)
NONE = ('tools/bin/lens why RUN ELF', 'tools/bin/sweep lock.elf ')
"""How a block begins that shows the words of commands."""
PROGRAMS = ROOT / 'docs' / 'PROGRAMS.md'
FIRST = ROOT / 'docs' / 'tutorial' / 'FIRST_PROGRAM.md'
COMPILER, LIBRARY = 'riscv64-unknown-elf-gcc', Path('/usr/lib/picolibc/riscv64-unknown-elf')
CLANG = 'RVCC=clang'
MUSL = 'musl/bin/rvcc'
"""The programs that are built by it are tried by tools/musl."""
SAID = re.compile(r'^outcome \d+: end .*\n', re.MULTILINE)
"""What `explore` and `outcomes` say of what they find, where they take longer than a second: a slow machine has more of
it."""
CALL = re.compile(r'^REPOSITORY/crates/rseq_run/out/rseq_run .*\n', re.MULTILINE)


def blocks(text):
    """The indented blocks of a page, parted at empty lines too."""
    found = (part for block in BLOCK.findall(text) for part in re.split(r'\n(?=\n)', block))
    return [part.strip('\n') for part in found if part.strip()]


def is_command(part):
    return part.strip().startswith(COMMANDS) and not part.strip().startswith(NONE)


def words(text):
    return ' '.join(text.split())


def programs(text):
    """The commands of a page that build a program and run it, each with what stands below it; there may be
    a sentence between."""
    found = [textwrap.dedent(block).lstrip('\n') for block in BLOCK.findall(text)]
    for at, block in enumerate(found):
        if called := CALL.search(block):
            yield block[: called.end()], block[called.end() :] or found[at + 1]


needs_compiler = unittest.skipUnless(
    shutil.which(COMPILER) and LIBRARY.is_dir(), f'there is no {COMPILER} with picolibc'
)


@needs_program
@needs_objdump
class Page(unittest.TestCase):
    def test_their_commands(self):
        for page, least in PAGES.items():
            with self.subTest(page=page), tempfile.TemporaryDirectory() as name:
                room = Path(name)
                self.furnish(room)
                self.assertGreaterEqual(self.try_page(room, ROOT / page), least)
                picture = room / 'docs' / 'lost_addition.svg'
                self.assertEqual(picture.read_bytes(), (ROOT / 'docs' / picture.name).read_bytes())

    def try_page(self, room, page):
        """Tries the commands of a page in a room, and says how many they are."""
        parts = blocks(page.read_text())
        tried = [at for at, part in enumerate(parts) if is_command(part)]
        for at in tried:
            with self.subTest(command=words(parts[at])):
                self.check(room, parts[at], parts[at + 1] if at + 1 < len(parts) else '')
        return len(tried)

    @needs_compiler
    def test_their_programs(self):
        tried = [(command, below) for command, below in programs(PROGRAMS.read_text()) if MUSL not in command]
        self.assertEqual(len(tried), 5)
        self.assertEqual(sum('    check(' in command for command, _ in tried), 1)
        for command, below in tried:
            if CLANG not in command or shutil.which('clang') and shutil.which('ld.lld'):
                with self.subTest(command=command), tempfile.TemporaryDirectory() as name:
                    self.check_program(Path(name), command, below)

    def check_program(self, room, command, below):
        """Builds a program in a room of its own and runs it; what that prints begins with the block below."""
        here = command.replace('REPOSITORY/crates/rseq_run/out/rseq_run', str(PROGRAM))
        here = here.replace('REPOSITORY', str(ROOT))
        ran = subprocess.run(['sh', '-c', here], cwd=room, capture_output=True, text=True, timeout=TIMEOUT)
        self.assertEqual(words(ran.stdout)[: len(words(below))], words(below), ran.stderr)

    @needs_compiler
    def test_the_first_program(self):
        tried = 0
        with tempfile.TemporaryDirectory() as name:
            for found in BLOCK.findall(FIRST.read_text()):
                block = textwrap.dedent(found).strip('\n')
                command, _, below = (block, '', '') if block.startswith('cat >') else block.partition('\n\n')
                if not command.startswith('apt-get'):
                    self.check_program(Path(name), command, below)
                    tried += 1
        self.assertEqual(tried, 5)

    def furnish(self, room):
        """A copy of what the pages write to, beside the repository's tools, data and the program."""
        shutil.copytree(ROOT / 'examples', room / 'examples')
        (room / 'docs').mkdir()
        shutil.copy(ROOT / 'docs' / 'lost_addition.svg', room / 'docs')
        crate = room / 'crates' / 'rseq_run'
        (crate / 'out').mkdir(parents=True)
        (crate / 'out' / 'rseq_run').symlink_to(PROGRAM.resolve())
        for there in (Path('tools'), Path('crates/rseq_run/data'), Path('crates/worked_runs')):
            (room / there).symlink_to(ROOT / there)

    def check(self, room, command, below):
        """Runs a command; what it prints begins with the block below it, where that isn't the next
        command."""
        here = command.replace('/tmp/', f'{room}/')
        ran = subprocess.run(
            ['sh', '-c', here],
            cwd=room,
            capture_output=True,
            text=True,
            env={**os.environ, 'RSEQ_RUN': str(PROGRAM)},
            timeout=TIMEOUT,
        )
        if not below.strip().startswith(COMMANDS):
            printed = words(ran.stdout + SAID.sub('', ran.stderr)).replace(f'{room}/', '/tmp/')
            self.assertTrue(
                not printed or printed.startswith(words(below)),
                f'{printed[:400]}\nand not\n{words(below)[:400]}',
            )


if __name__ == '__main__':
    unittest.main()

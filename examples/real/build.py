#!/usr/bin/env python3
"""Builds the programs of this folder, over libraries from Debian's source packages.

    examples/real/build.py FOLDER [--linux]

FOLDER gets musl, the sources, and the ELF files: reclaim.c with liburcu's flavours memb and mb, each also over a liburcu that
one_wait.sed has changed. With --linux it also gets param_test of Linux's self-tests of rseq, as it is and changed by uncompared.sed;
for that the source package of Linux is fetched, which has 140 megabytes. A second call goes on where the first one ended.
"""
from __future__ import annotations

import os
import shutil
import sys
import tempfile
from pathlib import Path

HERE = Path(__file__).resolve().parent
ROOT = HERE.parents[1]
sys.path[:0] = [str(ROOT / 'tools' / name) for name in ('runs', 'lens', 'musl')]

from lens.command_line import Parser, end  # noqa: E402 (found by the line above)
from lens.faults import LensFault  # noqa: E402
from musl import debian  # noqa: E402
from musl.building import CROSS, compiler_in  # noqa: E402
from musl.commands import call, ended_by_sigterm  # noqa: E402

LIBURCU, LINUX = 'liburcu=0.13.2-1', 'linux=6.1.4-1'
"""The versions of Debian 12 of which the ELF files were built that lie here."""
FLAVOURS = {'memb': '-DRCU_MEMBARRIER', 'mb': '-DRCU_MB'}
SELF_TESTS = 'tools/testing/selftests'
ARGUMENTS = ('-t', '3', '-r', '20', '-T', 's')
"""Of param_test: three threads that each take the lock of their processor 20 times."""


class Workshop:
    """A folder in which the programs are built. Their debug information names sources from it, or from the repository, on."""

    def __init__(self, folder: Path):
        self.folder = folder
        self.rvcc = folder / 'musl' / 'bin' / 'rvcc'
        self.options = ['-fno-var-tracking', f'-ffile-prefix-map={ROOT}=.', f'-ffile-prefix-map={folder}=.']

    def compile(self, made: Path, cwd: Path, *words: object) -> None:
        """Calls the compiler in a folder."""
        self.call(cwd, self.rvcc, *self.options, '-Wl,--build-id=none', '-o', made, *words)

    def call(self, cwd: Path, *words: object) -> None:
        call([str(word) for word in words], cwd, ' '.join(str(word) for word in words[:1]))

    def source(self, package: str) -> Path:
        """The source of a package, unpacked; fetched where it isn't there."""
        name, _, version = package.partition('=')
        there = self.folder / f'{name}-{version.partition("-")[0]}'
        if not there.is_dir():
            with tempfile.TemporaryDirectory(dir=self.folder) as room:
                (unpacked := Path(room) / 'unpacked').mkdir()
                debian.fetch(package, unpacked, Path(room) / 'apt').replace(there)
        return there


def edit(source: Path, script: Path, made: Path) -> None:
    """Writes a file as it is after a script of sed, which has to change one line."""
    made.parent.mkdir(parents=True, exist_ok=True)
    made.write_text(call(['sed', '-E', '-f', str(script), str(source)], source.parent, 'sed'))
    before, after = source.read_text().splitlines(), made.read_text().splitlines()
    changed = sum(one != other for one, other in zip(before, after))
    if changed != 1 or len(before) != len(after):
        raise LensFault(f'{script.name} changes {changed} lines of {source}, and not one: is it another version?')


def build_musl(shop: Workshop) -> None:
    """Builds musl, and takes its debug information out, so that the programs stay small."""
    compiler_in(shop.folder / 'musl')
    objects = sorted(path for path in (shop.folder / 'musl' / 'lib').iterdir() if path.suffix in ('.a', '.o'))
    for path in objects:
        shop.call(shop.folder, f'{CROSS}objcopy', '--strip-debug', path)


def build_liburcu(shop: Workshop) -> Path:
    """The source of liburcu, built and installed beside it."""
    source, installed = shop.source(LIBURCU), shop.folder / 'urcu'
    if not (installed / 'include' / 'urcu.h').is_file():
        flags = f'CFLAGS=-O2 -g {" ".join(shop.options)}'
        words = ('--host=riscv64-linux-gnu', f'CC={shop.rvcc}', f'--prefix={installed}', '--disable-shared', flags)
        shop.call(source, 'sh', 'configure', *words)
        for part in ('src', 'include'):
            shop.call(source, 'make', f'-j{len(os.sched_getaffinity(0))}', '-C', part, 'install')
    return source


def build_reclaim(shop: Workshop) -> None:
    """reclaim.c over each flavour, right and with one wait."""
    source, wrong = build_liburcu(shop), shop.folder / 'liburcu-one_wait'
    edit(source / 'src' / 'urcu.c', HERE / 'one_wait.sed', wrong / 'urcu.c')
    headers = ('-I', source / 'src', '-I', source / 'include', '-include', source / 'include' / 'config.h')
    for name, flavour in FLAVOURS.items():
        changed = wrong / f'{name}.o'
        shop.compile(changed, wrong, '-c', *headers, flavour, 'urcu.c')
        urcu = shop.folder / 'urcu'
        words = (flavour, '-I', urcu / 'include', '-L', urcu / 'lib', '-Wall', '-Wextra', 'reclaim.c')
        libraries = (f'-lurcu-{name}', '-lurcu-common')
        shop.compile(shop.folder / f'reclaim_{name}.elf', HERE, *words, *libraries)
        shop.compile(shop.folder / f'reclaim_{name}_one_wait.elf', HERE, *words, changed, *libraries)


def self_tests(shop: Workshop) -> Path:
    """The self-tests of Linux, of whose source nothing else is unpacked."""
    there = shop.folder / f'linux-{LINUX.partition("=")[2].partition("-")[0]}' / SELF_TESTS
    if not (there / 'rseq').is_dir():
        with tempfile.TemporaryDirectory(dir=shop.folder) as room:
            debian.fetch_archives(LINUX, Path(room), Path(room) / 'apt')
            (archive,) = Path(room).glob('linux_*.orig.tar.*')
            parts = (f'*/{SELF_TESTS}/rseq/*', f'*/{SELF_TESTS}/kselftest.h')
            shop.call(shop.folder, 'tar', '-x', '-f', archive, '--wildcards', *parts)
    return there


def build_param_test(shop: Workshop) -> None:
    """param_test, right and without its compare."""
    right, wrong = self_tests(shop), shop.folder / 'linux-uncompared'
    if not wrong.is_dir():
        shutil.copytree(right, wrong)
    edit(right / 'rseq' / 'rseq-riscv.h', HERE / 'uncompared.sed', wrong / 'rseq' / 'rseq-riscv.h')
    words = ', '.join(f'"{word}"' for word in ARGUMENTS)
    for folder, name in ((right, 'param_test'), (wrong, 'param_test_uncompared')):
        cwd = folder / 'rseq'
        shop.compile(shop.folder / 'param_test.o', cwd, '-c', '-I.', '-Dmain=main_of_program', 'param_test.c')
        shop.compile(shop.folder / 'arguments.o', HERE, '-c', f'-DARGUMENTS={words}', 'arguments.c')
        objects = (shop.folder / 'param_test.o', shop.folder / 'arguments.o')
        shop.compile(shop.folder / f'{name}.elf', cwd, '-I.', *objects, 'rseq.c')
    for path in shop.folder.glob('*.o'):
        path.unlink()


def command() -> int:
    parser = Parser(prog='build.py', description='Builds the programs of examples/real in FOLDER.')
    parser.add_argument('folder', metavar='FOLDER')
    parser.add_argument('--linux', action='store_true', help='also those of Linux, whose source has 140 megabytes')
    asked = parser.parse_args()
    shop = Workshop(Path(asked.folder).resolve())
    shop.folder.mkdir(exist_ok=True)
    with ended_by_sigterm():
        build_musl(shop)
        build_reclaim(shop)
        if asked.linux:
            build_param_test(shop)
    print('\n'.join(str(path) for path in sorted(shop.folder.glob('*.elf'))))
    return 0


if __name__ == '__main__':
    sys.exit(end('build.py', command))

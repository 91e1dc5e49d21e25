"""musl in a folder, with the compiler that uses it."""
from __future__ import annotations

import os
import re
import shlex
import shutil
import tempfile
from pathlib import Path

from lens.faults import LensFault

from . import debian
from .commands import call, demand

RVCC = Path(__file__).resolve().parents[3] / 'examples' / 'common' / 'rvcc'
CROSS = 'riscv64-linux-gnu-'
MACHINE = ('-march=rv64ima', '-mabi=lp64')
BARE_GCC = 'riscv64-unknown-elf-gcc'
"""The compiler whose libgcc is for this machine: the other one's is for a processor with floating point."""
TOOLS = {
    **debian.TOOLS,
    f'{CROSS}gcc': 'gcc-riscv64-linux-gnu',
    BARE_GCC: 'gcc-riscv64-unknown-elf',
    'make': 'make',
}
STAMP = 'version'
"""The file of a folder that says which musl is in it; it is written last."""
PLAIN = re.compile(r'[\w./+@~-]*', re.ASCII)
"""A path that make and a shell take as it is."""


def compiler_in(folder: Path) -> str:
    """The version of the musl in a folder, with its compiler beside it: it is built where it isn't there."""
    if not is_built(folder):
        check_place(folder)
        demand(TOOLS)
        with tempfile.TemporaryDirectory(prefix='.musl-', dir=folder.parent) as room:
            build(Path(room), folder)
    write_compiler(folder)
    return (folder / STAMP).read_text().strip()


def source_in(folder: Path, package: str) -> Path:
    """The source of a package beside that of musl: fetched where no version of it is there."""
    name = package.partition('=')[0]
    there = sorted(path for path in (folder / 'src').glob(f'{name}-[0-9]*') if path.is_dir())
    if there:
        return there[-1]
    demand(debian.TOOLS)
    with tempfile.TemporaryDirectory(prefix='.source-', dir=folder) as room:
        unpacked = Path(room) / 'unpacked'
        unpacked.mkdir()
        source = debian.fetch(package, unpacked, Path(room) / 'apt')
        return source.replace(folder / 'src' / source.name)


def is_built(folder: Path) -> bool:
    """Whether this command has built musl in a folder before."""
    return (folder / STAMP).is_file() and (folder / 'lib' / 'libc.a').is_file()


def check_place(folder: Path) -> None:
    """Refuses a folder that can't be made, or has files of somebody else."""
    if not PLAIN.fullmatch(str(folder)):
        raise LensFault(f'{folder}: make takes no such path: only letters, digits and _ . / + @ ~ -')
    if folder.exists() and not folder.is_dir():
        raise LensFault(f'{folder} is no folder')
    if folder.is_dir() and any(folder.iterdir()):
        raise LensFault(f'{folder} isn\'t empty, and musl wasn\'t built there: name a new folder')
    if not os.access(folder.parent, os.W_OK):
        raise LensFault(f'{folder.parent} is no folder in which this one can be made')


def build(room: Path, folder: Path) -> None:
    """Builds musl in a room, as it is to be in a folder, and then moves it there."""
    made = room / 'made'
    (made / 'src').mkdir(parents=True)
    source = debian.fetch('musl', made / 'src', room / 'apt')
    make_library(source, made, folder)
    shutil.copy(libgcc(), made / 'lib' / 'libgcc.a')
    link_kernel_headers(made)
    tidy(source)
    (made / 'bin').mkdir()
    (made / STAMP).write_text(f'musl {(source / "VERSION").read_text().strip()}\n')
    made.replace(folder)


def make_library(source: Path, made: Path, folder: Path) -> None:
    """Configures, builds and installs musl. Its debug information names the sources where they are to be."""
    flags = f'-O2 -g -fno-pie -no-pie -fno-ipa-reference -ffile-prefix-map={made}={folder}'
    words = [
        'sh',
        './configure',
        '--target=riscv64-linux-gnu',
        f'--prefix={made}',
        '--disable-shared',
        '--disable-wrapper',
        f'CROSS_COMPILE={CROSS}',
        f'CC={CROSS}gcc {" ".join(MACHINE)}',
        f'LIBCC={libgcc()}',
        f'CFLAGS={flags}',
    ]
    call(words, source, 'musl can\'t be configured')
    call(['make', f'-j{len(os.sched_getaffinity(0))}'], source, 'musl can\'t be built')
    call(['make', 'install'], source, 'musl can\'t be installed')


def libgcc() -> Path:
    """What a compiler calls by itself, for this machine."""
    return Path(call([BARE_GCC, *MACHINE, '-print-libgcc-file-name'], Path('/'), BARE_GCC).strip())


def link_kernel_headers(made: Path) -> None:
    """Puts the headers of Linux beside those of musl, which has none of its own, where the compiler has
    them."""
    words = [f'{CROSS}gcc', '-x', 'c', '-M', '-include', 'linux/version.h', '/dev/null']
    try:
        found = re.search(r'(\S+)/linux/version\.h', call(words, made, 'linux/version.h'))
    except LensFault:
        return
    if found is None:
        return
    for name in ('linux', 'asm', 'asm-generic'):
        (made / 'include' / name).symlink_to(Path(found[1], name))


def tidy(source: Path) -> None:
    """Leaves the sources alone, for the text of their lines."""
    for name in ('obj', 'lib'):
        shutil.rmtree(source / name, ignore_errors=True)
    for archive in source.parent.glob('musl_*'):
        archive.unlink()


def write_compiler(folder: Path) -> None:
    """Writes the compiler that uses the musl of a folder: a call of `rvcc`."""
    compiler = folder / 'bin' / 'rvcc'
    compiler.write_text(
        '#!/bin/sh\n'
        '# Compiles for the machine of rseq_run with the musl of this folder. tools/bin/musl wrote it.\n'
        f'rvcc={shlex.quote(str(RVCC))}\n'
        '[ -f "$rvcc" ] || { echo "rvcc: there is no $rvcc any more: call tools/bin/musl again" >&2; exit 2; }\n'
        'exec "$rvcc" --musl "$(cd "$(dirname "$0")/.." && pwd)" "$@"\n'
    )
    compiler.chmod(0o755)

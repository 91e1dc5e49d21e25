"""The command `dist`."""
from __future__ import annotations

import argparse
import hashlib
import os
import subprocess
from pathlib import Path

from lens.command_line import Parser, add_version, end
from lens.faults import LensFault
from lens.machine import BUILT
from manual.reference import PageFault
from manual.release import release

from . import archive, debian
from .contents import ROOT, made, shared

EPOCH = 'SOURCE_DATE_EPOCH'


def make_parser() -> argparse.ArgumentParser:
    parser = Parser(
        prog='dist',
        description='Makes a package for Debian and a tar file of the built program, with the tools, headers, examples, man pages, '
        'completions and documents of this repository. Their version is the first one of CHANGELOG.md. The same files give the same '
        f'bytes: all times in them are {EPOCH}, or without it that of the last commit.',
    )
    add_version(parser)
    parser.add_argument('-o', '--out', metavar='FOLDER', default='.', help='where both are written (this folder)')
    parser.add_argument('--program', metavar='PROGRAM', default=str(BUILT), help='the built rseq_run (RSEQ_RUN, or that of this repository)')
    return parser


def time_of(root: Path) -> int:
    """The time that all files get, in seconds since 1970."""
    asked = os.environ.get(EPOCH)
    if asked is not None:
        if not (asked.isascii() and asked.isdigit()):
            raise LensFault(f'{EPOCH} is {asked!r}, which is no number of seconds')
        return int(asked)
    ran = subprocess.run(['git', '-C', str(root), 'log', '-1', '--format=%ct'], capture_output=True, text=True)
    if ran.returncode:
        raise LensFault(f'{root}: git knows no commit there; {EPOCH} says the time of the files')
    return int(ran.stdout)


def dist(arguments: argparse.Namespace) -> int:
    """Writes both, and says their names and checksums."""
    version, time = release().version, time_of(ROOT)
    folder = Path(arguments.out)
    folder.mkdir(parents=True, exist_ok=True)
    files, pages = shared(ROOT, Path(arguments.program)), made()
    name = f'{debian.NAME}-{version}-{debian.ARCHITECTURE}'
    tar = folder / f'{name}.tar.gz'
    tar.write_bytes(archive.tar_file(archive.with_commands(files | pages), name, time))
    package = folder / f'{debian.NAME}_{version}_{debian.ARCHITECTURE}.deb'
    debian.write(debian.installed(files, pages, version, time), version, time, package)
    for path in (package, tar):
        print(f'{hashlib.sha256(path.read_bytes()).hexdigest()}  {path}')
    return 0


def asked(words: list[str] | None) -> int:
    try:
        return dist(make_parser().parse_args(words))
    except PageFault as fault:
        raise LensFault(str(fault)) from None


def main(words: list[str] | None = None) -> int:
    """Does what the words ask; 2 and one line on standard error where it can't."""
    return end('dist', lambda: asked(words))

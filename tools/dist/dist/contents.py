"""What a package has: files of the repository, the built program, man pages and completions; each by its path in the unpacked folder."""
from __future__ import annotations

import re
import subprocess
from dataclasses import dataclass
from pathlib import Path

from lens.faults import LensFault
from manual.cli import all_files

ROOT = Path(__file__).resolve().parents[3]
PROGRAM = 'crates/rseq_run/out/rseq_run'
"""Where the program is, in the unpacked folder as in the repository: there the tools look for it, and the pages name it."""
TAKEN = (
    'README.md',
    'CHANGELOG.md',
    'LICENSE',
    'docs/',
    'examples/',
    'tools/README.md',
    'tools/bin/lens',
    'tools/bin/litmus',
    'tools/bin/musl',
    'tools/bin/sweep',
    'tools/lens/',
    'tools/litmus/',
    'tools/musl/',
    'tools/runs/',
    'tools/sweep/',
)
LEFT_OUT = re.compile(r'tools/\w+/tests/|examples/checks/|examples/(check|interrupted|overtaken)\.py$')
"""What needs the sources of the program."""
COMMANDS = {'rseq_run': PROGRAM, 'rvcc': 'examples/common/rvcc', **{name: f'tools/bin/{name}' for name in ('lens', 'litmus', 'sweep')}}
"""What a person calls by its name, and the file that it is."""
PLACES = {
    'man1': 'share/man/man1',
    'bash': 'share/bash-completion/completions',
    'zsh': 'share/zsh/vendor-completions',
    'fish': 'share/fish/vendor_completions.d',
}
"""Where man and the shells look for the files of `manual`, below a folder as /usr."""
X86_64 = b'\x7fELF\x02\x01'
MACHINE = 0x3E
GLIBC = re.compile(rb'GLIBC_2\.(\d+)')


@dataclass(frozen=True)
class File:
    """A file of a package, or a link to another path."""

    content: bytes = b''
    is_executable: bool = False
    link: str = ''


def tracked(root: Path) -> list[str]:
    """The files that the repository has."""
    ran = subprocess.run(['git', '-C', str(root), 'ls-files', '-z'], capture_output=True, text=True)
    if ran.returncode:
        raise LensFault(f'{root}: git knows no files there: {ran.stderr.strip()}')
    return [path for path in ran.stdout.split('\0') if path]


def is_taken(path: str) -> bool:
    """Whether a file of the repository is in the package."""
    chosen = any(path.startswith(one) if one.endswith('/') else path == one for one in TAKEN)
    return chosen and not LEFT_OUT.match(path)


def read(path: Path) -> bytes:
    try:
        return path.read_bytes()
    except OSError as error:
        raise LensFault(f'{path}: {error.strerror}') from None


def read_program(path: Path) -> bytes:
    """The built program; a fault where it is none for Linux on x86-64."""
    program = read(path)
    if not program.startswith(X86_64) or int.from_bytes(program[18:20], 'little') != MACHINE:
        raise LensFault(f'{path}: this is no program for x86-64')
    return program


def c_library(program: bytes) -> str:
    """The first version of the C library that has all that the program asks of it."""
    return f'2.{max((int(minor) for minor in GLIBC.findall(program)), default=0)}'


def shared(root: Path, program: Path) -> dict[str, File]:
    """The files of the repository that are taken, and the program."""
    found = {path: file_of(root / path) for path in tracked(root) if is_taken(path)}
    return found | {PROGRAM: File(read_program(program), is_executable=True)}


def file_of(path: Path) -> File:
    return File(read(path), bool(path.stat().st_mode & 0o100))


def made() -> dict[str, File]:
    """Man pages and completions, below a folder as /usr."""
    found = ((path.split('/'), text) for path, text in all_files().items())
    return {f'{PLACES[kind]}/{name}': File(text.encode()) for (kind, name), text in found}

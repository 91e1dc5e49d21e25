"""The package for Debian."""
from __future__ import annotations

import gzip
import hashlib
import os
import shutil
import subprocess
import tempfile
from datetime import datetime, timezone
from email.utils import format_datetime
from pathlib import Path

from lens.faults import LensFault

from .contents import COMMANDS, PROGRAM, File, c_library

NAME, ARCHITECTURE = 'rseq-run', 'amd64'
MAINTAINER = 'Loopecan maintainers <maintainers@users.noreply.loopecan.example>'
HOME = f'usr/share/{NAME}'
"""Where the folder is that the tar file has."""
DOCUMENTS = f'usr/share/doc/{NAME}'
UP = '../' * (f'{HOME}/{PROGRAM}'.count('/') - 1)
"""From the place of the program in that folder to /usr."""
COMPRESSED = 9
OVERRIDES = f"""\
# The examples are programs for the machine that rseq_run is, with symbols, by which lens shows their runs.
{NAME}: arch-dependent-file-in-usr-share [{HOME}/examples/*]
{NAME}: binary-from-other-architecture [{HOME}/examples/*]
{NAME}: statically-linked-binary [{HOME}/examples/*]
{NAME}: unstripped-binary-or-object [{HOME}/examples/*]
"""
"""What lintian asks of programs that a system runs itself."""
CONTROL = """\
Package: {name}
Version: {version}
Architecture: {architecture}
Maintainer: {maintainer}
Installed-Size: {kibibytes}
Depends: libc6 (>= {c_library}), python3 (>= 3.11)
Recommends: binutils-riscv64-unknown-elf, parallel, python3-pyelftools
Suggests: gcc-riscv64-unknown-elf, gdb-multiarch, picolibc-riscv64-unknown-elf
Conflicts: litmus, sweep
Section: devel
Priority: optional
Description: run a RISC-V program under a chosen order of events
 rseq_run runs a RISC-V program on a machine of several processors whose
 order of events is in your hands: each preemption, each store that becomes
 visible late, each signal. It finds the order that breaks a program, makes
 that run again, and shows why it fails. For small programs it says whether
 any order at all can break it, and that answer is proved.
 .
 It is for code that is built on rseq(2) and membarrier(2), and for locks,
 futex protocols and signal handlers. The package has the program, the tools
 that show a run (lens), that make many (sweep) and that build programs for it
 (rvcc), examples, man pages, completions and documents.
"""
CHANGES = """\
{name} ({version}) unstable; urgency=medium

  * What is new for users is in {home}/CHANGELOG.md.

 -- {maintainer}  {day}
"""
AFTER_INSTALLATION = """\
#!/bin/sh
set -e
if [ "$1" = configure ] && command -v py3compile >/dev/null; then
    py3compile -p {name} /{home}/tools
fi
"""
BEFORE_REMOVAL = """\
#!/bin/sh
set -e
if command -v py3clean >/dev/null; then
    py3clean -p {name}
else
    find /{home} -type d -name __pycache__ -prune -exec rm -rf {{}} +
fi
"""


def installed(shared: dict[str, File], made: dict[str, File], version: str, time: int) -> dict[str, File]:
    """All files by their paths on the system. The program is a command, and what is at its place in the folder is a link to it."""
    found = {f'{HOME}/{path}': file for path, file in shared.items() if path != PROGRAM}
    found |= {f'usr/{path}': file for path, file in made.items() if 'man1' not in path}
    found |= {f'usr/{path}.gz': packed(file.content) for path, file in made.items() if 'man1' in path}
    found |= {f'usr/bin/{name}': File(link=f'../share/{NAME}/{path}') for name, path in COMMANDS.items() if path != PROGRAM}
    found |= {'usr/bin/rseq_run': shared[PROGRAM], f'{HOME}/{PROGRAM}': File(link=f'{UP}bin/rseq_run')}
    links = {name: File(link=f'../../{NAME}/{name}') for name in ('README.md', 'CHANGELOG.md', 'docs', 'examples')}
    found |= {f'{DOCUMENTS}/{name}': link for name, link in links.items()}
    return found | {
        f'{DOCUMENTS}/copyright': shared['LICENSE'],
        f'{DOCUMENTS}/changelog.gz': packed(changes(version, time).encode()),
        f'usr/share/lintian/overrides/{NAME}': File(OVERRIDES.encode()),
    }


def packed(content: bytes) -> File:
    return File(gzip.compress(content, COMPRESSED, mtime=0))


def changes(version: str, time: int) -> str:
    day = format_datetime(datetime.fromtimestamp(time, timezone.utc))
    return CHANGES.format(name=NAME, version=version, home=f'/{HOME}', maintainer=MAINTAINER, day=day)


def control(files: dict[str, File], version: str) -> dict[str, File]:
    """What the system is told of the package, and what it does after it comes and before it goes."""
    kibibytes = sum(-(-len(file.content) // 1024) for file in files.values())
    told = CONTROL.format(
        name=NAME,
        version=version,
        architecture=ARCHITECTURE,
        maintainer=MAINTAINER,
        kibibytes=kibibytes,
        c_library=c_library(files['usr/bin/rseq_run'].content),
    )
    return {
        'DEBIAN/control': File(told.encode()),
        'DEBIAN/md5sums': File(sums(files).encode()),
        'DEBIAN/postinst': File(AFTER_INSTALLATION.format(name=NAME, home=HOME).encode(), is_executable=True),
        'DEBIAN/prerm': File(BEFORE_REMOVAL.format(name=NAME, home=HOME).encode(), is_executable=True),
    }


def sums(files: dict[str, File]) -> str:
    """The checksums by which dpkg --verify finds a file that was changed."""
    rows = ((hashlib.md5(file.content).hexdigest(), path) for path, file in sorted(files.items()) if not file.link)
    return ''.join(f'{digest}  {path}\n' for digest, path in rows)


def write(files: dict[str, File], version: str, time: int, target: Path) -> None:
    """Writes the package: the same bytes for the same files, version and time."""
    if shutil.which('dpkg-deb') is None:
        raise LensFault('there is no dpkg-deb, which makes the package for Debian')
    with tempfile.TemporaryDirectory() as name:
        stage = Path(name) / 'stage'
        lay_out(files | control(files, version), stage, time)
        environment = {**os.environ, 'SOURCE_DATE_EPOCH': str(time)}
        call = ['dpkg-deb', '--root-owner-group', '--threads-max=1', '-Zxz', '--build', str(stage), str(target)]
        ran = subprocess.run(call, env=environment, capture_output=True, text=True)
    if ran.returncode:
        raise LensFault(f'dpkg-deb: {ran.stderr.strip()}')


def lay_out(files: dict[str, File], stage: Path, time: int) -> None:
    """Puts the files under a folder, with rights and times that don't hang on who does it."""
    for path, file in files.items():
        target = stage / path
        target.parent.mkdir(parents=True, exist_ok=True)
        if file.link:
            target.symlink_to(file.link)
        else:
            target.write_bytes(file.content)
            target.chmod(0o755 if file.is_executable else 0o644)
    for place in [stage, *stage.rglob('*')]:
        if place.is_dir() and not place.is_symlink():
            place.chmod(0o755)
        os.utime(place, (time, time), follow_symlinks=False)

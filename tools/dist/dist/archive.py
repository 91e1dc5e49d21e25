"""The package as a tar file, which is unpacked anywhere."""
from __future__ import annotations

import gzip
import io
import os
import tarfile
from pathlib import PurePosixPath

from .contents import COMMANDS, File

LEVEL = 9


def with_commands(files: dict[str, File]) -> dict[str, File]:
    """The files, and a folder `bin` with links to what a person calls."""
    return files | {f'bin/{name}': File(link=f'../{path}') for name, path in COMMANDS.items()}


def tar_file(files: dict[str, File], folder: str, time: int) -> bytes:
    """A tar file with one folder: the same bytes for the same files and time."""
    packed = io.BytesIO()
    with tarfile.open(fileobj=packed, mode='w', format=tarfile.GNU_FORMAT) as archive:
        for path in [folder, *(f'{folder}/{name}' for name in folders(files))]:
            archive.addfile(member(path, File(is_executable=True), time, tarfile.DIRTYPE))
        for name, file in sorted(files.items()):
            kind = tarfile.SYMTYPE if file.link else tarfile.REGTYPE
            archive.addfile(member(f'{folder}/{name}', file, time, kind), io.BytesIO(file.content))
    return gzip.compress(packed.getvalue(), LEVEL, mtime=0)


def folders(files: dict[str, File]) -> list[str]:
    """The folders of some files, each before those inside it."""
    above = {str(parent) for name in files for parent in PurePosixPath(name).parents}
    return sorted(above - {os.curdir})


def member(path: str, file: File, time: int, kind: bytes) -> tarfile.TarInfo:
    """What a tar file says of a file: nothing of the machine that made it."""
    info = tarfile.TarInfo(path)
    info.type, info.linkname, info.size, info.mtime = kind, file.link, len(file.content), time
    info.mode = 0o755 if file.is_executable else 0o777 if file.link else 0o644
    info.uname = info.gname = 'root'
    return info

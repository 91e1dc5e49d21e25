"""Source packages of Debian, fetched by apt from where this machine has its packages from."""
from __future__ import annotations

import os
import re
import time
from pathlib import Path

from lens.faults import LensFault

from .commands import Failed, call

TOOLS = {'apt-get': 'apt', 'dpkg-source': 'dpkg-dev'}
UNREACHED_STATUS = 3
"""Of a command that got no source package, since no list or no host was there."""
SECONDS = 30
"""How long a host may say nothing."""
LINE = re.compile(r'deb(?:-src)?(?=\s)')


class Unreached(LensFault):
    """A source package that can't be had from here."""

    status = UNREACHED_STATUS


def fetch(package: str, folder: Path, room: Path) -> Path:
    """The source of a package, unpacked into a folder and patched as Debian has it. What apt needs for that
    (lists of sources, which the machine itself may not have) is kept in a room, which may be the same for
    several packages."""
    before = set(folder.iterdir())
    call_apt(package, folder, room, [])
    made = [path for path in folder.iterdir() if path.is_dir() and path not in before]
    if len(made) != 1:
        raise Unreached(f'apt-get source {package} made {len(made)} folders')
    give_one_time(made[0])
    return made[0]


def give_one_time(source: Path) -> None:
    """Gives all files of a source the same time: else make takes what a patch touched for newer than what the
    authors made of it, and calls tools for it that aren't there."""
    now = time.time()
    for path in source.rglob('*'):
        os.utime(path, (now, now), follow_symlinks=False)


def fetch_archives(package: str, folder: Path, room: Path) -> None:
    """The archives of the source of a package, as they are."""
    call_apt(package, folder, room, ['--download-only'])


def call_apt(package: str, folder: Path, room: Path, words: list[str]) -> None:
    """Has apt fetch the source of a package into a folder."""
    options = apt_options(room)
    if not (room / 'state' / 'lists').is_dir():
        prepare(room, options)
    try:
        call(['apt-get', *options, 'source', *words, package], folder, f'apt-get source {package}')
    except Failed as fault:
        raise Unreached(f'no source package {package} can be had from here: {fault}') from None


def apt_options(room: Path) -> list[str]:
    """Options by which apt takes its lists from a room, and leaves those of the machine as they are."""
    settings = {
        'Dir::Etc::SourceList': '/dev/null',
        'Dir::Etc::SourceParts': room / 'sources',
        'Dir::State::Lists': room / 'state' / 'lists',
        'Dir::Cache': room / 'cache',
        'APT::Sandbox::User': 'root',
        'Acquire::Languages': 'none',
        'Acquire::Retries': 1,
        'Acquire::http::Timeout': SECONDS,
        'Acquire::https::Timeout': SECONDS,
    }
    return ['-qq', *(word for name, value in settings.items() for word in ('-o', f'{name}={value}'))]


def prepare(room: Path, options: list[str]) -> None:
    """Fills a room with the lists of sources of the places that this machine has its packages from."""
    for folder in ('sources', 'state/lists/partial', 'cache/archives/partial'):
        (room / folder).mkdir(parents=True)
    written = 0
    for path in machine_lists(room):
        text = path.read_text(errors='replace')
        of_sources = stanzas_of_sources(text) if path.suffix == '.sources' else lines_of_sources(text)
        (room / 'sources' / f'{written}{path.suffix}').write_text(of_sources)
        written += bool(of_sources)
    if not written:
        raise Unreached('apt has no list of packages from which one of sources could be made (/etc/apt/sources.list)')
    try:
        call(['apt-get', *options, 'update'], room, 'apt-get update')
    except Failed:
        pass  # (one of several places may have no sources; apt-get source says what lacks)


def machine_lists(room: Path) -> list[Path]:
    """The files that say where this machine has its packages from."""
    words = ['apt-config', 'shell', 'MAIN', 'Dir::Etc::sourcelist/f', 'PARTS', 'Dir::Etc::sourceparts/d']
    told = dict(re.findall(r"^(\w+)='(.*)'$", call(words, room, 'apt-config'), re.MULTILINE))
    parts = Path(told.get('PARTS', '/etc/apt/sources.list.d'))
    found = [Path(told.get('MAIN', '/etc/apt/sources.list')), *sorted(parts.glob('*.list')), *sorted(parts.glob('*.sources'))]
    return [path for path in found if path.is_file()]


def lines_of_sources(text: str) -> str:
    """The lines of a list, one for each place of packages, as those of its sources; each once."""
    lines = [LINE.sub('deb-src', line.strip(), count=1) for line in text.splitlines() if LINE.match(line.strip())]
    return ''.join(f'{line}\n' for line in dict.fromkeys(lines))


def stanzas_of_sources(text: str) -> str:
    """The stanzas of a list in the form of deb822, as those of sources. One that is switched off is left
    out."""
    plain = '\n'.join(line for line in text.splitlines() if not line.startswith('#'))
    stanzas = [stanza.strip('\n') for stanza in re.split(r'\n[ \t]*\n', plain) if stanza.strip()]
    return '\n'.join(f'{of_sources(stanza)}\n' for stanza in stanzas if is_on(stanza))


def is_on(stanza: str) -> bool:
    """Whether a stanza counts: one with `Enabled: no` doesn't."""
    return not re.search(r'^Enabled:\s*(?:no|false|without|off|disable)\s*$', stanza, re.MULTILINE | re.IGNORECASE)


def of_sources(stanza: str) -> str:
    return re.sub(r'^Types:.*$', 'Types: deb-src', stanza, flags=re.MULTILINE | re.IGNORECASE)

"""The package in a fresh Debian: it is installed with what it needs, first examples run, and it goes without a trace.

The test needs root, debootstrap and the place from which this system gets its packages, and takes minutes. The variable FRESH_ROOT names a
folder that debootstrap made before, of which a copy is taken then.
"""
from __future__ import annotations

import os
import shutil
import subprocess
import sys
import tempfile
import unittest
from pathlib import Path

from lens.machine import BUILT

from .common import DEB, FIRST_ANSWERS, FIRST_COMMANDS, dist, needs_program, only

FRESH_ROOT = os.environ.get('FRESH_ROOT')
SECONDS = 1200
SITES = ['apt-get', 'indextargets', '--format', '$(SITE)']
CODENAME = 'VERSION_CODENAME='
HOME = '/usr/share/rseq-run'
QUIET = {'PATH': '/usr/sbin:/usr/bin:/sbin:/bin', 'DEBIAN_FRONTEND': 'noninteractive', 'LC_ALL': 'C.UTF-8'}
LEFT = r"find / -xdev -path /proc -prune -o \( -name '*rseq*run*' -o -name '*rseq-run*' -o -path '*/bin/lens' \) -print"


def codename() -> str:
    """Which Debian this is."""
    lines = Path('/etc/os-release').read_text().splitlines()
    return next((line.removeprefix(CODENAME) for line in lines if line.startswith(CODENAME)), '')


def site() -> str:
    """From where this system gets its packages."""
    ran = subprocess.run(SITES, capture_output=True, text=True)
    return next(iter(ran.stdout.split()), '')


def make_root(root: Path) -> str:
    """Makes a fresh Debian in a folder; or says why it can't."""
    if FRESH_ROOT:
        return subprocess.run(['cp', '-a', FRESH_ROOT, root], capture_output=True, text=True).stderr
    call = ['debootstrap', '--variant=minbase', codename(), str(root), site()]
    ran = subprocess.run(call, capture_output=True, text=True, timeout=SECONDS)
    return ran.stdout[-300:] if ran.returncode else ''


def lacking() -> str:
    """What lacks for the test."""
    if os.geteuid() != 0:
        return 'it is run by another user than root'
    if not FRESH_ROOT and shutil.which('debootstrap') is None:
        return 'there is no debootstrap'
    return '' if FRESH_ROOT or (site() and codename()) else 'apt has no place for packages'


@needs_program
class FreshRoot(unittest.TestCase):
    def setUp(self) -> None:
        folder = tempfile.TemporaryDirectory()
        self.addCleanup(folder.cleanup)
        self.root = Path(folder.name) / 'root'
        fault = lacking() or make_root(self.root)
        if fault:
            self.leave_out(f'no fresh Debian can be made here: {fault}')
        shutil.copy('/etc/resolv.conf', self.root / 'etc' / 'resolv.conf')
        dist(Path(folder.name), '--program', str(BUILT))
        shutil.copy(only(Path(folder.name), DEB), self.root / 'tmp' / 'package.deb')

    def leave_out(self, why: str) -> None:
        """Leaves the test out, and says so."""
        print(f'tools/dist: the package isn\'t tried, since {why.strip()}', file=sys.stderr)
        self.skipTest(why)

    def inside(self, script: str) -> subprocess.CompletedProcess[str]:
        """A script in the fresh Debian."""
        call = ['chroot', str(self.root), 'sh', '-c', script]
        proxies = {name: value for name, value in os.environ.items() if name.lower().endswith('_proxy')}
        return subprocess.run(call, env={**proxies, **QUIET}, capture_output=True, text=True, timeout=SECONDS)

    def test_it_comes_works_and_goes(self) -> None:
        before = self.inside(LEFT).stdout
        if self.inside('apt-get -q update').returncode:
            self.leave_out('the fresh Debian gets no packages from here')
        installed = self.inside('apt-get -qy install /tmp/package.deb')
        self.assertEqual(installed.returncode, 0, installed.stdout + installed.stderr)
        ran = self.inside(f'cd {HOME} && {FIRST_COMMANDS}')
        self.assertEqual((ran.stdout, ran.stderr), (FIRST_ANSWERS, ''))
        self.assertEqual(self.inside('dpkg --verify rseq-run').stdout, '')
        removed = self.inside('apt-get -qy purge rseq-run && rm /tmp/package.deb')
        self.assertEqual(removed.returncode, 0, removed.stderr)
        self.assertEqual(self.inside(LEFT).stdout, before)


if __name__ == '__main__':
    unittest.main()

"""Two hosts beside this one, as network namespaces of this machine with an sshd each: they share its files, and nothing of its
network. A host can be cut off and killed."""
from __future__ import annotations

import os
import shutil
import signal
import subprocess
import tempfile
import time
from pathlib import Path
from types import TracebackType

SSHD, SSH, KEYGEN, IP = '/usr/sbin/sshd', 'ssh', 'ssh-keygen', 'ip'
PRIVILEGES = Path('/run/sshd')
"""An empty folder that sshd wants (sshd(8), FILES)."""
NAMES = ('first', 'second')
NETWORK = '192.0.2.'
"""For examples and tests alone (RFC 5737)."""
SECONDS = 60


def missing() -> str | None:
    """What lacks here for such hosts; None where nothing does."""
    for tool, package in ((SSHD, 'openssh-server'), (KEYGEN, 'openssh-client'), (IP, 'iproute2')):
        if shutil.which(tool) is None:
            return f'there is no {Path(tool).name} (apt-get install {package})'
    if os.geteuid() != 0:
        return 'network namespaces are for root alone'
    name = f'rseq-try-{os.getpid()}'
    made = subprocess.run([IP, 'netns', 'add', name], capture_output=True)
    if made.returncode == 0:
        subprocess.run([IP, 'netns', 'del', name], capture_output=True)
    return 'no network namespace can be made here' if made.returncode else None


def ip(*words: object) -> str:
    """What `ip` prints; its failure is one of the test."""
    return subprocess.run([IP, *map(str, words)], check=True, capture_output=True, text=True).stdout


class Hosts:
    """The hosts; `here` is the namespace that reaches both."""

    def __init__(self) -> None:
        self.room = Path(tempfile.mkdtemp(prefix='rseq-hosts-'))
        self.here = f'rseq-here-{os.getpid()}'
        self.namespaces = {name: f'rseq-{name}-{os.getpid()}' for name in NAMES}
        self.running: dict[str, subprocess.Popen[bytes]] = {}
        self.made_privileges = False

    def __enter__(self) -> Hosts:
        try:
            self.make_keys()
            ip('netns', 'add', self.here)
            for at, name in enumerate(NAMES):
                self.connect(name, at)
                self.start(name)
        except BaseException:
            self.remove()
            raise
        return self

    def __exit__(
        self, kind: type[BaseException] | None, error: BaseException | None, trace: TracebackType | None
    ) -> None:
        self.remove()

    def make_keys(self) -> None:
        """A key for the hosts and one for who logs in, and the words for ssh by which it finds them."""
        if not PRIVILEGES.exists():
            PRIVILEGES.mkdir(mode=0o755)
            self.made_privileges = True
        for key in ('host', 'own'):
            words = [KEYGEN, '-q', '-t', 'ed25519', '-N', '', '-f', self.room / key]
            subprocess.run(words, check=True, stdin=subprocess.DEVNULL, capture_output=True)
        host = (self.room / 'host.pub').read_text()
        (self.room / 'known').write_text(''.join(f'{self.address(name)} {host}' for name in NAMES))
        entries = [f'Host {name}\n  HostName {self.address(name)}\n' for name in NAMES]
        (self.room / 'config').write_text(
            ''.join(entries) + f'Host *\n  User root\n  IdentityFile {self.room}/own\n  IdentitiesOnly yes\n'
            f'  UserKnownHostsFile {self.room}/known\n  StrictHostKeyChecking yes\n'
        )
        wrapper = self.room / 'bin' / 'ssh'
        wrapper.parent.mkdir()
        wrapper.write_text(f'#!/bin/sh\nexec {shutil.which(SSH)} -F {self.room}/config "$@"\n')
        wrapper.chmod(0o755)

    def address(self, name: str) -> str:
        return f'{NETWORK}{4 * NAMES.index(name) + 2}'

    def connect(self, name: str, at: int) -> None:
        """A namespace, with a link between it and `here`."""
        space, near, far = self.namespaces[name], self.link(name), f'rsf{at}'
        ip('netns', 'add', space)
        ip('link', 'add', near, 'netns', self.here, 'type', 'veth', 'peer', 'name', far, 'netns', space)
        ip('-n', self.here, 'addr', 'add', f'{NETWORK}{4 * at + 1}/30', 'dev', near)
        ip('-n', space, 'addr', 'add', f'{self.address(name)}/30', 'dev', far)
        ip('-n', self.here, 'link', 'set', near, 'up')
        ip('-n', space, 'link', 'set', far, 'up')
        ip('-n', space, 'link', 'set', 'lo', 'up')

    def link(self, name: str) -> str:
        return f'rsn{NAMES.index(name)}'

    def start(self, name: str) -> None:
        """The sshd of a host; back when it listens."""
        own = (self.room / 'own.pub').read_text()
        (self.room / 'authorized').write_text(own)
        options = {
            'ListenAddress': self.address(name),
            'HostKey': self.room / 'host',
            'AuthorizedKeysFile': self.room / 'authorized',
            'PidFile': 'none',
            'StrictModes': 'no',
            'UsePAM': 'no',
            'PasswordAuthentication': 'no',
            'MaxStartups': 100,
        }
        words = [IP, 'netns', 'exec', self.namespaces[name], SSHD, '-D', '-e', '-f', '/dev/null']
        words += [word for key, value in options.items() for word in ('-o', f'{key}={value}')]
        with (self.room / f'{name}.log').open('ab') as log:
            self.running[name] = subprocess.Popen(words, stdin=subprocess.DEVNULL, stderr=log)
        self.wait_for(name)

    def wait_for(self, name: str) -> None:
        last = time.monotonic() + SECONDS
        while self.run(['ssh', '-o', 'ConnectTimeout=2', name, 'true']).returncode:
            if self.running[name].poll() is not None or time.monotonic() > last:
                raise OSError(f'{name}: {(self.room / f"{name}.log").read_text()}')
            time.sleep(0.1)

    @property
    def environment(self) -> dict[str, str]:
        """In which `ssh` finds the hosts by their names."""
        return {**os.environ, 'PATH': f'{self.room}/bin:{os.environ["PATH"]}'}

    def words(self, words: list[str]) -> list[str]:
        """The words of a command that reaches the hosts."""
        return [IP, 'netns', 'exec', self.here, *words]

    def run(self, words: list[str]) -> subprocess.CompletedProcess[str]:
        return subprocess.run(
            self.words(words), env=self.environment, stdin=subprocess.DEVNULL, capture_output=True, text=True
        )

    def cut(self, name: str) -> None:
        """Takes the link down: what is sent is lost, and nobody is told."""
        ip('-n', self.here, 'link', 'set', self.link(name), 'down')

    def mend(self, name: str) -> None:
        ip('-n', self.here, 'link', 'set', self.link(name), 'up')

    def kill(self, name: str) -> None:
        """As by a power cut: nothing of the host is heard again. Only what runs in its namespace is ended."""
        self.cut(name)
        self.end(name)

    def end(self, name: str) -> None:
        """Ends what runs in the namespace of a host, which is what this started there."""
        while pids := ip('netns', 'pids', self.namespaces[name]).split():
            for pid in pids:
                try:
                    os.kill(int(pid), signal.SIGKILL)
                except ProcessLookupError:
                    pass
            if name in self.running:
                self.running.pop(name).wait()
            time.sleep(0.05)

    def remove(self) -> None:
        """Takes away all that was made."""
        there = set(ip('netns', 'list').split())
        for name, space in self.namespaces.items():
            if space in there:
                self.end(name)
                ip('netns', 'del', space)
        if self.here in there:
            ip('netns', 'del', self.here)
        if self.made_privileges:
            PRIVILEGES.rmdir()
        shutil.rmtree(self.room)

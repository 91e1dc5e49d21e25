"""Opens a recorded run to gdb: `lens gdb`. Either a gdb is started on it, or it waits for one."""
from __future__ import annotations

import argparse
import gc
import os
import signal
import socket
import subprocess
import sys
import threading
from collections.abc import Callable
from dataclasses import dataclass
from pathlib import Path
from types import FrameType
from typing import Protocol

from .faults import LensFault
from .gdb_stub import Stub
from .machine import Machine
from .output import Outline
from .packets import Link
from .program import Program
from .recorded import Recorded
from .timeline_reading import make_timeline

GDB = 'gdb-multiarch'
LOCAL = '127.0.0.1'
GDB_SIDE = Path(__file__).with_name('gdb_side.py')
PIECE = 1 << 16
MOST_PORT = 65_535
TIMEOUT = 60
"""So many seconds gdb waits for an answer. (Its own 2 are too few while the machine is busy.)"""
HAS_PYTHON = 'it has Python'
PROBE = ('-nx', '-batch', '-ex', 'set architecture riscv:rv64', '-ex', f'python print("{HAS_PYTHON}")')
SIGNALLED = 128


class Door(Protocol):
    """A way in which gdb comes to a run."""

    def open(self, recorded: Recorded) -> int:
        """Serves the run; the status of the command."""


def make_door(listen: tuple[str, int] | None, is_pipe: bool, gdb: str, words: list[str]) -> Door:
    """The way that was asked for. What lacks for it is said before the run is read."""
    if words and (listen or is_pipe):
        raise LensFault('words for gdb are of no use where none is started')
    if is_pipe:
        return PipeDoor()
    if listen:
        return ListeningDoor(listening(*listen))
    return GdbDoor(gdb, words, start_probe(gdb))


def record(outline: Outline, program: Program, machine: Machine) -> Recorded:
    """The run with its timeline."""
    timeline = make_timeline(outline.name, outline.log, program, machine)
    timeline.end = outline.end
    if not program.lines.rows:
        lacking = f'{program.path} has no source lines: gdb shows instructions (build it with -g)'
        print(f'lens: {lacking}', file=sys.stderr)
    gc.freeze()
    gc.enable()
    return Recorded(outline.name, program, machine, timeline, outline.console)


def address(words: str) -> tuple[str, int]:
    """`HOST:PORT`, or a port of this machine alone."""
    host, _, port = words.rpartition(':')
    if not (port.isascii() and port.isdecimal()) or int(port) > MOST_PORT:
        raise argparse.ArgumentTypeError(f'{words!r} is no HOST:PORT')
    return host or LOCAL, int(port)


def listening(host: str, port: int) -> socket.socket:
    """A socket that waits for connections."""
    try:
        return socket.create_server((host, port))
    except OSError as error:
        reason = os.strerror(error.errno) if error.errno and error.errno > 0 else error
        raise LensFault(f'{host}:{port}: {reason}') from None


def serve(recorded: Recorded, get: Callable[[], bytes], put: Callable[[bytes], None]) -> None:
    """Serves one gdb, until it goes."""
    Stub(recorded, Link(get, put)).serve()


def serve_next(recorded: Recorded, server: socket.socket) -> None:
    """Waits for a gdb, and serves it."""
    link, _ = server.accept()
    with link:
        link.setsockopt(socket.IPPROTO_TCP, socket.TCP_NODELAY, 1)
        serve(recorded, lambda: link.recv(PIECE), link.sendall)


class PipeDoor:
    """Packets come on standard input, and go to standard output: `target remote | lens gdb --pipe ..`."""

    def open(self, recorded: Recorded) -> int:
        signal.signal(signal.SIGINT, signal.SIG_IGN)  # (it is meant for gdb, which has the same terminal)
        serve(recorded, lambda: os.read(0, PIECE), write_all)
        return 0


def write_all(content: bytes) -> None:
    while content:
        content = content[os.write(1, content) :]


@dataclass(frozen=True)
class ListeningDoor:
    """Serves each gdb that connects, one after another, until it is ended by a signal."""

    server: socket.socket

    def open(self, recorded: Recorded) -> int:
        host, port = self.server.getsockname()[:2]
        print(f'listening on {host}:{port}', flush=True)
        while True:
            serve_next(recorded, self.server)


def start_probe(gdb: str) -> subprocess.Popen[str]:
    """A gdb that says whether it knows RISC-V and has Python, while the run is read."""
    try:
        return subprocess.Popen(
            [gdb, *PROBE],
            stdin=subprocess.DEVNULL,
            stdout=subprocess.PIPE,
            stderr=subprocess.STDOUT,
            text=True,
        )
    except OSError as error:
        is_absent = isinstance(error, FileNotFoundError)
        hint = ' (apt-get install gdb-multiarch; --gdb names another)' if is_absent else ''
        raise LensFault(f'{gdb}: {error.strerror}{hint}') from None


@dataclass(frozen=True)
class GdbDoor:
    """Starts a gdb on the run, and ends with it."""

    gdb: str
    words: list[str]
    probe: subprocess.Popen[str]

    def open(self, recorded: Recorded) -> int:
        self.check()
        with listening(LOCAL, 0) as server:
            threading.Thread(target=serve_all, args=(recorded, server), daemon=True).start()
            return self.run(recorded, server.getsockname()[1])

    def check(self) -> None:
        """A fault where the gdb can't do what it has to."""
        said, _ = self.probe.communicate()
        if 'Undefined item' in said:
            raise LensFault(f'{self.gdb} doesn\'t know RISC-V (gdb-multiarch does; --gdb names another)')
        if HAS_PYTHON not in said:
            raise LensFault(f'{self.gdb} has no Python, or is no gdb (--gdb names another)')

    def run(self, recorded: Recorded, port: int) -> int:
        """Runs gdb until it ends; its status. A signal that ends this process ends gdb too."""
        elf = Path(recorded.file)
        folders = [word for folder in elf.parents for word in ('-d', str(folder))]
        own = ['-q', *folders, '-x', str(GDB_SIDE), '-ex', f'set remotetimeout {TIMEOUT}']
        target = ['-ex', f'target extended-remote {LOCAL}:{port}']
        line = [self.gdb, *own, *target, *self.words, str(elf)]
        ending = Ending()
        signal.signal(signal.SIGINT, lambda *_: None)  # (Ctrl-C is for gdb, which has the same terminal)
        for number in (signal.SIGTERM, signal.SIGHUP):
            signal.signal(number, ending.end)
        return ending.wait_for(subprocess.Popen(line))


class Ending:
    """Ends a process where a signal came that is to end this one."""

    def __init__(self) -> None:
        self.number: int | None = None
        self.ran: subprocess.Popen[bytes] | None = None

    def end(self, number: int, _: FrameType | None) -> None:
        self.number = number
        if self.ran is not None:
            self.ran.kill()

    def wait_for(self, ran: subprocess.Popen[bytes]) -> int:
        """Waits until a process ends: its status, as a shell says it, or that of the signal."""
        self.ran = ran
        if self.number is not None:  # (it came before)
            ran.kill()
        status = ran.wait()
        if self.number is not None:
            return SIGNALLED + self.number
        return status if status >= 0 else SIGNALLED - status


def serve_all(recorded: Recorded, server: socket.socket) -> None:
    """Serves gdb each time that it connects."""
    while True:
        serve_next(recorded, server)

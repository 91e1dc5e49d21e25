"""How cost grows with steps, with threads and with pages: calls of the program, measured, as plots of text. The time of a start, that of the
same call with one step, is taken off. So bars of one length say that the cost grows with the size and no faster."""
from __future__ import annotations

import os
import subprocess
import sys
import tempfile
from collections.abc import Iterator
from contextlib import contextmanager
from dataclasses import dataclass
from pathlib import Path

from plots import Point, plot

HERE = Path(__file__).resolve().parent
LONG, PAGES = HERE / 'long.elf', HERE / 'pages.elf'
NANO, MICRO, MILLI = 1e9, 1e6, 1e3
STACK_AND_MORE = 66
"""Frames that a program takes without asking: the stack, the page that handlers return to, and its code."""


@dataclass(frozen=True)
class Sizes:
    """What is measured: how often each call is made, of which the quickest counts, and the sizes."""

    calls: int
    steps: tuple[int, ...]
    threads: tuple[int, ...]
    drawn: int
    frames: tuple[int, ...]


FULL = Sizes(5, (1_000, 10_000, 100_000, 300_000, 1_000_000), (1, 2, 4, 8, 16, 32, 63), 200_000, (128, 1024, 4096, 8192, 16384))
QUICK = Sizes(1, (1_000, 10_000, 100_000), (1, 4, 16), 20_000, (128, 1024))


@dataclass(frozen=True)
class Cost:
    """The processor seconds of a call, user and system, and the lines of the log that it printed."""

    seconds: float
    lines: int


@dataclass(frozen=True)
class Bench:
    """A program, and what is measured of it."""

    program: Path
    sizes: Sizes

    def cost(self, *words: str) -> Cost:
        """The least cost of some equal calls."""
        return min((self.call(*words) for _ in range(self.sizes.calls)), key=lambda cost: cost.seconds)

    def call(self, *words: str) -> Cost:
        with tempfile.TemporaryFile() as text:
            process = subprocess.Popen([self.program, *words], stdin=subprocess.DEVNULL, stdout=text)
            _, status, usage = os.wait4(process.pid, 0)
            process.returncode = os.waitstatus_to_exitcode(status)
            if process.returncode:
                sys.exit(f'{self.program} {" ".join(words)}: status {process.returncode}')
            text.seek(0)
            return Cost(usage.ru_utime + usage.ru_stime, logged(text.read()))

    def by_steps(self) -> str:
        """One hart computes for so many steps."""
        start = self.cost('solo', str(LONG), '--steps', '1').seconds
        costs = [self.cost('solo', str(LONG), '--steps', str(steps)) for steps in self.sizes.steps]
        points = [point(cost.lines, cost.seconds - start, NANO) for cost in costs]
        return plot(points, 'steps', 'ms', 'ns a step')

    def by_threads(self) -> str:
        """So many threads each make 100 additions, and go to the next processor after each."""
        return plot([self.drawn(threads) for threads in self.sizes.threads], 'threads', 'steps', 'ns a step')

    def drawn(self, threads: int) -> Point:
        with self.guest('migrate', threads) as elf:
            start = self.cost('draw', elf, '--seed', '1', '--steps', '1').seconds
            cost = self.cost('draw', elf, '--seed', '1', '--steps', str(self.sizes.drawn))
        return Point(threads, f'{cost.lines:,}', NANO * max(0, cost.seconds - start) / cost.lines)

    def by_pages(self) -> str:
        """A program maps pages, one by one, until no frame is free."""
        points = []
        for frames in self.sizes.frames:
            limits = ('--frames', str(frames), '--steps')
            start = self.cost('solo', str(PAGES), *limits, '1').seconds
            points.append(point(frames - STACK_AND_MORE, self.cost('solo', str(PAGES), *limits, '1000000').seconds - start, MICRO))
        return plot(points, 'pages', 'ms', 'us a page')

    @contextmanager
    def guest(self, name: str, size: int) -> Iterator[str]:
        """A program that is made for a size."""
        with tempfile.TemporaryDirectory() as room:
            path = Path(room) / f'{name}.elf'
            path.write_bytes(subprocess.run([self.program, 'make', name, str(size)], capture_output=True, check=True).stdout)
            yield str(path)


def point(size: int, seconds: float, unit: float) -> Point:
    least = max(0, seconds)
    return Point(size, f'{MILLI * least:,.1f}', unit * least / size)


def logged(text: bytes) -> int:
    """How many lines the log of an output has."""
    console = int(text.partition(b'\n')[0].removeprefix(b'console '))
    rest = text.partition(b'\n')[2][console + 1 :]
    return int(rest.partition(b'\n')[0].removeprefix(b'log '))

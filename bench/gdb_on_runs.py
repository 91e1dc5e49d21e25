#!/usr/bin/env python3
"""How long `lens gdb` takes over long runs: until gdb may ask, and for what it asks then.

    bench/gdb_on_runs.py [--steps N,..] [--program PROGRAM]

It builds the counter of examples/percpu_counter without sequences (5 threads, 20,000 rounds), draws runs of N steps (10,000, 100,000 and
1,000,000) on 2 harts, and opens each with `lens gdb --listen`. It prints when that was ready, its processor time up to the end, its most
memory, and the least times of five, in milliseconds, for going over the whole run: forwards and backwards, the same with a watchpoint that
is never met, and the same with a breakpoint whose condition is false each time, of which the hits are counted. It needs
gcc-riscv64-unknown-elf.
"""
from __future__ import annotations

import argparse
import os
import socket
import subprocess
import sys
import tempfile
import time
from pathlib import Path

TOP = Path(__file__).resolve().parent.parent
sys.path[:0] = [str(TOP / 'tools' / name) for name in ('runs', 'lens')]

from lens.machine import BUILT  # noqa: E402 (found by the line above)
from lens.packets import Link  # noqa: E402
from lens.program import Program  # noqa: E402

RVCC, LENS = TOP / 'examples' / 'common' / 'rvcc', TOP / 'tools' / 'bin' / 'lens'
COUNTER = TOP / 'examples' / 'percpu_counter' / 'percpu_counter.c'
STEPS = (10_000, 100_000, 1_000_000)
OFTEN = 5
UNTOUCHED = 0x3F_FFF0_0000
"""The end of the stack, which the program doesn't come to."""
FALSE = 'X9,26000d1620224d1327'
"""What gdb makes of the condition `cpu == 77` of a breakpoint at `addv`, where cpu is in a3."""


class Opened:
    """A run that is opened, and a connection to it."""

    def __init__(self, run: Path, elf: Path, steps: int, program: str):
        began = time.monotonic()
        words = [LENS, 'gdb', run, elf, '--listen', '127.0.0.1:0', '--steps', steps, '--program', program]
        self.ran = subprocess.Popen(list(map(str, words)), stdout=subprocess.PIPE, text=True)
        assert self.ran.stdout
        port = int(self.ran.stdout.readline().rpartition(':')[2])
        self.ready = time.monotonic() - began
        self.socket = socket.create_connection(('127.0.0.1', port))
        self.socket.setsockopt(socket.IPPROTO_TCP, socket.TCP_NODELAY, 1)
        self.link = Link(lambda: self.socket.recv(1 << 16), self.socket.sendall)
        self.ask('QStartNoAckMode')
        self.link.is_acknowledged = False

    def ask(self, text: str) -> bytes:
        """The answer to a packet; texts for the user are passed over."""
        self.link.send(text.encode())
        while (content := self.link.receive() or b'')[:1] == b'O' and content != b'OK':
            pass
        return content

    def seconds(self, *packets: str) -> list[float]:
        """The least time of each packet, sent one after another, several times."""
        times: list[list[float]] = [[] for _ in packets]
        for _ in range(OFTEN):
            for found, text in zip(times, packets):
                began = time.perf_counter()
                self.ask(text)
                found.append(time.perf_counter() - began)
        return [min(found) for found in times]

    def close(self) -> tuple[float, int]:
        """Ends it; the processor time until then, and the most memory, in MiB."""
        self.socket.close()
        self.ran.terminate()
        _, _, used = os.wait4(self.ran.pid, 0)
        return used.ru_utime + used.ru_stime, used.ru_maxrss >> 10


def measure(elf: Path, room: Path, steps: int, program: str) -> str:
    """A row of the table."""
    run, addv = room / f'{steps}.output', Program(str(elf)).addresses('addv')[0]
    drawn = [program, 'draw', str(elf), '--seed', '1', '--steps', str(steps), '--calm', '1000000']
    run.write_bytes(subprocess.run(drawn, check=True, capture_output=True).stdout)
    there = Opened(run, elf, steps, program)
    hits = run.read_bytes().count(b' %016x\n' % addv)
    times = there.seconds('vCont;c', 'bc')
    there.ask(f'Z2,{UNTOUCHED:x},8')
    times += there.seconds('vCont;c', 'bc')
    there.ask(f'Z0,{addv:x},4;{FALSE}')
    times += there.seconds('vCont;c', 'bc')
    processor, memory = there.close()
    shown = ' '.join(f'{1_000 * seconds:.2f}' for seconds in times)
    return f'{steps} steps, {hits} hits: ready {there.ready:.2f} s, processor {processor:.2f} s, {memory} MiB; ms {shown}'


def main() -> None:
    parser = argparse.ArgumentParser()
    parser.add_argument('--steps', default=','.join(map(str, STEPS)))
    parser.add_argument('--program', default=str(BUILT))
    arguments = parser.parse_args()
    with tempfile.TemporaryDirectory() as name:
        room = Path(name)
        elf = room / 'counter.elf'
        subprocess.run([RVCC, '-g', '-O2', '-DPLAIN', '-DROUNDS=20000', COUNTER, '-o', elf], check=True)
        for steps in map(int, arguments.steps.split(',')):
            print(measure(elf, room, steps, arguments.program), flush=True)


if __name__ == '__main__':
    main()

"""Breaks off a long `explore` and a long `outcomes`, and looks at what standard error said until then; and looks at the line that says
on a terminal how far an `explore` is.

    examples/interrupted.py PROGRAM ELF SEARCHED

SEARCHED is the file of which `outcomes` is broken off: on so many HARTS it has an outcome that FEW places are enough for, and takes so
long that no machine ends it meanwhile.
"""
from __future__ import annotations

import os
import re
import select
import signal
import subprocess
import sys
import time
from dataclasses import dataclass

A_WHILE = 0.5
"""So long after something was said a call is broken off. Outcomes are said from one second on, on a slow machine later."""
LATEST = 1800.0
RUNS = '1000000000'
RUNS_TO_THE_END = (20_000, 200_000, 2_000_000, 20_000_000)
"""How many runs an exploration on a terminal makes: the first of these that takes long enough for a line, which a fast machine shows of
more runs than a slow one."""
PROGRESS = re.compile(rb'rseq_run: (\d+) of (\d+) runs, (\d+) outcomes?')
"""The line on a terminal."""
SIGNALS = (signal.SIGINT, signal.SIGTERM)
HARTS, FEW = '4', '20000'
SEARCHED_OUTCOME = re.compile(rb'outcome (\d+): (end [a-z]+(?: \d+)?), (\d+) events?\n')
"""What a search says of an outcome."""
PRINTED_OUTCOME = re.compile(rb'outcome (\d+)\n(end [a-z]+(?: \d+)?)\nconsole \d+\n.*?\nscript (\d+)\n', re.DOTALL)
"""What it prints of one, down to the number of the lines of its script."""
HOW_FAR = re.compile(rb'rseq_run: places \d+, open \d+, depth \d+, outcomes \d+\n')
OUTCOME = re.compile(rb'outcome (\d+): (end [a-z]+(?: \d+)?), seed (\d+), policy [a-z]+\n')


@dataclass(frozen=True)
class Broken:
    """What a call left that a signal broke off: the signal, its status, standard output and standard error."""

    number: int
    status: int
    printed: bytes
    said: bytes


def heed_signals() -> None:
    """A signal ends this process, also where a shell started it in the background, whose jobs ignore interrupts."""
    for number in SIGNALS:
        signal.signal(number, signal.SIG_DFL)


def break_off(words: list[str], number: int) -> Broken:
    """A call that takes so long that none waits for its end, which a signal breaks off."""
    with subprocess.Popen(
        words, stdin=subprocess.DEVNULL, stdout=subprocess.PIPE, stderr=subprocess.PIPE, preexec_fn=heed_signals
    ) as running:
        select.select([running.stderr], [], [], LATEST)
        time.sleep(A_WHILE)
        running.send_signal(number)
        try:
            printed, said = running.communicate(timeout=LATEST)
        except subprocess.TimeoutExpired:
            running.kill()
            raise
    return Broken(number, running.returncode, printed, said)


def faults_of(program: str, elf: str, searched: str) -> list[str]:
    """What isn't as it should be, by each signal, and of the line on a terminal."""
    words = [program, 'explore', elf, '--runs', RUNS]
    broken = [fault for number in SIGNALS for fault in faults_of_exploration(program, elf, break_off(words, number))]
    return broken + faults_of_search(program, searched) + faults_of_terminal(program, elf)


def faults_of_broken(broken: Broken) -> list[str]:
    """What isn't as it should be: the system ends the call by the signal, and nothing is printed."""
    faults = []
    if broken.status != -broken.number:
        faults.append(f'its status is {broken.status}')
    if broken.printed:
        faults.append(f'it printed {broken.printed[:60]!r}')
    return faults


def faults_of_search(program: str, elf: str) -> list[str]:
    """What isn't as it should be of a search that is broken off: each outcome is said as a search with few places prints it."""
    words = [program, 'outcomes', elf, '--harts', HARTS, '--places']
    broken = break_off([*words, '16000000'], signal.SIGINT)
    few = subprocess.run([*words, FEW], capture_output=True, check=True).stdout
    lines = [line for line in broken.said.splitlines(keepends=True) if not HOW_FAR.fullmatch(line)]
    said = [outcome.groups() for outcome in map(SEARCHED_OUTCOME.fullmatch, lines) if outcome]
    printed = [outcome.groups() for outcome in PRINTED_OUTCOME.finditer(few)]
    numbers = [int(number) for number, _, _ in said]
    faults = faults_of_broken(broken)
    if not printed or not said or said[:len(printed)] != printed[:len(said)] or numbers != list(range(1, len(lines) + 1)):
        faults.append(f'standard error of a search has {broken.said[:200]!r}, and its text begins {printed[:3]!r}')
    return faults


def faults_of_exploration(program: str, elf: str, broken: Broken) -> list[str]:
    """What isn't as it should be of an exploration that is broken off: each outcome that was found is said with a seed that has it."""
    faults = faults_of_broken(broken)
    lines = broken.said.splitlines(keepends=True)
    outcomes = [OUTCOME.fullmatch(line) for line in lines]
    if not outcomes or not all(outcomes):
        faults.append(f'standard error has {broken.said[:200]!r}')
    for number, outcome in enumerate(filter(None, outcomes), 1):
        drawn = subprocess.run([program, 'draw', elf, '--seed', outcome[3].decode()], capture_output=True, check=True).stdout
        if int(outcome[1]) != number or not drawn.endswith(b'\n' + outcome[2] + b'\n'):
            faults.append(f'{outcome[0]!r} is outcome {number}, and its seed ends with {drawn.splitlines()[-1]!r}')
    return faults


def faults_of_terminal(program: str, elf: str) -> list[str]:
    """What isn't as it should be of the line on a terminal. An exploration that ends before a line is due shows nothing."""
    for runs in RUNS_TO_THE_END:
        shown = on_terminal(program, elf, runs)
        if PROGRESS.search(shown):
            return faults_of_progress(shown, runs)
    return [f'on a terminal {runs} runs show no line']


def on_terminal(program: str, elf: str, runs: int) -> bytes:
    """What an exploration says on a terminal, as far as it is shown there."""
    own, terminal = os.openpty()
    words = [program, 'explore', elf, '--runs', str(runs)]
    with subprocess.Popen(words, stdin=subprocess.DEVNULL, stdout=subprocess.DEVNULL, stderr=terminal):
        os.close(terminal)
        shown = b''.join(iter(lambda: read_terminal(own), b''))
    os.close(own)
    return shown


def read_terminal(own: int) -> bytes:
    """The next bytes that a terminal shows; none where nobody writes to it any more (Linux says EIO then)."""
    try:
        return os.read(own, 65_536)
    except OSError:
        return b''


def faults_of_progress(shown: bytes, runs: int) -> list[str]:
    """What isn't as it should be: one line says again and again how many runs are made, more each time, and how many outcomes they
    came to; at the end it is taken away."""
    *rows, wiped, nothing = (b'\r\r' + shown).split(b'\r')
    rows = [row.strip(b' \n') for row in rows]
    lines = [row for row in rows if row and not OUTCOME.fullmatch(row + b'\n')]
    read = [found for row in lines if (found := PROGRESS.fullmatch(row))]
    if not read or len(read) < len(lines):
        return [f'on a terminal standard error has {shown[:200]!r}']
    counts = [(int(row[1]), int(row[3])) for row in read]
    is_rising = counts == sorted(counts) and counts[-1] <= (runs, 2) and all(int(row[2]) == runs for row in read)
    return [] if is_rising and not wiped.strip(b' ') and not nothing else [f'the line on a terminal goes as {shown[-200:]!r}']


if __name__ == '__main__':
    found = faults_of(*sys.argv[1:4])
    print('\n'.join(found))
    sys.exit(1 if found else 0)

#!/usr/bin/env python3
"""Asks of many drawn logs of the guest `urcu` whether they meet what the law of user-space RCU asks, and
whether the law holds in them; and of programs that are the guest with a few other words, whether just the
field fails that these words break.

    tools/premises/check.py [PROGRAM [LOGS]]

PROGRAM is crates/rseq_run/out/rseq_run where it isn't given. LOGS says with how many seeds a program is
drawn on 2, 3 and 4 harts (40, and hardly fewer than 20; a few where a field is to fail). A line tells of
each program how many logs there are and what comes about in them. Below it stands each field that fails, in
how many logs, and in which first, at which line; 0 is the program itself. Ends with 1 where something else
comes of it than is due.
"""
from __future__ import annotations

import struct
import subprocess
import sys
import tempfile
from collections import Counter
from concurrent.futures import ProcessPoolExecutor
from dataclasses import dataclass, field
from itertools import product
from pathlib import Path

sys.path[:0] = [str(Path(__file__).resolve().parents[1] / name) for name in ('runs', 'lens')]

from lens.calls import MPROTECT, RT_SIGACTION, TKILL  # noqa: E402 (found by the line above)
from lens.instructions import ECALL, SIZE  # noqa: E402
from lens.machine import BUILT, Machine  # noqa: E402
from rcu import BRANCH_BACK, CALL, LAST, LOOP, SYNC_BLOCK, Line, Past, ReadRegs, SyncRegs, Urcu  # noqa: E402
from rcu import addi, first_breaks, ld, sd  # noqa: E402
from replay import HANDLER_RETURN, SIGUSR1, segments  # noqa: E402

GUEST = ('make', 'urcu', '3')
HARTS, LOGS, STEPS = (2, 3, 4), 40, 4_000
LOCK_AT, UNLOCK_AT, SYNC_AT = 0x10214, 0x10224, 0x1019C
READ, SYNC = ReadRegs(gp=26, slot=25, scratch=24), SyncRegs(gp=26, slots=27)
URCU = Urcu(0x20008, 0x21040, (2, 3, 4), {LOCK_AT: READ}, {UNLOCK_AT: READ}, {SYNC_AT: SYNC}, {SYNC_AT: 3})
SPARE, REGISTRATION, PRINTING, ACTION = 0x10134, 0x10024, 0x100CC, 0x20020
"""What the guest can do without: code that chooses a hart, registers an area and prints; and a descriptor."""
STOP, NOP, RETURN, PROT_READ = 0x100C0, 0x13, 0x00008067, 1
BNE_X6_THIRD, BEQ_A0_BACK, SRLI_X5_5 = 0x00031663, 0xFE0508E3, 0x0052D293


def lui(rd: int, page: int) -> int:
    return page << 12 | rd << 7 | 0x37


def jal(rd: int, distance: int) -> int:
    low = (distance >> 1 & 0x3FF) << 9 | (distance >> 11 & 1) << 8 | distance >> 12 & 0xFF
    return ((distance >> 20 & 1) << 19 | low) << 12 | rd << 7 | 0x6F


def call(number: int) -> list[int]:
    """A call, and a return."""
    return [addi(17, 0, number), ECALL, RETURN]


def protect(page: int) -> dict[int, list[int]]:
    """The words by which the first thread takes the leave to write a page away before its sync block."""
    words = [lui(10, page), addi(11, 0, 8), addi(12, 0, PROT_READ), *call(MPROTECT)]
    return {SPARE: words, SYNC_AT - SIZE: [jal(1, SPARE - SYNC_AT + SIZE)]}


GRACES, IN_SECTIONS, WAITS = 'grace periods', 'of them begun in a section', 'loads that do not pass'
RETURNS, OUTLAWS = 'returns of handlers into sync', 'Law.sections_end_before_grace_periods'
BEHIND = 'entries behind a thread that ended there'
WAYS = (GRACES, IN_SECTIONS, WAITS, RETURNS, BEHIND)
HANDLER = {
    REGISTRATION: [addi(10, 0, SIGUSR1), lui(11, 0x20), addi(11, 11, 0x20), addi(12, 0, 0), addi(13, 0, 8)],
    REGISTRATION + 5 * SIZE: call(RT_SIGACTION),
    ACTION: [SPARE + 4 * SIZE, 0, 0, 0, 0, 0],
    SPARE: [addi(10, 0, 1), addi(11, 0, SIGUSR1), *call(TKILL)],
    0x10228: [jal(1, SPARE - 0x10228), NOP],
}
STALE_FRAMES = {
    **HANDLER,
    ACTION: [PRINTING, 0, 0, 0, 0, 0],
    PRINTING: [lui(5, 0x41), ld(6, 5), BNE_X6_THIRD, sd(5, 2), RETURN, addi(2, 6, 0), RETURN],
    0x101E0: [addi(2, 2, -288)],
    0x101FC: [jal(0, STOP - 0x101FC)],
}
ENDING = {
    **HANDLER,
    ACTION: [STOP, 0, 0, 0, 0, 0],
    0x10150: [addi(20, 0, 1)],
    0x1023C: [jal(0, PRINTING - 0x1023C)],
    PRINTING: [addi(10, 0, 1), addi(11, 0, 0), addi(17, 0, TKILL), ECALL, BEQ_A0_BACK],
    PRINTING + 5 * SIZE: [jal(0, SYNC_AT - PRINTING - 5 * SIZE)],
}
"""The handler ends its thread. One reader asks by a signal 0 until the first thread isn't there any more, and
makes a grace period then."""


@dataclass(frozen=True)
class Case:
    """A program: the guest with other words from some addresses on; which fields fail in its logs, and what
    comes about in some of them. Seeds are given where a field is to fail: of those that show it."""

    about: str
    fails: str = ''
    words: dict[int, list[int]] = field(default_factory=dict)
    shows: tuple[str, ...] = ()
    seeds: range = range(3)

    def file(self, guest: bytes) -> bytes:
        made = bytearray(guest)
        for at, words in self.words.items():
            parts = ((row[2] - row[3], row[3], row[3] + row[5]) for row in segments(guest))
            offset = next(offset for offset, start, end in parts if start <= at < end)
            struct.pack_into(f'<{len(words)}I', made, at + offset, *words)
        return bytes(made)


CASES = [
    Case('the guest', shows=(GRACES, IN_SECTIONS, WAITS)),
    Case('handlers return into sync', words=HANDLER, shows=WAYS[:-1]),
    Case('handlers end threads in sync', words=ENDING, shows=(BEHIND,)),
    Case('sync makes no call', 'AreBlocks.syncs', {SYNC_AT + CALL: [NOP]}, (OUTLAWS,), range(24, 28)),
    Case('the counter begins at 0', 'IsStart.some', {URCU.counter: [0, 0]}),
    Case('the counter passes its end', 'IsUse.small', {URCU.counter: [0xFFFF_FFFE, 0xFFFF_FFFF]}),
    Case('the counter may not be written', 'IsUse.counter_usable', protect(URCU.counter >> 12)),
    Case('the slots may not be written', 'IsUse.slot_usable', protect(URCU.slots >> 12)),
    Case('another store in the counter', 'IsUse.counter', {0x10168: [sd(26, 5)]}),
    Case('another store in a slot', 'IsUse.slot', {0x10238: [sd(25, 22)]}),
    Case('a slot of another thread', 'IsUse.writer', {0x10208: [SRLI_X5_5]}),
    Case('a lock inside a section', 'IsUse.turns', {0x1021C: [jal(0, 12)]}, seeds=range(1)),
    Case('two threads in sync', 'IsUse.alone', {0x1023C: [jal(0, SYNC_AT - 0x1023C)]}),
    Case('no registration', 'IsUse.registered', {0x10170: [addi(10, 0, 0)]}, (OUTLAWS,)),
    Case('a way into the middle of lock', 'IsUse.locking', {LOCK_AT - SIZE: [jal(0, 8)]}),
    Case('a way into the middle of sync', 'IsUse.syncing', {SYNC_AT - SIZE: [jal(0, 24)]}),
    Case('handlers return by an old frame', 'IsUse.alone IsUse.syncing', STALE_FRAMES, seeds=range(432, 440)),
    Case('a reader without the counter', 'IsUse.lock_gp', {LOCK_AT - SIZE: [addi(26, 28, 0)]}),
    Case('sync without the counter', 'IsUse.sync_gp', {SYNC_AT - SIZE: [addi(26, 28, 512)]}),
    Case('sync from slot 1 on', 'IsUse.sync_slots', {0x1015C: [addi(27, 9, 128)]}),
]


@dataclass(frozen=True)
class Log:
    """A drawn run of a program."""

    machine: str
    elf: str
    harts: int
    seed: int

    def found(self) -> tuple[dict[str, int], Counter[str]]:
        """The fields that fail, each with the first line where it does; and how often what comes about."""
        machine = Machine(self.machine, self.elf, (f'--harts={self.harts}', f'--steps={STEPS}'))
        steps, file = machine.draw(self.seed).steps, Path(self.elf).read_bytes()
        told: Counter[str] = Counter()
        return first_breaks(file, URCU, steps, lambda *place: told.update(tells(*place))), told


def tells(past: Past, line: Line) -> list[str]:
    """What comes about by a line."""
    ways = {
        GRACES: line.place == LAST,
        IN_SECTIONS: line.place == CALL and any(past.sections),
        WAITS: line.place == BRANCH_BACK and line.e.deed.after.pc == SYNC_AT + LOOP,
        RETURNS: line.e.step.pc == HANDLER_RETURN + SIZE and line.e.deed.after.pc - SYNC_AT in SYNC_BLOCK,
        BEHIND: line.place == 0 and past.ended,
    }
    return [way for way, comes in ways.items() if comes]


def is_as_due(case: Case, logs: list[Log], found: list[tuple[dict[str, int], Counter[str]]]) -> bool:
    """Whether what is due is found in the logs of a program; tells what is found."""
    fails = Counter(name for names, _ in found for name in names)
    told = sum((counts for _, counts in found), Counter())
    ways = ''.join(f', {told[way]} {way}' for way in WAYS if told[way])
    print(f'{case.about}: {len(logs)} logs{ways}')
    for name, count in fails.items():
        log, line = next((log, names[name]) for log, (names, _) in zip(logs, found) if name in names)
        print(f'    {name} fails in {count}, first by --harts {log.harts} --seed {log.seed} at line {line}')
    premises = {name for name in fails if not is_law(name)}
    is_due = premises == set(case.fails.split()) and {*case.shows} <= {*told, *fails}
    if not is_due:
        print(f'    but due is: {case.fails or "nothing"} fails; {", ".join(case.shows)}')
    lawless = [log for log, (names, _) in zip(logs, found) if not is_lawful(names)]
    for log in lawless:
        print(f'    a law fails before anything else by --harts {log.harts} --seed {log.seed}')
    return is_due and not lawless


def is_law(name: str) -> bool:
    return name.startswith('Law.')


def is_lawful(fails: dict[str, int]) -> bool:
    """Whether no law fails at an earlier line than all that it asks for."""
    first = min((line for name, line in fails.items() if not is_law(name)), default=STEPS + 1)
    return all(line >= first for name, line in fails.items() if is_law(name))


def main() -> None:
    program = str(Path(sys.argv[1] if len(sys.argv) > 1 else BUILT).resolve())
    most = int(sys.argv[2]) if len(sys.argv) > 2 else LOGS
    if not Path(program).is_file():
        sys.exit(f'{program} is no file: build it with `rt ci` first')
    guest = subprocess.run([program, *GUEST], capture_output=True, check=True).stdout
    with tempfile.TemporaryDirectory() as folder, ProcessPoolExecutor() as workers:
        logs = []
        for number, case in enumerate(CASES):
            elf = Path(folder) / f'{number}.elf'
            elf.write_bytes(case.file(guest))
            seeds = case.seeds if case.fails else range(most)
            logs.append([Log(program, str(elf), harts, seed) for harts, seed in product(HARTS, seeds)])
        found = [workers.map(Log.found, of_case, chunksize=8) for of_case in logs]
        due = [is_as_due(case, of_case, list(them)) for case, of_case, them in zip(CASES, logs, found)]
    sys.exit(0 if all(due) else 1)


if __name__ == '__main__':
    main()

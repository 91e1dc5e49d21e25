"""Programs of two threads from a seed, so small that every place of theirs can be visited."""
from __future__ import annotations

import random
from collections.abc import Callable, Sequence as Some

from .parts import (
    CPU_ID, CPU_ID_START, MM_CID, PRIVATE_EXPEDITED, PRIVATE_EXPEDITED_RSEQ, REGISTER_PRIVATE_EXPEDITED,
    REGISTER_PRIVATE_EXPEDITED_RSEQ, SIGNAL, Sequence, asked_cpu, barrier, handled, registered, sent, waited,
    woken, yielded,
)
from .program import AREAS, BASE, CELLS, MOST_RESULTS, OWN, RESULTS, SHARED, Lines, Program

REGISTERS = ('t0', 't1', 't2', 't3')
"""Those of a thread's results, in order. The others, t4 to t6, are for what is computed between."""
AMOS = ('amoadd.w', 'amoswap.w', 'amoor.w', 'amomax.w')
FENCES = ('fence rw, rw', 'fence w, r', 'fence r, r', 'fence.tso')
IGNORED_SIGNAL = 17
"""SIGCHLD, which is dropped where it has no handler."""


class Part:
    """What one thread executes, thread 0 or 1, as it is put together."""

    def __init__(self, thread: int, beginning: Lines = ()):
        self.thread = thread
        self.lines = [*beginning]
        self.results = 0

    def add(self, *lines: str) -> None:
        self.lines += lines

    def result(self) -> str:
        """The register of the next result, or of the last one where no more are there."""
        self.results = min(self.results + 1, len(REGISTERS))
        return REGISTERS[self.results - 1]

    def old(self) -> str:
        """A register that has a result, or will have one."""
        return REGISTERS[max(self.results - 1, 0)]

    def finished(self) -> Lines:
        """With its results stored."""
        first = RESULTS + MOST_RESULTS * self.thread
        stores = (f'sb {REGISTERS[at]}, {first + at}({BASE})' for at in range(self.results))
        return (*self.lines, *stores)


Piece = Callable[[Part], None]


class Generator:
    """Puts a program together."""

    def __init__(self, seed: int):
        self.random = random.Random(seed)
        self.seed = seed
        self.labels = 0
        self.sequences = 0

    def program(self) -> Program:
        """One of the kind that the seed names."""
        kind = KINDS[self.seed % len(KINDS)]
        before, parts, behind = getattr(self, kind)()
        threads = parts[0].finished(), parts[1].finished()
        return Program(f'seed {self.seed}: {kind}', before, threads, self.sequences, behind)

    def some(self, part: Part, pieces: Some[Piece], least: int, most: int) -> None:
        """So many of some pieces."""
        for _ in range(self.random.randint(least, most)):
            self.random.choice(pieces)(part)

    def word(self) -> int:
        return self.random.choice(SHARED)

    def value(self) -> int:
        return self.random.randint(1, 3)

    # ---- instructions

    def access(self, part: Part) -> None:
        """A load or a store of a word that both threads touch."""
        if self.random.randrange(2):
            part.add(f'lw {part.result()}, {self.word()}({BASE})')
        else:
            part.add(f'li t6, {self.value()}', f'sw t6, {self.word()}({BASE})')

    def amo(self, part: Part) -> None:
        """An AMO, or a pair of LR and SC without a loop, with a local step before the SC or none."""
        part.add(f'addi t5, {BASE}, {self.word()}', f'li t6, {self.value()}')
        if self.random.randrange(2):
            part.add(f'{self.random.choice(AMOS)} {part.result()}, t6, (t5)')
        else:
            part.add(f'lr.w {part.result()}, (t5)', *self.few('addi t6, t6, 1'))
            part.add(f'sc.w {part.result()}, t6, (t5)')

    def few(self, line: str) -> Lines:
        """A line, or none."""
        return (line,) if self.random.randrange(2) else ()

    def fence(self, part: Part) -> None:
        part.add(self.random.choice(FENCES))

    def own(self, part: Part) -> None:
        """A load or a store of the thread's own word."""
        word = OWN[part.thread]
        if self.random.randrange(2):
            part.add(f'lw {part.result()}, {word}({BASE})')
        else:
            part.add(f'li t6, {self.value()}', f'sw t6, {word}({BASE})')

    def local(self, part: Part) -> None:
        """One or two instructions that touch only registers."""
        old = part.old()
        lines = [f'{name} {old}, {old}, 1' for name in ('addi', 'xori', 'slli')]
        lines += [f'slli t6, {old}, 1', f'add {old}, {old}, t6', 'nop']
        part.add(*self.random.sample(lines, self.random.randint(1, 2)))

    def branch(self, part: Part) -> None:
        """A jump past an access, where a result is 0 or where it isn't."""
        label = f'over{self.labels}'
        self.labels += 1
        part.add(f'{self.random.choice(("beqz", "bnez"))} {part.old()}, {label}')
        self.access(part)
        part.add(f'{label}:')

    # ---- what is about the kernel

    def sequence(self, part: Part) -> None:
        """A sequence that adds to a word of both threads; or, where it is checked, to one of a hart."""
        is_checked = self.random.randrange(2) == 0
        inside, commit = self.of_cell() if is_checked and self.random.randrange(2) else self.of_word()
        number, self.sequences = self.sequences, self.sequences + 1
        old = part.old()
        gap = self.random.choice(((), (), ('nop',), ('fence',), (f'addi {old}, {old}, 4',)))
        deed = ('li t6, 5', f'sw t6, {self.word()}({BASE})')
        handler = self.random.choice(((), (f'addi {part.result()}, t6, 16',), deed))
        is_retried, is_cleared = (self.random.randrange(3) == 0 for _ in range(2))
        made = Sequence(number, part.thread, inside, commit, gap, handler, is_retried, is_checked, is_cleared)
        part.add(*made.lines())

    def of_word(self) -> tuple[Lines, str]:
        """What stands inside a sequence, and its commit: a word is loaded, or isn't; and stored."""
        load = self.few(f'lw t6, {self.word()}({BASE})')
        return (*load, 'addi t6, t6, 1'), f'sw t6, {self.word()}({BASE})'

    def of_cell(self) -> tuple[Lines, str]:
        """The same with the word of the hart that t5 names."""
        place: Lines = ('slli t5, t5, 3', f'add t5, t5, {BASE}')
        return (*place, f'lw t6, {CELLS}(t5)', 'addi t6, t6, 1'), f'sw t6, {CELLS}(t5)'

    def area(self, part: Part) -> None:
        """The load of a word that the kernel writes into the thread's area."""
        field = self.random.choice((CPU_ID_START, CPU_ID, CPU_ID, MM_CID))
        part.add(f'lw {part.result()}, {AREAS[part.thread] + field}({BASE})')

    def leave(self, part: Part) -> None:
        part.add(*yielded())

    def cpu(self, part: Part) -> None:
        part.add(*asked_cpu(part.result()))

    def wait(self, part: Part) -> None:
        """A wait, or a wake, at a word that both share."""
        word = self.word()
        part.add(*(waited(word, self.random.randrange(2)) if self.random.randrange(2) else woken(word)))
        part.add(f'mv {part.result()}, a0')

    def expedited(self, part: Part) -> None:
        """A store, a barrier, and a load."""
        self.stored(part)
        part.add(*barrier(PRIVATE_EXPEDITED), f'lw {part.result()}, {self.word()}({BASE})')

    def stored(self, part: Part) -> None:
        part.add(f'li t6, {self.value()}', f'sw t6, {self.word()}({BASE})')

    # ---- kinds: what comes before thread 2, the two threads, and what stands behind them

    def plain(self) -> tuple[Lines, tuple[Part, Part], Lines]:
        parts = Part(0), Part(1)
        pieces = (self.access,) * 4 + (self.amo, self.fence, self.local, self.local, self.branch)
        for part in parts:
            self.some(part, pieces, 2, 4)
        return (), parts, ()

    def private(self) -> tuple[Lines, tuple[Part, Part], Lines]:
        parts = Part(0), Part(1)
        for part in parts:
            self.some(part, (self.own,) * 3 + (self.access,) * 2 + (self.local, self.branch), 2, 4)
        return (), parts, ()

    def sequences_of_one(self) -> tuple[Lines, tuple[Part, Part], Lines]:
        """One thread has a sequence, and the other one touches the same words."""
        parts = Part(0), Part(1)
        self.sequence(parts[0])
        self.some(parts[1], (self.access, self.access, self.amo, self.local), 1, 2)
        return registered(0), parts, ()

    def sequences_of_two(self) -> tuple[Lines, tuple[Part, Part], Lines]:
        parts = Part(0), Part(1, registered(1))
        for part in parts:
            self.sequence(part)
        return registered(0), parts, ()

    def ids(self) -> tuple[Lines, tuple[Part, Part], Lines]:
        """Loads of the areas, at two moments or more."""
        parts = Part(0), Part(1, registered(1))
        for part in parts:
            self.some(part, (self.area, self.area, self.local, self.leave, self.access), 1, 3)
        self.area(parts[0])
        return registered(0), parts, ()

    def barriers(self) -> tuple[Lines, tuple[Part, Part], Lines]:
        """A barrier that waits for stores, or one that restarts a sequence."""
        parts = Part(0), Part(1)
        if self.random.randrange(2):
            self.expedited(parts[0])
            self.some(parts[1], (self.access, self.access, self.local, self.fence), 1, 3)
            return barrier(REGISTER_PRIVATE_EXPEDITED), parts, ()
        parts = Part(0), Part(1, registered(1))
        self.stored(parts[0])
        parts[0].add(*barrier(PRIVATE_EXPEDITED_RSEQ))
        self.sequence(parts[1])
        return barrier(REGISTER_PRIVATE_EXPEDITED_RSEQ), parts, ()

    def signals(self) -> tuple[Lines, tuple[Part, Part], Lines]:
        """A signal, with a handler or without, that ends the process or is dropped then."""
        has_handler = self.random.randrange(2) == 0
        parts = Part(0), Part(1, ('lla sp, stack',))
        sender, target = self.random.sample(parts, 2)
        self.some(target, (self.access, self.local), 1, 2)
        self.some(sender, (self.access,), 0, 1)
        signal = SIGNAL if has_handler or self.random.randrange(2) else IGNORED_SIGNAL
        sender.add(*sent(target.thread + 1, signal))
        self.some(sender, (self.access,), 0, 1)
        seen = f'sb {self.random.choice(("t0", "t6"))}, {RESULTS + MOST_RESULTS - 1}({BASE})'
        deed = self.random.choice((seen, f'sw a0, {self.word()}({BASE})'))
        return (handled(), parts, ('handler:', deed, 'ret')) if has_handler else ((), parts, ())

    def calls(self) -> tuple[Lines, tuple[Part, Part], Lines]:
        parts = Part(0), Part(1)
        for part in parts:
            self.some(part, (self.leave, self.cpu, self.wait, self.access, self.access, self.local), 1, 3)
        return (), parts, ()

    def mixture(self) -> tuple[Lines, tuple[Part, Part], Lines]:
        parts = Part(0), Part(1)
        pieces = self.sequence, self.area, self.leave, self.cpu, self.amo, self.expedited, self.access
        self.some(parts[0], pieces, 1, 2)
        self.some(parts[1], (self.access, self.amo, self.local, self.wait, self.leave, self.fence), 1, 2)
        return (*barrier(REGISTER_PRIVATE_EXPEDITED), *registered(0)), parts, ()


KINDS = (
    'plain', 'private', 'sequences_of_one', 'sequences_of_two', 'ids', 'barriers', 'signals', 'calls',
    'mixture', 'sequences_of_one',
)
"""The kinds of programs, as the methods that make them; one of each ten seeds in turn."""


def random_program(seed: int) -> Program:
    """The program of a seed."""
    return Generator(seed).program()

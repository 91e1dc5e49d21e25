"""Programs with names. In each of them a reduction that is a little less careful than that of `rseq_run`
would lose an outcome; which one, is said there."""
from __future__ import annotations

from .parts import CPU_ID, SIGNAL, Sequence, asked_cpu, handled, has_ended, registered, sent, yielded
from .program import AREAS, BASE, SHARED, Lines, Program

X, Y = SHARED
LOAD, ADD, STORE = f'lw t6, {X}({BASE})', 'addi t6, t6, 1', f'sw t6, {X}({BASE})'
PLUS_TEN: Lines = (f'lw t0, {X}({BASE})', 'addi t0, t0, 10', f'sw t0, {X}({BASE})')


def result(register: str, place: int) -> str:
    """A register is stored as a result."""
    return f'sb {register}, {place}({BASE})'


def one_sequence(name: str, sequence: Sequence, other: Lines) -> Program:
    """A sequence of thread 1, and what thread 2 makes meanwhile."""
    return Program(name, registered(0), (tuple(sequence.lines()), other), 1)


def area_loads() -> Program:
    """Loads of the own area are no local steps, though no other thread writes there: the kernel does, where
    the thread comes to another hart."""
    word = f'{AREAS[0] + CPU_ID}({BASE})'
    seen: Lines = (f'lw t0, {word}', 'addi t1, t0, 1', f'lw t2, {word}')
    shown = (result('t0', 0), result('t1', 1), result('t2', 2))
    return Program('area loads', registered(0), ((*seen, *shown), ()))


def gap_before_sequence() -> Program:
    """Between the store of the descriptor's address and the sequence a thread rests with a descriptor named:
    an interruption there takes the name away, and the sequence is no longer one."""
    return one_sequence('gap before sequence', Sequence(0, 0, (LOAD, ADD), STORE, gap=('nop',)), PLUS_TEN)


def fence_before_sequence() -> Program:
    """No step into a sequence is made at once. Where the step behind the fence is, the thread is never
    interrupted outside with the descriptor named, and so the addition of the other thread is never lost."""
    sequence = Sequence(0, 0, (LOAD, ADD), STORE, gap=('fence', 'nop'), is_retried=True)
    return one_sequence('fence before sequence', sequence, PLUS_TEN)


def store_holds_hart() -> Program:
    """A store isn't made at once: a thread whose store waits can't leave its hart. So where it is made at
    once, nobody sees on one hart what memory had before it."""
    store: Lines = ('li t6, 1', f'sw t6, {X}({BASE})', f'lw t0, {Y}({BASE})', result('t0', 0))
    other: Lines = ('li t6, 1', f'sw t6, {Y}({BASE})', f'lw t0, {X}({BASE})', result('t0', 8))
    return Program('store holds hart', (), (store, other))


def handler_sees_registers() -> Program:
    """Steps of a thread that gets a signal aren't made at once: the handler sees in its registers how far
    the thread was."""
    counted: Lines = ('li t0, 1', f'lw t1, {X}({BASE})', 'li t0, 2', 'li t0, 3')
    handler: Lines = ('handler:', result('t0', 7), 'ret')
    threads = (*counted, *has_ended()), sent(1, SIGNAL)
    return Program('handler sees registers', handled(), threads, 0, handler)


def abort_shows_register() -> Program:
    """Inside a sequence no step is made at once: the abort handler sees in a register how far the sequence
    was."""
    inside = ('li t6, 1', 'li t6, 2', 'li t6, 3')
    return one_sequence('abort shows register', Sequence(0, 0, inside, STORE, handler=(result('t6', 0),)), ())


def two_cpus() -> Program:
    """A thread comes to each hart, also to one that is idle with a higher number than another idle one."""
    asked = (*asked_cpu('t0'), *yielded(), *asked_cpu('t1'), result('t0', 0), result('t1', 1))
    return Program('two cpus', (), (asked, ()))


def branch_over_sequence() -> Program:
    """A thread that jumps out of a sequence is outside behind the jump, and one that jumps in isn't."""
    inside = (f'lw t6, {X}({BASE})', 'bnez t6, end0', 'addi t6, t6, 1')
    return one_sequence('branch over sequence', Sequence(0, 0, inside, STORE), PLUS_TEN)


NAMED = {
    program.name: program
    for program in (
        area_loads(), gap_before_sequence(), fence_before_sequence(), store_holds_hart(),
        handler_sees_registers(), abort_shows_register(), two_cpus(), branch_over_sequence(),
    )
}
"""The programs, by their names."""

"""What gdb itself is given when it looks at a recorded run: the frames of signal handlers, commands, and
which thread a step backwards is of. It runs in gdb, and uses nothing else of lens."""
from __future__ import annotations

from collections.abc import Sequence

import gdb
import gdb.unwinder

RETURN, INFO_RETURN, RETURN_END = 0x3F_FFFF_0000, 0x3F_FFFF_0008, 0x3F_FFFF_0010
"""The code to which handlers return, which the machine maps: those without SA_SIGINFO, and those with it."""
INFO_REGISTERS = 304
"""A handler's frame is at sp. The pc and x1 to x31 come first in it, and with SA_SIGINFO so many bytes further on."""
REGISTERS = (
    'pc ra sp gp tp t0 t1 t2 fp s1 a0 a1 a2 a3 a4 a5 a6 a7 '
    's2 s3 s4 s5 s6 s7 s8 s9 s10 s11 t3 t4 t5 t6'
).split()
BACKWARDS = ('reverse-stepi', 'reverse-step', 'reverse-next', 'reverse-finish')


class FrameId:
    """What tells a frame from others."""

    def __init__(self, sp: gdb.Value, pc: gdb.Value):
        self.sp, self.pc = sp, pc


class HandlerFrames(gdb.unwinder.Unwinder):  # type: ignore[misc,name-defined]
    """Finds the function that a handler interrupted: whoever is at the code to which handlers return has the
    frame of the machine at its stack pointer."""

    def __init__(self) -> None:
        super().__init__('rseq_run frames of handlers')

    def __call__(self, pending: gdb.PendingFrame) -> gdb.UnwindInfo | None:
        pc = pending.read_register('pc')
        if not RETURN <= int(pc) < RETURN_END:
            return None
        sp = pending.read_register('sp')
        at = int(sp) + (INFO_REGISTERS if int(pc) >= INFO_RETURN else 0)
        words = bytes(gdb.selected_inferior().read_memory(at, 8 * len(REGISTERS)))
        found = pending.create_unwind_info(FrameId(sp, pc))
        kind = gdb.lookup_type('unsigned long')
        for number, name in enumerate(REGISTERS):
            value = int.from_bytes(words[8 * number : 8 * number + 8], 'little')
            found.add_saved_register(name, gdb.Value(value).cast(kind))
        return found


class Words(gdb.Command):
    """A command whose words are some of a few."""

    known: Sequence[str] = ()

    def complete(self, text: str, word: str) -> list[str]:
        return [one for one in self.known if one.startswith(word)]


class Goto(Words):
    """Go to the place before a step of the run: goto N, or goto end.
Breakpoints on the way are passed."""

    known = ('end',)

    def __init__(self) -> None:
        super().__init__('goto', gdb.COMMAND_RUNNING)

    def invoke(self, words: str, _: bool) -> None:
        go(f'goto {words}', 'there is no step', 'monitor goto')


class NextCall(Words):
    """Go to the place before the next system call: next-call [NAME]."""

    def __init__(self) -> None:
        super().__init__('next-call', gdb.COMMAND_RUNNING)

    def invoke(self, words: str, _: bool) -> None:
        go(f'next-call {words}', 'there is no')


class PreviousCall(Words):
    """Go back to the place before the last system call: previous-call [NAME]."""

    def __init__(self) -> None:
        super().__init__('previous-call', gdb.COMMAND_RUNNING)

    def invoke(self, words: str, _: bool) -> None:
        go(f'previous-call {words}', 'there is no')


class Harts(Words):
    """Show what each hart and each thread of the run is at: stores that wait, requests of barriers, areas."""

    def __init__(self) -> None:
        super().__init__('harts', gdb.COMMAND_STATUS)

    def invoke(self, words: str, _: bool) -> None:
        gdb.execute('monitor harts')


class Why(Words):
    """Show why the run ended as it did."""

    def __init__(self) -> None:
        super().__init__('why', gdb.COMMAND_STATUS)

    def invoke(self, words: str, _: bool) -> None:
        gdb.execute('monitor why')


class Events(Words):
    """Show the steps round this place, with all that each did: events [K], K steps on either side."""

    def __init__(self) -> None:
        super().__init__('events', gdb.COMMAND_STATUS)

    def invoke(self, words: str, _: bool) -> None:
        gdb.execute(f'monitor events {words}')


class Writer(gdb.Command):
    """Show who wrote a variable last, and whose stores to it wait: writer EXPRESSION."""

    def __init__(self) -> None:
        super().__init__('writer', gdb.COMMAND_DATA, gdb.COMPLETE_EXPRESSION)

    def invoke(self, words: str, _: bool) -> None:
        gdb.execute(f'monitor writer {place_of(words)}')


class Writes(gdb.Command):
    """Stop at each write of a variable, also of one that leaves its value as it was: writes EXPRESSION.
It is a watchpoint for accesses: delete and disable it as one."""

    def __init__(self) -> None:
        super().__init__('writes', gdb.COMMAND_BREAKPOINTS, gdb.COMPLETE_EXPRESSION)

    def invoke(self, words: str, _: bool) -> None:
        gdb.execute(f'monitor writes {place_of(words)}')
        gdb.execute(f'awatch -location {words}')


class View(Words):
    """Say what memory is: view hart, as the hart of the thread sees it, or view memory, without the stores
that wait."""

    known = ('hart', 'memory')

    def __init__(self) -> None:
        super().__init__('view', gdb.COMMAND_DATA)

    def invoke(self, words: str, _: bool) -> None:
        gdb.execute(f'monitor view {words}')
        gdb.execute('maintenance flush dcache', to_string=True)
        flush()


class Moment(Words):
    """Say when a store counts for watchpoints: moment made, where it is executed; moment enters, where it
enters memory; moment both."""

    known = ('made', 'enters', 'both')

    def __init__(self) -> None:
        super().__init__('moment', gdb.COMMAND_BREAKPOINTS)

    def invoke(self, words: str, _: bool) -> None:
        gdb.execute(f'monitor watch {words}')


def go(command: str, *refusals: str) -> None:
    """Has a place chosen, and goes there. gdb learns of it by a resumption, which is one backwards: forwards
    it may step off a breakpoint first."""
    said = (gdb.execute(f'monitor {command}', to_string=True) or '').strip()
    if said.startswith(refusals):
        raise gdb.GdbError(said)
    if said:
        print(said)
    gdb.execute('reverse-continue')


def place_of(words: str) -> str:
    """The bytes of an expression, as the commands of `monitor` take them."""
    try:
        value = gdb.parse_and_eval(words)
    except gdb.error as error:
        raise gdb.GdbError(f'{error}') from None
    if value.address is None:
        raise gdb.GdbError(f'{words} has no place in memory')
    return f'{int(value.address):#x}:{value.type.sizeof}'


def tell_thread() -> None:
    """Says which thread goes back: gdb's own words for a step backwards don't."""
    thread = gdb.selected_thread()
    if thread is not None:
        gdb.execute(f'monitor thread {thread.ptid[1] or thread.ptid[2]}', to_string=True)


def flush(_: object = None) -> None:
    """With `set scheduler-locking step` gdb believes that other threads stood still, and keeps their
    registers."""
    gdb.execute('maintenance flush register-cache', to_string=True)


gdb.unwinder.register_unwinder(None, HandlerFrames(), replace=True)
for make in (Goto, NextCall, PreviousCall, Harts, Why, Events, Writer, Writes, View, Moment):
    make()
for name in BACKWARDS:
    gdb.execute(f'define hook-{name}\npython tell_thread()\nend')
gdb.events.stop.connect(flush)

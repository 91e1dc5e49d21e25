"""Why a run ended as it did: `lens why`.

The log says which event was the last. What the event met is asked of `inspect`, at the place before it: the
registers, what the area of the thread names, and which signals are pending. By which rule it killed is asked
of `trace`; a program that doesn't tell it is asked the rest all the same.
"""
from __future__ import annotations

from collections import Counter
from collections.abc import Callable, Iterator
from functools import cached_property

from . import calls
from .checks import failed_check
from .facts import Answer, Called, Killed
from .freed import of_second_free, says_freed_before
from .history import History
from .instructions import Instruction, Opcode
from .machine import Machine
from .output import EXEC, RUN, SIGNAL, Step
from .place import HartPlace, Place
from .sleepers import of_sleeper
from .trace_text import Record
from .unbuilt import of_unbuilt
from .unmapped import of_fault
from .values import Values, read_values

A0, A7, SP = 10, 17, 2
SIGILL, SIGTRAP, SIGBUS, SIGSEGV = 4, 5, 7, 11
ACCESSES = (Opcode.LOAD, Opcode.STORE, Opcode.AMO, Opcode.JALR)
PAGE, STACK = 4_096, 0x3F_FFF0_0000
LATE = 1_000
RIGHT = 'exit 0'
"""The end of a program that didn't fail."""
SIZE = WORD = 4
PROT_READ, PROT_WRITE = 1, 2
AREA = 32
"""How many bytes an area has."""

WRONG = {
    'area-bytes': '`rseq_cs` or `flags` of its area can\'t be read, or `rseq_cs` can\'t be written',
    'pointer': '`rseq_cs` of its area is past the end of addresses',
    'descriptor': 'the descriptor that its area names can\'t be read',
    'version': 'the `version` of the descriptor that its area names isn\'t 0',
    'range': 'the start, the end or the abort handler of the sequence is past the end of addresses',
    'abort-inside': 'the abort handler is inside the sequence',
    'signature': 'the word before the abort handler isn\'t the signature with which the area was registered',
    'sequence-flags': '`flags` of the area or of the descriptor isn\'t 0 while the pc is inside the sequence',
}
"""What `inspect` says behind `names bad`, and `trace` behind `killed`, in words."""


def explain(history: History, machine: Machine) -> Iterator[str]:
    """The cause of a run's end, a sentence a line."""
    causes = Causes(history, machine)
    reason, *number = history.output.end.split(' ')
    kinds: dict[str, Callable[..., Iterator[str]]] = {
        'exit': causes.of_exit,
        'killed': causes.of_kill,
        'stuck': causes.of_sleep,
        'limit': causes.of_limit,
        'open': causes.of_no_end,
    }
    yield from kinds[reason](*map(int, number))
    if reason != 'open' and history.output.end != RIGHT:
        yield from of_unbuilt(history.program, causes.records)


class Causes:
    """The run, and the places that it comes to."""

    def __init__(self, history: History, machine: Machine):
        self.history = history
        self.machine = machine
        self.program = history.program
        self.steps = history.output.steps

    @cached_property
    def values(self) -> Values:
        """What each step read and wrote."""
        return read_values(self.history, self.machine)

    def place(self, number: int) -> Place:
        """The place before a step."""
        return self.machine.inspect([step.line() for step in self.steps[: number - 1]])

    def spot(self, step: Step) -> str:
        return f'{self.program.spot(step.pc)} (step {step.number})'

    # exit

    def of_exit(self, code: int) -> Iterator[str]:
        last = self.steps[-1]
        name = calls.name_of(self.place(last.number).harts[last.hart].registers[A7] & 0xFFFF_FFFF)
        yield f'Thread {last.thread} called {name} at {self.spot(last)}: the process exited with {code}.'
        yield from self.last_line()
        yield from self.late_stores()

    def of_trap(self) -> Iterator[str]:
        """What the program printed before it trapped: a check that failed, or a block that was freed twice."""
        console = self.history.output.console
        failed = failed_check(console)
        yield from [failed] if failed else self.last_line()
        if says_freed_before(console):
            yield from of_second_free(self.values)

    def last_line(self) -> Iterator[str]:
        """The last line of the console, and who wrote last."""
        lines = self.history.output.console.splitlines()
        writes = [step for step, number in self.history.calls.items() if number in calls.WRITES]
        if lines and writes:
            step = self.steps[max(writes) - 1]
            line = lines[-1].decode('utf-8', 'replace')
            yield f'The last line on the console is {line!r}.'
            yield f'Thread {step.thread} wrote last, at {self.spot(step)}.'

    def late_stores(self) -> Iterator[str]:
        for store in self.history.waiting:
            text = self.history.instructions[store.number].text
            yield f'A store of hart {store.hart} waited still: {text} at {self.spot(store)}.'

    # killed

    def of_kill(self, signal: int) -> Iterator[str]:
        last = self.steps[-1]
        place = self.place(last.number)
        at = '' if last.kind == EXEC else f'by the `{last.kind}`, '
        name = calls.NAMES_OF['signal'](signal)
        yield f'{name} ({signal}) killed thread {last.thread} on hart {last.hart}, {at}at {self.spot(last)}.'
        yield from (f'    {text}' for text in self.program.outer_source(last.pc))
        if last.kind == EXEC:
            yield from self.of_instruction(last, signal, place.harts[last.hart])
        elif last.kind == SIGNAL:
            yield from self.of_signal(last, signal, place)
        elif self.rule == 'area-words':
            yield from self.of_words(last, f'At this `{last.kind}`')
        else:
            yield from self.of_area(last)

    @cached_property
    def records(self) -> list[Record]:
        """What each step did."""
        return self.machine.trace([step.line() for step in self.steps]).records

    @property
    def rule(self) -> str | None:
        """By which rule the last step killed; None where the program doesn't tell it."""
        killed = self.records[-1].first(Killed)
        return killed.why if killed else None

    def of_instruction(self, step: Step, signal: int, here: HartPlace) -> Iterator[str]:
        """What is wrong with an instruction: its word, its address, or that it calls inside a sequence."""
        instruction = self.program.instruction(step.pc)
        if instruction is None:
            what = 'behind its end' if signal == SIGILL else self.found(step.pc)
            yield f'The file has no code at {step.pc:#x}: {what}.'
        elif instruction.is_call:
            yield from self.of_call(step, here)
        elif signal == SIGILL:
            yield f'{instruction.word:#010x} is no instruction of this machine.'
        elif signal == SIGTRAP:
            yield 'It executed EBREAK.'
            yield from self.of_trap()
        elif instruction.opcode in ACCESSES:
            yield self.of_access(instruction, signal, here)
        if signal == SIGSEGV:
            yield from of_fault(self.values)
        if self.rule == 'masked':
            yield f'It masks {calls.NAMES_OF["signal"](signal)}, so no handler of that is entered.'
        if here.named and here.named.is_inside:
            start = self.program.where(here.named.start)
            yield f'It was inside the restartable sequence that begins at {start}.'

    def of_call(self, step: Step, here: HartPlace) -> Iterator[str]:
        name = calls.name_of(here.registers[A7] & 0xFFFF_FFFF)
        if here.named and here.named.is_inside:
            yield f'It called {name}: no call may be made inside a restartable sequence.'
        elif self.rule == 'area-words':
            yield from self.of_words(step, f'It called {name}, and')
        elif self.rule == 'frame-not-readable':
            yield f'It called {name}, and the frame at sp, {here.registers[SP]:#x}, can\'t be read.'
        else:
            yield f'It called {name}, with {here.registers[A0]:#x} as first argument.'

    def of_access(self, instruction: Instruction, signal: int, here: HartPlace) -> str:
        """Which address an access or a jump was about, and what is there."""
        address = (here.registers[instruction.base] + instruction.offset) % 2**64
        if instruction.opcode == Opcode.JALR:
            return f'`{instruction.text}` goes to {address:#x}: {self.found(address)}.'
        bytes_there = f'{instruction.size} bytes' if instruction.size > 1 else 'byte'
        is_misaligned = signal == SIGBUS and address % instruction.size
        why = f'no multiple of {instruction.size}' if is_misaligned else self.found(address)
        return f'`{instruction.text}` is about the {bytes_there} at {address:#x}: {why}.'

    def found(self, address: int) -> str:
        """What is at an address, as far as the file says it."""
        segment = self.program.segment(address)
        if segment:
            return f'{self.program.variable(address)}, which the file loads as {segment.rights}'
        if address < PAGE:
            return 'a null pointer, or near one'
        if STACK - PAGE <= address < STACK:
            return 'the page below the stack of the first thread, which is full'
        return 'no page is there, or one that doesn\'t allow it'

    # an area, or a signal

    def of_words(self, step: Step, where: str) -> Iterator[str]:
        """That the kernel can't write the words of a thread's area, and who made it so."""
        at = self.area(step)
        yield f'{where} the words of its area for restartable sequences at {at:#x} couldn\'t be written.'
        yield from self.of_page(step, at)

    def of_page(self, step: Step, area: int) -> Iterator[str]:
        """Why the page of an area can't be used as it has to be, by the last call that changed it."""
        for record in reversed(self.records[: step.number - 1]):
            changed = page_change(record, area)
            if changed:
                maker = record.step
                spot = self.program.spot(maker.pc)
                yield f'Thread {maker.thread} {changed} in step {maker.number}, at {spot}.'
            if changed is not None:
                return
        segment = self.program.segment(area)
        page = f'The file loads that as {segment.rights}' if segment else 'The file has no page there'
        yield f'{page}, and no mprotect or munmap changed it.'

    def area(self, step: Step) -> int:
        """The area that a thread has registered last, or registers in this step."""
        for record in reversed(self.records[: step.number]):
            called = record.first(Called)
            if called and called.name == 'rseq' and record.step.thread == step.thread:
                if record.step.number == step.number or is_done(record):
                    return called.arguments[0]
        return 0

    def of_area(self, step: Step) -> Iterator[str]:
        """What the area of a thread named when it was interrupted. It is shown where the thread runs."""
        left = step
        if step.kind == RUN:
            own = (other for other in reversed(self.steps[:-1]) if other.thread == step.thread)
            left = next(own, step)
            yield f'It had left its hart by `{left.kind}` in step {left.number}.'
        here = self.place(left.number).harts[left.hart]
        wrong = here.wrong or self.rule
        if wrong is None:
            yield 'What its area for restartable sequences named was right: somebody has changed it since.'
            return
        yield f'Its area for restartable sequences is wrong: {WRONG.get(wrong, wrong)}.'
        if wrong == 'area-bytes' and self.rule is not None:
            yield from self.of_page(step, self.area(step))
        if here.wrong is None:
            yield 'When it left its hart that was right: somebody has changed it since.'
        if here.wrong == 'signature' and here.signature is not None:
            yield from self.signatures(here.signature)

    def signatures(self, registered: int) -> Iterator[str]:
        """The abort handlers of the file's descriptors before which something else stands than was
        registered."""
        yield f'It was registered with {registered:#010x}.'
        for one in self.program.descriptors:
            word = self.program.word(one.abort - SIZE)
            if word != registered:
                stands = 'no code' if word is None else f'{word:#010x}'
                yield f'Before the abort handler {self.program.spot(one.abort)} stands {stands}.'

    def of_signal(self, step: Step, signal: int, place: Place) -> Iterator[str]:
        here, due = place.harts[step.hart], place.threads[step.thread].next_signal()
        if here.wrong:
            yield from self.of_area(step)
        elif due == signal and self.rule != 'frame-not-writable':
            yield 'The signal was pending for it, and nothing handles it.'
        else:
            name = calls.NAMES_OF['signal'](due or 0)
            stack = here.registers[SP]
            yield f'{name} was to be delivered, and its frame can\'t be written below sp, {stack:#x}.'

    # stuck, limit, open

    def of_sleep(self) -> Iterator[str]:
        yield 'Each live thread waits in a futex, and nobody is left to wake one.'
        for thread, here in self.place(len(self.steps) + 1).threads.items():
            own = (step for step in reversed(self.steps) if step.thread == thread and step.kind == EXEC)
            yield f'Thread {thread} waits at {self.name(here.word or 0)}, since {self.spot(next(own))}.'
            yield from of_sleeper(self.values, thread, here.word or 0)
        yield from self.late_stores()

    def name(self, word: int) -> str:
        """The variable or the member that a word is; else its address."""
        program = self.program
        return program.bytes_of(word, WORD) if program.variable_at(word) else program.variable(word)

    def of_limit(self) -> Iterator[str]:
        yield f'The log has {len(self.steps)} lines, which is as many as --steps says.'
        late = [step for step in self.steps[-LATE:] if step.kind == EXEC]
        for thread in sorted({step.thread for step in late}):
            pcs = [step.pc for step in late if step.thread == thread]
            most = ', '.join(name for name, _ in Counter(map(self.line, pcs)).most_common(3))
            made = f'In the last {LATE} steps thread {thread} made {len(pcs)} instructions'
            yield f'{made}, most of them at {most}.'

    def line(self, pc: int) -> str:
        """The source line of an address, or its function."""
        return self.program.line_name(pc) or self.program.function(pc)

    def of_no_end(self) -> Iterator[str]:
        yield 'The script is over and the run isn\'t: `lens inspect` says what may come next.'
        for number, hart in self.place(len(self.steps) + 1).harts.items():
            if hart.thread is not None and hart.pc is not None:
                yield f'Thread {hart.thread} is on hart {number}, at {self.program.spot(hart.pc)}.'


def is_done(record: Record) -> bool:
    """Whether a call answered 0."""
    answer = record.first(Answer)
    return answer is not None and answer.value == 0


def page_change(record: Record, area: int) -> str | None:
    """What a step did to the page of an area: empty where it can be written after it, None where the step
    didn't change it."""
    called = record.first(Called)
    if called is None or called.name not in ('mprotect', 'munmap') or not is_done(record):
        return None
    at, length = called.arguments[:2]
    end = at + -(-length // PAGE) * PAGE
    if not at < area + AREA or not area < end:
        return None
    if called.name == 'munmap':
        return 'removed its page by munmap'
    prot = called.arguments[2]
    if prot & PROT_WRITE:
        return ''
    return f'made its page {"read-only" if prot & PROT_READ else "unreadable"} by mprotect'

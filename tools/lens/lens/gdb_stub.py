"""Answers gdb's packets over a recorded run (the appendix "GDB Remote Serial Protocol" of its manual): what
is at a place, and where a resumption ends."""
from __future__ import annotations

from bisect import bisect_right
from collections.abc import Callable

from .agent import read_expressions
from .monitor import Monitor
from .packets import Link
from .recorded import Recorded
from .stops import (
    ACCESS,
    HARDWARE,
    HART,
    PC,
    SOFTWARE,
    WRITE,
    Points,
    Reason,
    Resume,
    Spot,
    Stop,
    Stops,
    Watchpoint,
    gdb_signal,
)
from .thread_list import thread_words, threads_text

NAMES = (
    'zero ra sp gp tp t0 t1 t2 fp s1 a0 a1 a2 a3 a4 a5 a6 a7 '
    's2 s3 s4 s5 s6 s7 s8 s9 s10 s11 t3 t4 t5 t6'
).split()
TYPES = {'ra': 'code_ptr', 'sp': 'data_ptr', 'gp': 'data_ptr', 'tp': 'data_ptr', 'fp': 'data_ptr'}
REGISTERS = ''.join(
    f'<reg name="{name}" bitsize="64" type="{TYPES.get(name, "int")}" regnum="{number}"/>'
    for number, name in enumerate(NAMES)
)
TARGET = (
    '<?xml version="1.0"?><!DOCTYPE target SYSTEM "gdb-target.dtd"><target version="1.0">'
    '<architecture>riscv:rv64</architecture><osabi>none</osabi><feature name="org.gnu.gdb.riscv.cpu">'
    f'{REGISTERS}<reg name="pc" bitsize="64" type="code_ptr" regnum="{PC}"/></feature></target>'
)
"""The registers. With the ABI of GNU/Linux, which Debian's gdb takes where none is named, gdb makes steps by
breakpoints of its own, and takes the frames of handlers for Linux's."""
SUPPORTED = (
    'PacketSize=4000;QStartNoAckMode+;qXfer:features:read+;qXfer:threads:read+;ReverseStep+;ReverseContinue+;'
    'swbreak+;hwbreak+;vContSupported+;QPassSignals+;qXfer:exec-file:read+;ConditionalBreakpoints+'
)
IN_STOPS = (PC, 2, 8, 1)
"""The registers that stand in each stop: pc, sp, fp and ra, from which gdb finds the frame."""
OK, NOT_KNOWN, REFUSED, NO_BYTES = 'OK', '', 'E01', 'E14'
TRAP = 5
SAID_AT_ONCE = 2_000
"""So many bytes are shown by one packet, which has two digits for each."""
WATCH_WORDS = {2: 'watch', 3: 'rwatch', 4: 'awatch'}
PASSED = {Reason.BREAK: 'breakpoint', Reason.SIGNAL: 'signal', Reason.WATCH: 'watchpoint', Reason.STEP: 'step'}
"""What of another thread was passed, in words."""

Ask = Callable[[str], str | None]
"""Answers a packet, or the name of it and its words; None where it is answered already, or never."""


class Ended(Exception):
    """gdb is done with the run."""


class Stub:
    """What one gdb is at: the place, the threads that its packets are about, and what it wants to be stopped
    at."""

    def __init__(self, recorded: Recorded, link: Link):
        self.recorded, self.link = recorded, link
        self.timeline = recorded.timeline
        self.points = Points()
        self.stops = Stops(self.timeline, self.points)
        self.spot = Spot()
        self.stopped_thread = 1
        self.seen = 1
        """The thread whose registers and memory are asked for (Hg)."""
        self.resumed = 0
        """The thread that a resumption without one is about (Hc), or 0."""
        self.hinted: int | None = None
        """The thread that the next `bs` is about: that packet doesn't name it. The last one since the last
        stop that gdb asked about, as it does where the user chooses one."""
        self.ever: set[int] = set()
        """Where a breakpoint ever was."""
        self.is_lock_told = False
        self.monitor = Monitor(self)
        self.heads, self.queries = self.make_heads(), self.make_queries()

    def make_heads(self) -> dict[str, Ask]:
        """What answers a packet, by its first letter."""
        return {
            '?': lambda _: self.stop_text(TRAP),
            'g': lambda _: ''.join(self.register(number) for number in range(PC + 1)),
            'p': self.read_register,
            'm': self.read_memory,
            'G': lambda _: REFUSED,
            'P': lambda _: REFUSED,
            'M': lambda _: REFUSED,
            'H': self.choose,
            'T': self.is_there,
            'Z': self.insert,
            'z': self.remove,
            'v': self.verbose,
            'b': self.go_back,
            's': self.go_on,
            'c': self.go_on,
            '!': lambda _: OK,
            'R': self.restart,
            'k': self.leave,
            'D': self.detach,
            'q': self.query,
            'Q': self.query,
        }

    def make_queries(self) -> dict[str, Ask]:
        """What answers a question or a setting, by its name."""
        return {
            'qSupported': lambda _: SUPPORTED,
            'QStartNoAckMode': self.start_without_acknowledgements,
            'qXfer': self.transfer,
            'qC': lambda _: f'QC{self.stopped_thread:x}',
            'qfThreadInfo': self.list_threads,
            'qsThreadInfo': lambda _: 'l',
            'qThreadExtraInfo': self.about_thread,
            'qRcmd': self.command,
            'qAttached': lambda _: '1',
            'qOffsets': lambda _: 'Text=0;Data=0;Bss=0',
            'qSymbol': lambda _: OK,
            'QPassSignals': self.pass_signals,
        }

    def serve(self) -> None:
        """Answers until gdb goes, or is done with the run."""
        try:
            while (content := self.link.receive()) is not None:
                answer = self.answer(content.decode('latin-1'))
                if answer is not None:
                    self.link.send(answer.encode('latin-1'))
        except (Ended, ConnectionError, BrokenPipeError):
            pass

    def answer(self, text: str) -> str | None:
        """The answer to a packet; None where it has none, or was answered already."""
        act = self.heads.get(text[:1])
        try:
            return act(text) if act else NOT_KNOWN
        except (ValueError, IndexError):
            return REFUSED

    def say(self, text: str) -> None:
        """Shows a text to the user."""
        self.show(text.encode())

    def show(self, content: bytes) -> None:
        for at in range(0, len(content), SAID_AT_ONCE):
            self.link.send(b'O' + content[at : at + SAID_AT_ONCE].hex().encode())

    # what is at the place

    @property
    def place(self) -> int:
        return self.spot.place

    def register(self, number: int, thread: int | None = None) -> str:
        """A register of the thread that is looked at, as digits in the order of memory."""
        thread = thread or self.seen
        value = (
            self.timeline.pc(thread, self.place)
            if number == PC
            else self.timeline.register(thread, number, self.place)
        )
        return value.to_bytes(8, 'little').hex()

    def read_register(self, text: str) -> str:
        number = int(text[1:], 16)
        return self.register(number) if number <= PC else REFUSED

    def read_memory(self, text: str) -> str:
        at, size = (int(word, 16) for word in text[1:].split(','))
        hart = self.timeline.hart(self.seen, self.place) if self.points.view == HART else None
        return self.timeline.memory.bytes_at(at, size, self.place, hart).hex() or NO_BYTES

    def choose(self, text: str) -> str:
        """`Hg` and `Hc`: which thread packets are about."""
        thread = thread_of(text[2:])
        if thread > 0 and thread not in self.timeline.threads:
            return REFUSED
        if text[1] != 'g':
            self.resumed = thread
        elif thread > 0:
            self.seen = thread
        return OK

    def is_there(self, text: str) -> str:
        thread = thread_of(text[1:])
        if thread not in self.timeline.threads:
            return REFUSED
        self.hinted = thread
        return OK

    # breakpoints and watchpoints

    def insert(self, text: str) -> str:
        kind, at, size, rest = point_of(text)
        if kind in (SOFTWARE, HARDWARE):
            self.points.breaks[at] = kind, read_expressions(rest)
            self.ever.add(at)
        elif WRITE <= kind <= ACCESS:
            self.points.watches.add(Watchpoint(kind, at, size))
        else:
            return NOT_KNOWN
        return OK

    def remove(self, text: str) -> str:
        kind, at, size, _ = point_of(text)
        if kind in (SOFTWARE, HARDWARE):
            self.points.breaks.pop(at, None)
        else:
            self.points.watches.discard(Watchpoint(kind, at, size))
        return OK

    # what gdb asks

    def query(self, text: str) -> str | None:
        name = text.partition(':')[0].partition(',')[0]
        ask = self.queries.get(name)
        return ask(text) if ask else NOT_KNOWN

    def start_without_acknowledgements(self, _: str) -> None:
        self.link.send(OK.encode())
        self.link.is_acknowledged = False

    def pass_signals(self, text: str) -> str:
        words = text.partition(':')[2].split(';')
        self.points.passed = {int(word, 16) for word in words if word}
        return OK

    def list_threads(self, _: str) -> str:
        """All threads of the run, from its beginning to its end: so gdb's number of a thread stays that of
        the thread, also where the run goes back over a clone."""
        return 'm' + ','.join(f'{thread:x}' for thread in sorted(self.timeline.threads))

    def about_thread(self, text: str) -> str:
        return thread_words(self.timeline, thread_of(text.split(',')[1]), self.place).encode().hex()

    def command(self, text: str) -> str:
        """`monitor`: words of the user."""
        said = self.monitor.answer(bytes.fromhex(text.partition(',')[2]).decode('utf-8', 'replace'))
        if said:
            self.say(said.rstrip('\n') + '\n')
        return OK

    def transfer(self, text: str) -> str:
        """A piece of one of the longer texts."""
        _, what, _, _, span = text.split(':', 4)
        if what == 'features':
            whole = TARGET
        elif what == 'threads':
            whole = threads_text(self.timeline, self.place)
        elif what == 'exec-file':
            whole = self.recorded.file
        else:
            return NOT_KNOWN
        offset, length = (int(word, 16) for word in span.split(','))
        kind = 'm' if offset + length < len(whole) else 'l'
        return kind + whole[offset : offset + length]

    # resumptions

    def verbose(self, text: str) -> str | None:
        if text == 'vCont?':
            return 'vCont;c;C;s;S;t;r'
        if text.startswith('vCont;'):
            return self.go_on(text.removeprefix('vCont;'))
        if text.startswith('vRun'):
            self.restart(text)
            return self.stop_text(TRAP)
        return OK if text.startswith('vKill') else NOT_KNOWN

    def restart(self, _: str) -> None:
        """Goes to the beginning."""
        self.spot, self.monitor.pending = Spot(), None
        self.stopped_thread = self.seen = 1

    def leave(self, _: str) -> None:
        raise Ended

    def detach(self, _: str) -> None:
        self.link.send(OK.encode())
        raise Ended

    def go_on(self, text: str) -> str:
        """Forwards, by the actions of `vCont`, or by `s` or `c`."""
        resume = self.resume_of(text.split(';'))
        if self.monitor.pending is not None:
            return self.jump() if resume.only is None else self.stop_text(TRAP, '', resume.only)
        self.tell_lock(text, resume)
        stop = self.stops.forwards(self.spot, resume)
        if resume.only is not None:
            passed = self.stops.first_hit(self.spot, resume._replace(only=None))
            if passed.place < stop.place:
                self.tell_passed('On the way', passed)
        return self.arrive(stop, resume, True)

    def resume_of(self, actions: list[str]) -> Resume:
        """What the actions of `vCont` want. The first that names no thread is for all others."""
        stepping, span = None, None
        for action in actions:
            verb, _, who = action.partition(':')
            thread = thread_of(who) if who else 0
            if verb[:1] in tuple('sSr') and stepping is None:
                stepping = thread if thread > 0 else self.resumed if self.resumed > 0 else self.seen
                if verb[:1] == 'r':
                    low, high = (int(word, 16) for word in verb[1:].split(','))
                    span = low, high
        named = {thread_of(action.partition(':')[2]) for action in actions if ':' in action}
        is_one = len(named) == 1 and all(':' in action for action in actions)
        only = named.pop() if is_one else None
        return Resume(stepping, span, only if only and only > 0 else None)

    def tell_lock(self, text: str, resume: Resume) -> None:
        """Says once that no thread can go on alone."""
        if resume.only is not None and resume.stepping is None and text[:1] in 'cC' and not self.is_lock_told:
            self.is_lock_told = True
            self.say('(The order of the run is fixed: the steps of other threads are made too.)\n')

    def go_back(self, text: str) -> str:
        """Backwards: `bs` is a step of one thread, `bc` is on to the next stop."""
        if text not in ('bs', 'bc'):
            return NOT_KNOWN
        if self.monitor.pending is not None:
            return self.jump()
        only = self.resumed if self.resumed > 0 else None
        resume = Resume((only or self.hint()) if text == 'bs' else None, None, only)
        is_at_access = self.spot.watched == self.place
        if only and resume.stepping and not is_at_access and only != self.hint() and self.steps_off(only):
            return self.seem_moved(only)
        stop = self.stops.backwards(self.spot, resume)
        if only is not None:
            passed = self.stops.last_hit(self.place, None)
            if passed.place > stop.place:
                self.tell_passed('On the way back', passed)
        return self.arrive(stop, resume, False)

    def tell_passed(self, where: str, stop: Stop) -> None:
        """Says that a stop of another thread was passed."""
        if stop.line is not None:
            self.say(f'({where} {self.recorded.line(stop.line)}: {PASSED[stop.reason]})\n')

    def hint(self) -> int:
        """The thread of which a step backwards is."""
        return self.hinted or self.stopped_thread

    def steps_off(self, thread: int) -> bool:
        """Whether gdb may be stepping off a breakpoint: one that was where the thread is, and is gone."""
        pc = self.timeline.pc(thread, self.place)
        return pc in self.ever and pc not in self.points.breaks

    def seem_moved(self, thread: int) -> str:
        """gdb would have a thread step back off a breakpoint before the one that the user steps goes back. In
        the order of the run that isn't due: the thread is shown a step back, and the place stays."""
        spot, hinted = self.spot, self.hinted
        line = self.timeline.last_move(thread, spot.place)
        self.spot = Spot(spot.place if line is None else line - 1)
        answer = self.stop_text(TRAP, '', thread)
        self.spot, self.hinted = spot, hinted
        return answer

    # where one ends

    def arrive(self, stop: Stop, resume: Resume, is_forwards: bool) -> str:
        """Goes to a stop, says what was passed on the way, and answers."""
        if stop.reason is Reason.EDGE:
            return self.arrive_at_edge(resume, is_forwards)
        if is_forwards:
            self.tell_printed(stop.place)
            self.tell_restarts(stop)
        self.spot = Spot(stop.place, stop.reason in (Reason.BREAK, Reason.SIGNAL))
        why, signal = '', TRAP
        if stop.reason is Reason.BREAK:
            kind, _ = self.points.breaks[stop.number]
            why = 'hwbreak:;' if kind == HARDWARE else 'swbreak:;'
        elif stop.reason is Reason.SIGNAL:
            signal = gdb_signal(stop.number)
        elif stop.watch and stop.line is not None:
            kind, at, size = stop.watch
            self.spot.watched = stop.line
            self.say(f'({self.recorded.deed(stop.line, at, size)})\n')
            why = f'{WATCH_WORDS[kind]}:{at:x};'
        return self.stop_text(signal, why, stop.thread)

    def arrive_at_edge(self, resume: Resume, is_forwards: bool) -> str:
        """The run is over, or at its beginning. gdb isn't told that the process ended: it could go back no
        more."""
        timeline = self.timeline
        goal = timeline.size if is_forwards else 0
        if is_forwards:
            self.tell_printed(goal)
            self.say(f'(The run ends here, after step {goal}: {timeline.end})\n')
        self.spot = Spot(goal)
        thread = resume.only or (timeline.event(goal).thread if is_forwards else 1)
        live = timeline.live(goal)
        if resume.only is None and thread not in live and live:
            thread = live[0]
        if resume.only is not None and resume.only == resume.stepping:
            # (gdb may be stepping off a breakpoint, and would wait for ever afterwards)
            return self.stop_text(0, '', thread)
        return self.stop_text(TRAP, f'replaylog:{"end" if is_forwards else "begin"};', thread)

    def jump(self) -> str:
        """Goes to the place that a command chose."""
        goal, self.monitor.pending = self.monitor.pending or 0, None
        self.spot = Spot(goal)
        thread = self.timeline.event(min(goal + 1, self.timeline.size)).thread
        live = self.timeline.live(goal)
        return self.stop_text(0, '', thread if thread in live or not live else live[0])

    def tell_printed(self, goal: int) -> None:
        """Shows what the run prints between the place and another."""
        for start, end in self.recorded.printed(self.place, goal):
            self.show(self.recorded.console[start:end])

    def tell_restarts(self, stop: Stop) -> None:
        """Says where the thread that stopped last, or that which stops now, was sent to an abort handler."""
        for thread in {self.stopped_thread, stop.thread or self.stopped_thread}:
            restarts = self.timeline.threads[thread].restarts
            first, last = bisect_right(restarts, self.place), bisect_right(restarts, stop.place)
            often = f', the last of {last - first} times' if last - first > 1 else ''
            if first < last:
                self.say(
                    f'(Step {restarts[last - 1]}: thread {thread} was interrupted in a restartable sequence, '
                    f'and goes on at its abort handler{often}.)\n'
                )

    def stop_text(self, signal: int, why: str = '', thread: int | None = None) -> str:
        """A stop of a thread at the place."""
        if thread:
            self.stopped_thread = thread
        self.seen, self.hinted = self.stopped_thread, None
        hart = self.timeline.hart(self.stopped_thread, self.place)
        core = '' if hart is None else f'core:{hart};'
        registers = ''.join(f'{number:02x}:{self.register(number)};' for number in IN_STOPS)
        return f'T{signal:02x}{why}thread:{self.stopped_thread:x};{core}{registers}'


def thread_of(text: str) -> int:
    """The number of a thread; -1 for all."""
    return -1 if text == '-1' else int(text, 16)


def point_of(text: str) -> tuple[int, int, int, str]:
    """The kind, the address and the size of a breakpoint or watchpoint, and its conditions."""
    head, _, rest = text[1:].partition(';')
    kind, at, size = head.split(',')
    return int(kind), int(at, 16), int(size, 16), rest.partition(';')[0]

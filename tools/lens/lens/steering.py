"""Makes a script that `play` takes from one as a person writes it.

A line of it is empty, a comment (`# ..`, also behind an event), an event as in any script, or one of

    HART go until PLACE [#K]     instructions, and drains where they need it, until the thread on HART stands
                                 at PLACE for the K-th time; where it stands there already, that is the first
    HART go                      the same until the thread has left the hart, or can't go on there, or the
                                 process is over
    HART go preempt              that event (or `signal`, `take`, `done`), and before it a drain for each store
                                 that waits on HART
    HART drain until PLACE       drains, up to that of the first store that waits there and stands at PLACE
    HART drain all               each store that waits on HART
    HART exec xN                 N times this event (`drain` and other events too)
    HART exec until PLACE        instructions until the thread on HART stands at PLACE; none where it stands
                                 there already
    HART exec all                instructions until one isn't allowed: stores wait and it is a call or a fence,
                                 or the thread has left the hart, or the process is over
    repeat K ORDER               that order K times
    finish                       the rest of the run, by the rule of `draw`, and fairly after 4,096 events
    finish calm N                the same, and fairly after N events (1,000,000 at most)

PLACE is a function or label, function+0x10, file.c:21, or an address 0x10140.
"""
from __future__ import annotations

import re
from dataclasses import dataclass, field, replace
from pathlib import Path

from .course import Course, pc_of
from .faults import LensFault
from .history import History, make_history
from .instructions import Instruction
from .listing import deed
from .machine import CALM, MOST_CALM, Machine
from .output import DONE, DRAIN, EXEC, HARTS, KINDS, PREEMPT, RUN, SIGNAL, TAKE, Step
from .place import HartPlace
from .program import Program

TIMES = re.compile(r'x([1-9][0-9]*)')
GO, FINISH = 'go', 'finish'
COUNT = re.compile(r'#([1-9][0-9]*)')
WITH_COUNT = re.compile(r'(?P<words>[^#]*\suntil\s+[^#\s]+\s+#[1-9][0-9]*)(?=\s|$)(?P<rest>.*)')
NO_WAITING = (PREEMPT, SIGNAL, TAKE, DONE)
TRIES = (64, 1_024, 16_384, 262_144, 1_048_576)
STORES = 8
OPEN, LIMIT = 'open', 'limit'


@dataclass(frozen=True)
class Order:
    """A line of a steer: which event, how often, or up to which place."""

    number: int
    words: str
    hart: int
    kind: str
    thread: str | None = None
    times: int = 1
    until: str | None = None
    is_all: bool = False
    visit: int = 1
    """Which visit of the place ends it."""
    goes: bool = False
    """Whether stores enter memory where the event needs it."""
    repeats: int = 1
    calm: int = CALM
    """After how many events of the rule the rest goes on fairly."""

    @property
    def event(self) -> str:
        return f'{self.hart} {self.kind}' + (f' {self.thread}' if self.thread else '')


@dataclass(frozen=True)
class Remark:
    """A comment of a steer."""

    number: int
    words: str


@dataclass
class Script:
    """The script so far, and before which of its lines each comment stands."""

    lines: list[str] = field(default_factory=list)
    remarks: list[tuple[int, str]] = field(default_factory=list)

    def text(self) -> str:
        return ''.join(f'{line}\n' for line in self.lines)

    def notes(self) -> str:
        return ''.join(f'{number}: {words}\n' for number, words in self.remarks)


@dataclass(frozen=True)
class Standing:
    """What a hart is at: its thread and pc, where one runs, and the stores that wait."""

    thread: int | None
    pc: int | None
    waiting: list[Step]


def read_steer(path: str) -> list[Order | Remark]:
    """The orders and comments of a file, in order."""
    try:
        lines = Path(path).read_text().splitlines()
    except (OSError, UnicodeDecodeError) as error:
        raise LensFault(f'{path}: {getattr(error, "strerror", None) or "it is no text"}') from None
    return read_lines_of(path, lines)


def read_lines_of(path: str, lines: list[str]) -> list[Order | Remark]:
    return [part for number, line in enumerate(lines, 1) for part in read_line(path, number, line)]


def read_line(path: str, number: int, line: str) -> list[Order | Remark]:
    words, mark, comment = split_comment(line)
    parts: list[Order | Remark] = [Remark(number, comment.strip())] if mark else []
    if words.strip():
        parts.append(read_order(path, number, ' '.join(words.split())))
    return parts


def split_comment(line: str) -> tuple[str, str, str]:
    """A line up to its comment, the mark that begins one, and the comment. The count of a visit
    (`until take #3`) is no comment."""
    if found := WITH_COUNT.match(line):
        space, mark, comment = found['rest'].partition('#')
        return found['words'] + space, mark, comment
    return line.partition('#')


def read_order(path: str, number: int, words: str) -> Order:
    """The order of a line; a fault that names the line where it is none."""
    match words.split(' '):
        case ['repeat', times, first, *rest] if COUNT.fullmatch(f'#{times}') and first != 'repeat':
            order = read_order(path, number, ' '.join([first, *rest]))
            return replace(order, words=words, repeats=int(times))
        case ['finish']:
            return Order(number, words, 0, FINISH)
        case ['finish', 'calm', calm] if COUNT.fullmatch(f'#{calm}') and int(calm) <= MOST_CALM:
            return Order(number, words, 0, FINISH, calm=int(calm))
        case [hart, *rest] if is_hart(hart):
            of_hart = order_of_hart(number, words, int(hart), rest)
            if of_hart is not None:
                return of_hart
    raise LensFault(
        f'{path}, line {number}: {words!r} is no order; orders are "0 run 1", "0 exec", "0 exec x8", '
        '"0 exec until main+0x10", "0 exec all", "0 drain", "0 drain all", "0 preempt", "0 signal", "0 take", '
        '"0 done", "0 go", "0 go until main+0x10", "0 go until main #2", "0 go preempt", '
        '"0 drain until main.c:9", "repeat 3 0 go until main #2", "finish", '
        '"finish calm 16384"'
    )


def order_of_hart(number: int, words: str, hart: int, rest: list[str]) -> Order | None:
    """The order of a line that begins with a hart; None where it is none."""
    match rest:
        case [kind] if kind in KINDS and kind != RUN:
            return Order(number, words, hart, kind)
        case ['run', thread] if thread.isdecimal():
            return Order(number, words, hart, RUN, thread)
        case [kind, times] if kind in KINDS and kind != RUN and TIMES.fullmatch(times):
            return Order(number, words, hart, kind, times=int(times[1:]))
        case ['exec' | 'drain' as kind, 'until', place]:
            return Order(number, words, hart, kind, until=place)
        case ['exec' | 'drain' as kind, 'all']:
            return Order(number, words, hart, kind, is_all=True)
        case ['go', 'until', place, *count] if len(count) < 2 and all(map(COUNT.fullmatch, count)):
            visit = int(count[0][1:]) if count else 1
            return Order(number, words, hart, EXEC, until=place, visit=visit, goes=True)
        case ['go']:
            return Order(number, words, hart, EXEC, is_all=True, goes=True)
        case ['go', kind] if kind in NO_WAITING:
            return Order(number, words, hart, kind, goes=True)
    return None


def is_hart(word: str) -> bool:
    return len(word) == 1 and word.isdecimal() and int(word) < HARTS


class Steering:
    """Goes through the orders of a steer, and asks the machine where each leads."""

    def __init__(self, path: str, program: Program, machine: Machine):
        self.path = path
        self.program = program
        self.machine = machine
        self.script = Script()

    def follow(self, parts: list[Order | Remark]) -> Script:
        for part in parts:
            match part:
                case Remark(words=words):
                    self.script.remarks.append((len(self.script.lines) + 1, words))
                case Order():
                    self.obey(part)
        return self.script

    def obey(self, order: Order) -> None:
        for _ in range(order.repeats):
            if order.kind == FINISH:
                self.finish(order)
            elif order.goes:
                self.go(order)
            else:
                self.script.lines += [order.event] * self.times(order)

    def finish(self, order: Order) -> None:
        answer = self.machine.finish(self.script.lines, order.calm)
        if isinstance(answer, int):
            raise self.fault(order, f'line {answer} of the script was taken before, and is refused now')
        self.script.lines = [step.short_line() for step in answer.steps]

    def times(self, order: Order) -> int:
        """How often the event of an order is made, each time allowed."""
        if order.until is not None and order.kind == DRAIN:
            return self.times_drained(order, set(self.program.addresses(order.until)))
        if order.until is not None:
            return self.times_until(order, set(self.program.addresses(order.until)))
        if order.is_all and order.kind == EXEC:
            return self.times_allowed(order)
        times = len(self.standing(order.hart).waiting) if order.is_all else order.times
        answer = self.machine.play(self.script.lines + [order.event] * times)
        if isinstance(answer, int):
            raise self.refusal(order, answer)
        return times

    def times_drained(self, order: Order, places: set[int]) -> int:
        """How many drains there are up to that of the first waiting store that stands at one of the
        places."""
        stores = [store.pc for store in self.standing(order.hart).waiting]
        found = next((count for count, pc in enumerate(stores, 1) if pc in places), None)
        if found is None:
            raise self.fault(order, f'no store of {order.until} waits on hart {order.hart}')
        return found

    # `go`: the instructions of a hart, or one event, with the drains that they need

    def go(self, order: Order) -> None:
        if order.kind != EXEC:
            self.drain_all(order, self.here(order.hart))
            self.script.lines += [order.event] * self.times(order)
        elif order.until is not None:
            self.go_until(order, set(self.program.addresses(order.until)))
        else:
            self.go_all(order)

    def here(self, hart: int) -> HartPlace:
        """What a hart is at behind the lines so far."""
        return self.machine.inspect(self.script.lines).harts.get(hart, HartPlace())

    def drain_all(self, order: Order, here: HartPlace) -> None:
        self.script.lines += [f'{order.hart} {DRAIN}'] * here.waiting

    def go_until(self, order: Order, places: set[int]) -> None:
        """Goes on until the thread has stood so often at one of the places; that it stands there now
        counts."""
        visits, size, course = 0, TRIES[0], Course(self.program)
        while True:
            here = self.here(order.hart)
            visits += here.pc in places
            if visits >= order.visit:
                return
            made = self.advance(order, here, course, size)
            for number, pc in made[1:]:
                visits += pc in places
                if visits >= order.visit:
                    del self.script.lines[number:]
                    return
            size = min(4 * size, TRIES[-1]) if len(made) == size else TRIES[0]

    def go_all(self, order: Order) -> None:
        """Goes on for as long as the thread can; it makes one instruction at least."""
        before, course = len(self.script.lines), Course(self.program)
        while True:
            place = self.machine.inspect(self.script.lines)
            here = place.harts.get(order.hart, HartPlace())
            is_able = EXEC in here.may or here.drains_for(EXEC) > 0
            if not is_able and place.end != LIMIT and len(self.script.lines) > before:
                return
            if not is_able:
                raise self.refusal(order, len(self.script.lines) + 1)
            self.advance(order, here, course, TRIES[1])

    def advance(self, order: Order, here: HartPlace, course: Course, size: int) -> list[tuple[int, int]]:
        """Makes the drains that the next instruction needs, and then as many instructions as are allowed,
        `size` at most, with the drains that are foreseen: of each the number of the lines before it, and its
        pc."""
        drains = here.drains_for(EXEC)
        if EXEC not in here.may and not drains:
            raise self.refusal(order, len(self.script.lines) + 1)
        self.script.lines += [f'{order.hart} {DRAIN}'] * drains
        before, waiting = len(self.script.lines), here.waiting - drains
        kinds = course.foreseen(here.pc, waiting, size)
        log = self.allowed(order, kinds)
        if not log:
            raise self.refusal(order, before + 1)
        kinds = kinds[: course.kept(kinds, log, waiting)]
        self.script.lines += [f'{order.hart} {kind}' for kind in kinds]
        made = [(at, pc_of(log[at - before])) for at, kind in enumerate(kinds, before) if kind == EXEC]
        course.add([pc for _, pc in made])
        return made

    def allowed(self, order: Order, kinds: list[str]) -> list[bytes]:
        """The log of those of some events of the hart of an order that the machine takes, one after the other."""
        before = len(self.script.lines)
        lines = self.script.lines + [f'{order.hart} {kind}' for kind in kinds]
        answer = self.machine.play_outline(lines)
        if isinstance(answer, int):
            answer = self.machine.play_outline(lines[: answer - 1])
        return [] if isinstance(answer, int) else answer.lines[before:]

    # What the machine says

    def history(self, lines: list[str]) -> History:
        """The run of lines that the machine takes."""
        answer = self.machine.play(lines)
        if isinstance(answer, int):
            raise LensFault(
                f'{self.path}: line {answer} of the script was taken before, and is refused now'
            )
        return make_history(answer, self.program)

    def standing(self, hart: int, lines: list[str] | None = None) -> Standing:
        """Where a hart stands behind some lines. Of `drain` and `preempt` one is allowed on a hart with a
        thread, and its line in the log has the thread and the pc."""
        before = self.script.lines if lines is None else lines
        history = self.history(before)
        waiting = [store for store in history.waiting if store.hart == hart]
        asked = self.machine.play([*before, f'{hart} {DRAIN if waiting else PREEMPT}'])
        if isinstance(asked, int) or not asked.steps:
            return Standing(None, None, waiting)
        return Standing(asked.steps[-1].thread, asked.steps[-1].pc, waiting)

    # `exec until` and `exec all`

    def allowed_of(self, order: Order, count: int) -> int:
        """How many of `count` events of an order the machine takes."""
        answer = self.machine.play_outline(self.script.lines + [order.event] * count)
        return answer - 1 - len(self.script.lines) if isinstance(answer, int) else count

    def times_until(self, order: Order, places: set[int]) -> int:
        """How many instructions lead to the first of the places."""
        for count in TRIES:
            allowed = self.allowed_of(order, count)
            found = self.reached(order, places, allowed)
            if found is not None:
                return found
            if allowed < count:
                raise self.refusal(order, len(self.script.lines) + allowed + 1)
        raise self.fault(order, f'{order.until} isn\'t reached in {TRIES[-1]} instructions')

    def times_allowed(self, order: Order) -> int:
        """How many instructions are allowed one behind the other; at least one must be."""
        for count in TRIES:
            allowed = self.allowed_of(order, count)
            if allowed < count:
                is_cut = self.history(self.script.lines + [order.event] * allowed).output.end == LIMIT
                if is_cut or not allowed:
                    raise self.refusal(order, len(self.script.lines) + allowed + 1)
                return allowed
        raise self.fault(order, f'it goes on for more than {TRIES[-1]} instructions')

    def reached(self, order: Order, places: set[int], allowed: int) -> int | None:
        """After how many of the allowed instructions the hart first stands at one of the places."""
        lines = self.script.lines + [order.event] * allowed
        steps = self.history(lines).output.steps[len(self.script.lines) :]
        found = next((count for count, step in enumerate(steps) if step.pc in places), None)
        return allowed if found is None and self.standing(order.hart, lines).pc in places else found

    # What can't be done, in words

    def fault(self, order: Order, words: str) -> LensFault:
        return LensFault(f'{self.path}, line {order.number}: {order.words!r}: {words}')

    def refusal(self, order: Order, line: int) -> LensFault:
        """Why the line of the script that the machine refuses can't be made, as far as the run before it
        shows."""
        before = self.script.lines + [order.event] * (line - 1 - len(self.script.lines))
        done = len(before) - len(self.script.lines)
        after = f'after {done} of these events ' if done else ''
        return self.fault(order, f'{after}{self.reason(order, before)} (the program: fault script {line})')

    def reason(self, order: Order, before: list[str]) -> str:
        history = self.history(before)
        if history.output.end != OPEN:
            return f'the run is over: end {history.output.end}'
        standing = self.standing(order.hart, before)
        if order.kind == RUN:
            return self.why_no_run(order, history, standing)
        if order.kind == DRAIN and not standing.waiting:
            return f'no store waits on hart {order.hart}'
        if standing.thread is None or standing.pc is None:
            return f'hart {order.hart} isn\'t running a thread{self.why_idle(order.hart, history)}'
        here = f'hart {order.hart} stands at {self.spot(standing.pc)} with thread {standing.thread}'
        instruction = self.program.instruction(standing.pc)
        return f'{here}, {self.why_no_event(order, standing, instruction)}'

    def spot(self, pc: int) -> str:
        instruction, line = self.program.instruction(pc), self.program.line_name(pc)
        text = f' ({instruction.text})' if instruction else ''
        return f'{self.program.where(pc)}{text}' + (f', {line},' if line else '')

    @staticmethod
    def why_no_event(order: Order, standing: Standing, instruction: Instruction | None) -> str:
        count = len(standing.waiting)
        if not count:
            return f'where `{order.kind}` isn\'t allowed'
        stores = f'{count} stores still wait' if count > 1 else '1 store still waits'
        if count == STORES and order.kind == EXEC and instruction and instruction.is_plain_store:
            return f'and {stores}, which is as many as may'
        needs = {EXEC: 'this instruction comes', PREEMPT: 'a thread leaves'}.get(
            order.kind, f'`{order.kind}`'
        )
        return f'and {stores}: {needs} only where none waits ("{order.hart} drain all")'

    def why_no_run(self, order: Order, history: History, standing: Standing) -> str:
        if standing.thread is not None:
            return f'hart {order.hart} runs thread {standing.thread} already'
        last = next(
            (step for step in reversed(history.output.steps) if str(step.thread) == order.thread), None
        )
        if last is None:
            return f'thread {order.thread} isn\'t there yet, or not allowed on hart {order.hart}'
        on = next(
            (
                hart
                for hart in range(HARTS)
                if str(self.standing(hart, self.lines_of(history)).thread) == order.thread
            ),
            None,
        )
        if on is not None:
            return f'thread {order.thread} runs on hart {on}'
        return f'thread {order.thread} isn\'t ready: it last made {deed(history, last)} at {self.spot(last.pc)}'

    @staticmethod
    def lines_of(history: History) -> list[str]:
        return [step.line() for step in history.output.steps]

    @staticmethod
    def why_idle(hart: int, history: History) -> str:
        last = next((step for step in reversed(history.output.steps) if step.hart == hart), None)
        if last is None:
            return f' (begin with "{hart} run THREAD")'
        return f': thread {last.thread} left it at step {last.number} ({deed(history, last)})'


def steer(path: str, program: Program, machine: Machine) -> Script:
    """The script that the orders in a file make."""
    return Steering(path, program, machine).follow(read_steer(path))

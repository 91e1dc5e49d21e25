"""What some runs came by: how often each instruction was executed, before which of them another thread or hart went on,
and at which instruction each restartable sequence was cut."""
from __future__ import annotations

from collections import Counter
from collections.abc import Iterable, Iterator
from dataclasses import dataclass, field

from runs.explored import SEEDS, Explored
from runs.output import Outline
from runs.steps import EXEC, PREEMPT, RUN, SIGNAL, TAKE, fields_of

from .faults import LensFault
from .machine import Act, Machine, parse_acts
from .program import Program

CUT = 'cut'
FORMS = ('left', CUT, 'dropped', 'dead', 'open')
"""How a sequence ends, as `acts` says it."""
INTERRUPTIONS = (PREEMPT, SIGNAL, TAKE, RUN)
SIZE = 4


@dataclass(frozen=True, order=True)
class Range:
    """The instructions of a restartable sequence, from its start up to its end, and its abort handler. Of one that no
    descriptor of the file names only where it began is known, and no end."""

    start: int
    end: int
    abort: int | None

    @property
    def is_known(self) -> bool:
        return self.end > self.start


@dataclass
class SequenceCounts:
    """How often the runs entered a sequence, how it ended, and before which of its instructions it was cut."""

    forms: Counter[str] = field(default_factory=Counter)
    cuts: Counter[int] = field(default_factory=Counter)

    def add(self, other: SequenceCounts) -> None:
        self.forms += other.forms
        self.cuts += other.cuts


@dataclass
class Coverage:
    """What was counted, by addresses; and the runs by their consoles and ends."""

    runs: int = 0
    steps: int = 0
    turns: int = 0
    """How often an event was of another hart than the one before it."""
    ended: Counter[tuple[bytes, str]] = field(default_factory=Counter)
    executed: Counter[int] = field(default_factory=Counter)
    switches: Counter[int] = field(default_factory=Counter)
    signals: Counter[int] = field(default_factory=Counter)
    sequences: dict[Range, SequenceCounts] = field(default_factory=dict)

    @property
    def ends(self) -> Counter[str]:
        """How many runs ended how."""
        ends: Counter[str] = Counter()
        for (_, end), runs in self.ended.items():
            ends[end] += runs
        return ends

    def add(self, other: Coverage) -> None:
        self.runs += other.runs
        self.steps += other.steps
        self.turns += other.turns
        self.ended += other.ended
        self.executed += other.executed
        self.switches += other.switches
        self.signals += other.signals
        for range_, counts in other.sequences.items():
            self.sequences.setdefault(range_, SequenceCounts()).add(counts)


def cover(run: Outline, program: Program, machine: Machine) -> Coverage:
    """What one run came by. The program is asked where its sequences are."""
    lines, covered = run.lines, Coverage(1, len(run.lines))
    covered.ended[run.console, run.end] = 1
    for line, times in Counter(lines).items():
        _, kind, _, pc = read_line(run, line)
        if kind == EXEC:
            covered.executed[pc] += times
        elif kind == SIGNAL:
            covered.signals[pc] += times
    check_program(run, program, covered)
    covered.turns = sum(before[0] != line[0] for before, line in zip(lines, lines[1:]))
    covered.switches.update(places_of_switches(lines))
    for act in acts_of(run, machine):
        note_act(covered, program, lines, act)
    return covered


def read_line(run: Outline, line: bytes) -> tuple[int, str, int, int]:
    fields = fields_of(line)
    if fields is None:
        run.output()  # (it says which line is wrong)
        raise LensFault(f'{run.name}: {line[:40]!r} is no line of a log')
    return fields


def check_program(run: Outline, program: Program, covered: Coverage) -> None:
    """A fault where a run isn't one of the program: it was where there is no code, but for an instruction that
    killed."""
    wrong = next((pc for pc in covered.executed if program.instruction(pc) is None), None)
    last = fields_of(run.lines[-1]) if run.lines else None
    if wrong is not None and not (run.end.startswith('killed') and last and last[3] == wrong):
        raise LensFault(f'{run.name} isn\'t a run of {program.path}: it is at {wrong:#x}, where this file has no code')


def places_of_switches(lines: list[bytes]) -> Iterator[int]:
    """The pc of a thread, each time that it stood still there while another hart or thread made an event: its hart goes
    on behind an event of another hart; or it leaves its hart by `preempt`; or it begins to run, and hadn't left by
    that."""
    left: set[int] = set()
    pairs = zip(lines, lines[1:])
    turns = [line for before, line in pairs if before[0] != line[0] or line[2:4] in (b'ru', b'pr')]
    for line in turns:
        fields = fields_of(line)
        if fields is None or not fields[2]:
            continue
        _, kind, thread, pc = fields
        if kind == RUN and thread in left:
            left.discard(thread)
            continue
        if kind == PREEMPT:
            left.add(thread)
        yield pc


def acts_of(run: Outline, machine: Machine) -> list[Act]:
    """The restartable sequences of a run."""
    answer = machine.call('acts', run.log)
    refused = answer.refused_line()
    if refused is not None:
        raise LensFault(f'{run.name} isn\'t a run of {machine.elf} with these limits: line {refused} of its log is refused')
    if answer.status:
        raise machine.fault('acts', answer)
    return parse_acts(answer.text)


def note_act(covered: Coverage, program: Program, lines: list[bytes], act: Act) -> None:
    """Counts a sequence, and before which instruction it was cut."""
    first = fields_of(lines[act.first - 1])
    range_ = range_of(program, first[3] if first else 0, act)
    counts = covered.sequences.setdefault(range_, SequenceCounts())
    counts.forms[act.form] += 1
    if act.form == CUT:
        counts.cuts[place_of_cut(lines, act)] += 1


def range_of(program: Program, pc: int, act: Act) -> Range:
    """The sequence that has its first instruction at a pc, by the descriptors of the file."""
    own = [
        Range(one.start, one.end, one.abort)
        for one in program.descriptors
        if one.start <= pc < one.end and act.abort in (None, one.abort)
    ]
    return min(own, default=Range(pc, pc, act.abort), key=lambda range_: range_.end - range_.start)


def place_of_cut(lines: list[bytes], act: Act) -> int:
    """Where the thread of a sequence that was cut stood at the event by which it left its hart, or was sent
    elsewhere."""
    for line in lines[act.last - 1 :]:
        fields = fields_of(line)
        if fields and fields[2] == act.thread and fields[1] in INTERRUPTIONS:
            return fields[3]
    last = fields_of(lines[act.last - 1])
    return last[3] if last else 0


def total(parts: Iterable[Coverage], explored: Explored | None) -> Coverage:
    """All of them together. A fault where they have to be the runs of an exploration, and didn't come out as it says."""
    whole = Coverage()
    first = explored.found[0].seed if explored and explored.found else 0
    steps = {(one.seed - first) % SEEDS: one.steps for one in explored.found} if explored else {}
    for at, part in enumerate(parts):
        if explored and steps.get(at, part.steps) != part.steps:
            seed = (first + at) % SEEDS
            raise differs(explored, f': the run of seed {seed} has {steps[at]} steps there, and {part.steps} here')
        whole.add(part)
    if explored:
        check_explored(whole, explored)
    return whole


def check_explored(covered: Coverage, explored: Explored) -> None:
    """A fault where the runs that were drawn again ended in another way, or went another way."""
    due: Counter[tuple[bytes, str]] = Counter()
    found = covered.ended
    if any(one.is_by_end for one in explored.found):
        found = Counter({(b'', end): runs for end, runs in covered.ends.items()})
    for one in explored.found:
        due[one.console, one.end] += one.runs
    wrong = next((key for key in due if found[key] != due[key]), None)
    if wrong is not None:
        raise differs(explored, f': {due[wrong]} runs ended with {wrong[1]} there, and {found[wrong]} here')
    if covered.turns != explored.switches:
        raise differs(explored, f': they have {explored.switches} switches there, and {covered.turns} here')


def differs(explored: Explored, told: str) -> LensFault:
    """That it had other limits, another policy, or another file."""
    return LensFault(
        f'{explored.name} isn\'t what these runs come to{told}; '
        'give the --harts, --frames, --steps, --calm and --policy of that exploration'
    )

"""The commands of `lens`."""
from __future__ import annotations

import argparse
import gc
import itertools
import sys
from collections.abc import Iterable
from dataclasses import replace
from pathlib import Path
from typing import TYPE_CHECKING

from .arguments import add_program, limits_of
from .as_json import calls_data, json_text, races_data, sequences_data, watch_data, why_data
from .atomics import list_atomics
from .call_list import list_calls
from .causes import explain
from .command_line import Parser, add_version, end, natural, no_such, positive
from .coverage import cover, total
from .coverage_runs import Runs, each_made, played, runs_of, runs_of_seeds
from .coverage_text import list_coverage
from .covered_lines import CoveredLines
from .door import GDB, address, make_door, record
from .faults import LensFault
from .freed import list_freed
from .history import History, make_history
from .lcov import left_out, tracefile
from .listing import CONTEXT, Selection, list_run
from .machine import Answer, Machine
from .output import RUN, Outline, Output, outline
from .picture import draw_run
from .program import Program
from .progress import Progress
from .races import list_races
from .report import report_page
from .report_changes import watch_names
from .report_data import Reported
from .scripts import OUTPUT_BEGINS, Lines, first_unreadable, read_bytes, read_lines, read_script, script_lines
from .sequences import list_sequences
from .shown_memory import asked, ranges_of, with_names
from .shrinking import TRIES, Shrinking
from .steering import steer
from .stopping import Stop
from .subjects import SEQUENCES, WORDS, steps_about
from .timeline_reading import make_timeline
from .trace import trace_text
from .traced_calls import list_traced_calls
from .values import Values, read_values
from .watching import watch

if TYPE_CHECKING:
    Commands = argparse._SubParsersAction[Parser]
ROWS_AT_ONCE = 1_000


def make_parser() -> argparse.ArgumentParser:
    parser = Parser(
        prog='lens',
        description='Shows a run of rseq_run. RUN is an output text of '
        'solo, play, gather, run or draw in a file, or a script, which is played; or - for standard input. '
        'ELF is the file that ran, with its symbols. With --seed RUN is left out: it is the run that draw '
        'makes of ELF.',
    )
    add_version(parser)
    commands = parser.add_subparsers(metavar='COMMAND', required=True)
    add_list(commands)
    add_trace(commands)
    add_svg(commands)
    add_report(commands)
    add_calls(commands)
    add_sequences(commands)
    add_watch(commands)
    add_races(commands)
    add_atomics(commands)
    add_coverage(commands)
    add_why(commands)
    add_cut(commands)
    add_play(commands)
    add_inspect(commands)
    add_steer(commands)
    add_shrink(commands)
    add_gdb(commands)
    return parser


def add_list(commands: Commands) -> None:
    command = commands.add_parser('list', help='one line a step: instruction, function+offset, source line')
    add_run_and_elf(command)
    command.add_argument('--around', type=positive, metavar='N', help='only the steps round step N')
    command.add_argument(
        '--context', type=natural, default=CONTEXT, metavar='K', help=f'how many on either side ({CONTEXT})'
    )
    command.add_argument('--hart', type=natural, metavar='H', help='only the steps of hart H')
    command.add_argument('--thread', type=positive, metavar='T', help='only the steps of thread T')
    add_span(command, 'the last one (that of the run)')
    command.add_argument(
        '--only',
        type=subjects,
        default=(),
        metavar='WORDS',
        help=f'only the steps about one of these, or several with commas: {", ".join(WORDS)}',
    )
    add_values(command, 'what each step read and wrote')
    command.set_defaults(action=list_command)


def add_trace(commands: Commands) -> None:
    command = commands.add_parser('trace', help='a trace for ui.perfetto.dev or chrome://tracing')
    add_run_and_elf(command)
    add_values(command, 'what each step read and wrote, and which store a load saw')
    add_out(command, 'FILE.json')
    command.set_defaults(action=trace_command)


def add_svg(commands: Commands) -> None:
    command = commands.add_parser('svg', help='a picture: a lane for each hart, a colour for each thread')
    add_run_and_elf(command)
    add_out(command, 'FILE.svg')
    add_span(command, 'the last one (the 200th shown)')
    command.set_defaults(action=svg_command)


def add_report(commands: Commands) -> None:
    command = commands.add_parser('report', help='the run as one HTML page, to look at and to pass on')
    add_run_and_elf(command)
    command.add_argument(
        '--watch',
        action='append',
        default=[],
        metavar='NAME[+OFF][:SIZE]',
        help='what a variable, or a member of one, holds at each step; several times for several',
    )
    add_out(command, 'FILE.html')
    command.set_defaults(action=report_command)


def add_cut(commands: Commands) -> None:
    command = commands.add_parser('cut', help='the first lines of a run as a script, to go on from by hand')
    command.add_argument('run', metavar='RUN')
    command.add_argument('--to', dest='last', type=natural, metavar='N', help='how many lines (all)')
    command.add_argument(
        '--short', action='store_true', help='without threads and pcs, which play would compare'
    )
    add_out(command, 'SCRIPT')
    command.set_defaults(action=cut_command)


def add_calls(commands: Commands) -> None:
    command = commands.add_parser('calls', help='the system calls, with arguments and answers')
    add_run_and_elf(command)
    command.add_argument('--thread', type=positive, metavar='T', help='only those of thread T')
    way = command.add_mutually_exclusive_group()
    add_values(way, 'what each wrote, and whom it woke')
    add_json(way)
    command.set_defaults(action=calls_command)


def add_sequences(commands: Commands) -> None:
    command = commands.add_parser('sequences', help='the restartable sequences by name, and how each ended')
    add_run_and_elf(command)
    command.add_argument('--thread', type=positive, metavar='T', help='only those of thread T')
    way = command.add_mutually_exclusive_group()
    add_values(way, 'what each step of one read and wrote')
    add_json(way)
    command.set_defaults(action=sequences_command)


def add_watch(commands: Commands) -> None:
    command = commands.add_parser(
        'watch', help='each access to a variable, with its value and where that came from'
    )
    add_run_and_elf(command)
    command.add_argument(
        'variable', metavar='NAME[+OFF][:SIZE]', nargs='?', help='a member (NAME[0].MEMBER) or an address too'
    )
    command.add_argument(
        '--freed', action='store_true', help='in place of NAME: the accesses to what `free` was given'
    )
    command.add_argument('--hart', type=natural, metavar='H', help='only the accesses of hart H')
    command.add_argument('--thread', type=positive, metavar='T', help='only those of thread T')
    add_span(command, 'the last one (that of the run)')
    add_json(command)
    command.set_defaults(action=watch_command)


def add_races(commands: Commands) -> None:
    command = commands.add_parser('races', help='accesses of two harts that nothing orders')
    add_run_and_elf(command)
    command.add_argument(
        '--plain', action='store_true', help='without pairs that are atomic, volatile or assembler on both sides'
    )
    add_json(command)
    command.set_defaults(action=races_command)


def add_atomics(commands: Commands) -> None:
    command = commands.add_parser(
        'atomics', help='the instructions of a file that wait for stores: AMOs, LR, SC and full fences'
    )
    command.add_argument('elf', metavar='ELF')
    command.set_defaults(action=atomics_command)


def add_coverage(commands: Commands) -> None:
    command = commands.add_parser(
        'coverage',
        help='what many runs came by: source lines, places of switches, and where restartable sequences were cut',
        description='RUNS is a text of explore, whose runs are drawn again; or an output or a script; or a folder with '
        'such files. With --seed and --runs RUNS is left out.',
    )
    add_run_and_elf(command)
    command.add_argument('--runs', type=positive, metavar='N', help='with --seed: how many seeds from S on (1)')
    command.add_argument('--policy', metavar='P', help='the policy of the draws, as draw has it (that of the text)')
    command.add_argument('--calm', type=natural, metavar='N', help='as draw has it')
    command.add_argument('--lcov', metavar='FILE', help='write a tracefile of lcov there, which genhtml shows')
    command.set_defaults(action=coverage_command)


def add_why(commands: Commands) -> None:
    command = commands.add_parser('why', help='why the run ended as it did')
    add_run_and_elf(command)
    add_json(command)
    command.set_defaults(action=why_command)


def add_play(commands: Commands) -> None:
    command = commands.add_parser('play', help='what the program\'s play prints, of an output text too')
    add_lines(command)
    command.set_defaults(action=play_command)


def add_inspect(commands: Commands) -> None:
    command = commands.add_parser('inspect', help='what the program\'s inspect prints, of an output text too')
    add_lines(command)
    command.add_argument(
        '--memory',
        action='append',
        default=[],
        metavar='NAME[+OFF][:SIZE]',
        help='what memory holds there, by name; several times for several places',
    )
    command.set_defaults(action=inspect_command)


def add_shrink(commands: Commands) -> None:
    command = commands.add_parser('shrink', help='a short steer whose run ends as this one does')
    add_run_and_elf(command)
    command.add_argument(
        '--by', choices=('text', 'end'), default='text', help='the same console and end, or the end alone'
    )
    command.add_argument(
        '--seconds', type=positive, metavar='N', help='look for so long at most, and print the best so far'
    )
    command.add_argument(
        '--progress',
        action='store_true',
        help='say on standard error how far it is, also where that is no terminal',
    )
    add_out(command, 'STEER')
    command.set_defaults(action=shrink_command)


def add_steer(commands: Commands) -> None:
    command = commands.add_parser(
        'steer',
        help='a script made from a short one as a person writes it',
        description='Makes a script from STEER, and a file of its comments beside it. The orders are described in '
        'tools/lens/README.md.',
    )
    command.add_argument('steer', metavar='STEER')
    command.add_argument('elf', metavar='ELF')
    command.add_argument('-o', '--out', metavar='SCRIPT', help='(STEER with the ending .script)')
    add_program(command)
    command.set_defaults(action=steer_command)


def add_gdb(commands: Commands) -> None:
    command = commands.add_parser(
        'gdb',
        help='gdb on the run, forwards and backwards',
        epilog='Words after -- are for gdb: lens gdb RUN ELF -- -ex "break main".',
    )
    add_run_and_elf(command)
    command.add_argument('--gdb', default=GDB, metavar='GDB', help=f'the gdb that is started ({GDB})')
    way = command.add_mutually_exclusive_group()
    way.add_argument(
        '--listen', type=address, metavar='HOST:PORT', help='start no gdb, and wait there for some, one after another'
    )
    way.add_argument('--pipe', action='store_true', help='start no gdb: packets come on standard input')
    command.set_defaults(action=gdb_command)


def add_run_and_elf(command: argparse.ArgumentParser) -> None:
    command.add_argument('run', metavar='RUN', nargs='?')
    command.add_argument('elf', metavar='ELF')
    command.add_argument('--seed', type=natural, metavar='S', help='the run that this seed draws, in place of RUN')
    add_program(command)


def add_span(command: argparse.ArgumentParser, last: str) -> None:
    command.add_argument(
        '--from', dest='first', type=positive, metavar='N', help='the first step that is shown (1)'
    )
    command.add_argument('--to', dest='last', type=positive, metavar='M', help=last)


def add_values(command: argparse._ActionsContainer, what: str) -> None:
    command.add_argument('--values', action='store_true', help=what)


def add_json(command: argparse._ActionsContainer) -> None:
    command.add_argument('--json', action='store_true', help='as JSON (tools/lens/lens/schemas)')


def subjects(text: str) -> tuple[str, ...]:
    """The words of a list with commas."""
    words = tuple(text.split(','))
    for word in words:
        if word not in WORDS:
            raise argparse.ArgumentTypeError(no_such('word', word, WORDS))
    return words


def add_lines(command: argparse.ArgumentParser) -> None:
    command.add_argument('run', metavar='RUN', help='a script, or an output text, whose log is one')
    command.add_argument('elf', metavar='ELF')
    command.add_argument('--to', dest='last', type=natural, metavar='N', help='only the first N lines (all)')
    add_program(command)


def add_out(command: argparse.ArgumentParser, name: str) -> None:
    command.add_argument('-o', '--out', metavar=name, help='where it is written (standard output)')


def read_history(arguments: argparse.Namespace) -> History:
    return make_history(output_of(arguments), read_program(arguments.elf))


def read_program(path: str) -> Program:
    """The file of a run. What of its source lines can't be read is said, and they lack."""
    program = Program(path)
    if program.lines.lacking:
        lacking = ', '.join(program.lines.lacking)
        print(f'lens: {path}: source lines that can\'t be read, and lack: {lacking}', file=sys.stderr)
    return program


def values_of(arguments: argparse.Namespace) -> Values:
    """The run that is shown, with what it read and wrote."""
    return read_values(read_history(arguments), machine_of(arguments))


def machine_of(arguments: argparse.Namespace) -> Machine:
    machine = Machine(arguments.program, arguments.elf, tuple(limits_of(arguments)))
    machine.check_name()
    return machine


def output_of(arguments: argparse.Namespace) -> Output:
    """The run that is shown, each line of its log read."""
    return outline_of(arguments).output()


def outline_of(arguments: argparse.Namespace) -> Outline:
    """The run that is shown: that of an output text, or of a script, which is played, or that of a seed."""
    if (arguments.run is None) == (arguments.seed is None):
        raise LensFault('either RUN or --seed is wanted')
    if arguments.seed is not None:
        return machine_of(arguments).draw_outline(arguments.seed)
    name, text = read_bytes(arguments.run)
    if text.startswith(OUTPUT_BEGINS):
        return outline(name, text)
    return played(script_lines(name, text), machine_of(arguments))


def write_out(path: str | None, parts: Iterable[str]) -> None:
    try:
        if path is None:
            sys.stdout.writelines(parts)
            sys.stdout.flush()
        else:
            with open(path, 'w') as file:
                file.writelines(parts)
    except BrokenPipeError:
        raise
    except OSError as error:
        raise LensFault(f'{path or "standard output"}: {error.strerror}') from None


def write_rows(rows: Iterable[str]) -> None:
    """Writes lines, some at once."""
    left = iter(rows)
    pieces = iter(lambda: list(itertools.islice(left, ROWS_AT_ONCE)), [])
    write_out(None, ('\n'.join([*piece, '']) for piece in pieces))


def list_command(arguments: argparse.Namespace) -> None:
    history = read_history(arguments)
    for number in (arguments.around, arguments.first, arguments.last):
        check_step(history.output, number)
    chosen = Selection(
        arguments.around,
        arguments.context,
        arguments.hart,
        arguments.thread,
        arguments.first,
        arguments.last,
        chosen_steps(history, arguments),
    )
    values = read_values(history, machine_of(arguments)) if arguments.values else None
    write_rows(list_run(history, chosen, values))


def chosen_steps(history: History, arguments: argparse.Namespace) -> set[int] | None:
    """The steps about what --only names. The program is asked for sequences alone."""
    if not arguments.only:
        return None
    lines = [step.line() for step in history.output.steps]
    acts = machine_of(arguments).acts(lines) if SEQUENCES in arguments.only else []
    return steps_about(history, arguments.only, acts)


def check_step(output: Output, number: int | None) -> None:
    if number is not None and number > len(output.steps):
        raise LensFault(f'{output.name} has {len(output.steps)} steps, and no step {number}')


def trace_command(arguments: argparse.Namespace) -> None:
    history = read_history(arguments)
    values = read_values(history, machine_of(arguments)) if arguments.values else None
    write_out(arguments.out, trace_text(history, values))


def svg_command(arguments: argparse.Namespace) -> None:
    write_out(arguments.out, [draw_run(read_history(arguments), arguments.first, arguments.last)])


def report_command(arguments: argparse.Namespace) -> None:
    outline_, machine, program = outline_of(arguments), machine_of(arguments), read_program(arguments.elf)
    watches = watch_names(program, arguments.watch)
    timeline = make_timeline(outline_.name, outline_.log, program, machine)
    values = read_values(make_history(outline_.output(), program), machine)
    reported = Reported(timeline, values, list(explain(values.history, machine)), watches)
    write_out(arguments.out, [report_page(reported)])


def cut_command(arguments: argparse.Namespace) -> None:
    kept = read_script(arguments.run).first(arguments.last)
    unreadable = first_unreadable(kept.lines)
    if unreadable:
        raise LensFault(f'{kept.name}, line {unreadable[0]}: {unreadable[1]}')
    lines = (line.decode('ascii') for line in kept.lines)
    write_out(arguments.out, (f'{short_line(line) if arguments.short else line}\n' for line in lines))


def short_line(line: str) -> str:
    """A line of a script without its pc, and without its thread but for `run`."""
    fields = line.split(' ')
    return ' '.join(fields[: 3 if fields[1] == RUN else 2])


def play_command(arguments: argparse.Namespace) -> int:
    lines = lines_of(arguments)
    return pass_on(lines, machine_of(arguments).call('play', lines.text(), lines.name))


def inspect_command(arguments: argparse.Namespace) -> int:
    lines, machine = lines_of(arguments), machine_of(arguments)
    if not arguments.memory:
        return pass_on(lines, machine.call('inspect', lines.text(), lines.name))
    program = read_program(arguments.elf)
    ranges = ranges_of(program, arguments.memory)
    answer = machine.call('inspect', lines.text(), lines.name, (asked(ranges),))
    named = with_names(program, ranges, answer.text.decode('ascii', 'replace'))
    text = ''.join(f'{line}\n' for line in named).encode()
    return pass_on(lines, replace(answer, text=text))


def lines_of(arguments: argparse.Namespace) -> Lines:
    """The lines of a script, or of the log of an output text, up to the last that is wanted."""
    return read_lines(arguments.run).first(arguments.last)


def pass_on(lines: Lines, answer: Answer) -> int:
    """Passes on what the program prints of some lines, what it says, and its status."""
    sys.stdout.buffer.write(answer.text)
    sys.stdout.flush()
    unreadable = first_unreadable(lines.lines) if answer.refused_line() else None
    said = answer.said
    if unreadable and unreadable[0] == answer.refused_line():
        said += f'lens: line {unreadable[0]} can\'t be read: {unreadable[1]}\n'
    sys.stderr.write(said)
    return answer.status


def calls_command(arguments: argparse.Namespace) -> None:
    history, machine = read_history(arguments), machine_of(arguments)
    if arguments.json:
        return write_out(None, json_text(calls_data(read_values(history, machine), arguments.thread)))
    if arguments.values:
        rows = list_traced_calls(read_values(history, machine), arguments.thread)
    else:
        rows = list_calls(history, machine, arguments.thread)
    write_rows(rows)


def sequences_command(arguments: argparse.Namespace) -> None:
    values = values_of(arguments)
    if arguments.json:
        return write_out(None, json_text(sequences_data(values, arguments.thread)))
    write_rows(list_sequences(values, arguments.thread, arguments.values))


def settle_watched(arguments: argparse.Namespace) -> None:
    """Gives the words RUN ELF NAME their places: with --seed there is no RUN, and with --freed no NAME."""
    words = [word for word in (arguments.run, arguments.elf, arguments.variable) if word is not None]
    wanted = {'run': 'RUN', 'elf': 'ELF', 'variable': 'NAME'}
    if arguments.seed is not None:
        del wanted['run']
    if arguments.freed:
        del wanted['variable']
    if len(words) != len(wanted):
        raise LensFault(f'{" ".join(wanted.values())} is wanted here, which is {len(wanted)} words')
    arguments.run = arguments.variable = None
    for name, word in zip(wanted, words):
        setattr(arguments, name, word)


def watch_command(arguments: argparse.Namespace) -> None:
    settle_watched(arguments)
    if arguments.json and arguments.freed:
        raise LensFault('--json is of a NAME, and there is none for --freed')
    values = values_of(arguments)
    for number in (arguments.first, arguments.last):
        check_step(values.history.output, number)
    chosen = Selection(
        hart=arguments.hart, thread=arguments.thread, first=arguments.first, last=arguments.last
    )
    if arguments.json:
        return write_out(None, json_text(watch_data(values, arguments.variable, chosen)))
    write_rows(list_freed(values, chosen) if arguments.freed else watch(values, arguments.variable, chosen))


def races_command(arguments: argparse.Namespace) -> None:
    values = values_of(arguments)
    if arguments.json:
        return write_out(None, json_text(races_data(values, arguments.plain)))
    write_rows(list_races(values, arguments.plain))


def atomics_command(arguments: argparse.Namespace) -> None:
    write_rows(list_atomics(read_program(arguments.elf)))


def coverage_command(arguments: argparse.Namespace) -> None:
    program, machine = read_program(arguments.elf), machine_of(arguments)
    runs = covered_runs(arguments, machine)
    progress = Progress(sys.stderr if sys.stderr.isatty() else None)
    covered = total(each_made(runs, lambda run: cover(run, program, machine), progress), runs.explored)
    if arguments.lcov:
        lines = CoveredLines(program, covered)
        write_out(arguments.lcov, (f'{line}\n' for line in tracefile(lines)))
        lacking = left_out(lines)
        if lacking:
            print(f'lens: {arguments.lcov}: left out, since they aren\'t found: {", ".join(lacking)}', file=sys.stderr)
    write_rows(list_coverage(program, covered, runs.words))


def covered_runs(arguments: argparse.Namespace, machine: Machine) -> Runs:
    """The runs that are wanted."""
    policy = [] if arguments.policy is None else [f'--policy={arguments.policy}']
    calm = [] if arguments.calm is None else [f'--calm={arguments.calm}']
    draws = (*policy, *calm)
    if (arguments.run is None) == (arguments.seed is None):
        raise LensFault('either RUNS or --seed is wanted')
    if arguments.run is not None and arguments.runs is not None:
        raise LensFault('--runs is for --seed: how many runs RUNS has it says itself')
    if arguments.seed is not None:
        return runs_of_seeds(machine, arguments.seed, arguments.runs or 1, draws)
    return runs_of(arguments.run, machine, draws)


def why_command(arguments: argparse.Namespace) -> None:
    history, machine = read_history(arguments), machine_of(arguments)
    if arguments.json:
        return write_out(None, json_text(why_data(history, machine)))
    write_rows(explain(history, machine))


def gdb_command(arguments: argparse.Namespace) -> int:
    door = make_door(arguments.listen, arguments.pipe, arguments.gdb, arguments.gdb_words)
    outline_, machine, program = outline_of(arguments), machine_of(arguments), read_program(arguments.elf)
    return door.open(record(outline_, program, machine))


def shrink_command(arguments: argparse.Namespace) -> int:
    stop = Stop(arguments.seconds, TRIES)
    with stop.on_signals():
        return write_shrunk(arguments, stop)


def write_shrunk(arguments: argparse.Namespace, stop: Stop) -> int:
    """Writes the short steer; the status that a search has which was stopped by a signal."""
    output, program = output_of(arguments), read_program(arguments.elf)
    shrinking = Shrinking(output, program, machine_of(arguments), arguments.by == 'end')
    is_told = arguments.progress or sys.stderr.isatty()
    shrunk = shrinking.shrink(stop, Progress(sys.stderr if is_told else None))
    write_out(arguments.out, [shrunk.steer])
    costs = f'from {shrunk.before.words()}\nto {shrunk.after.words()}, and `finish`'
    print('\n'.join([costs, *filter(None, [shrunk.unfinished])]), file=sys.stderr)
    return stop.status if shrunk.unfinished else 0


def steer_command(arguments: argparse.Namespace) -> None:
    script = steer(arguments.steer, read_program(arguments.elf), machine_of(arguments))
    path = Path(arguments.out) if arguments.out else Path(arguments.steer).with_suffix('.script')
    notes = path.with_suffix('.notes')
    write_out(str(path), [script.text()])
    write_out(str(notes), [script.notes()])
    print(f'{path}: {len(script.lines)} lines; {notes}: {len(script.remarks)} comments')


def main() -> int:
    """Does what the words ask; 2 and one line on standard error where it can't."""
    gc.disable()  # (a run is read as a whole, and nothing of it goes before the end)
    return end('lens', run_command)


def run_command() -> int:
    own, gdb_words = words_apart(sys.argv[1:])
    arguments = make_parser().parse_args(own)
    arguments.gdb_words = gdb_words
    return arguments.action(arguments) or 0


def words_apart(words: list[str]) -> tuple[list[str], list[str]]:
    """The words of a command, and those for gdb, which come after `--` of `lens gdb`."""
    if words[:1] != ['gdb'] or '--' not in words:
        return words, []
    at = words.index('--')
    return words[:at], words[at + 1 :]

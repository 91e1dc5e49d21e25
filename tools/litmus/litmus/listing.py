"""The assembler of a litmus test: a program that no C compiler makes, so that a test is as short as can be.

Thread 1 starts the others by clone(2) and then makes its own part. Each thread stores its results, each in a
byte of its own, behind its part, where no store of the test can be passed by them. The others end then, and
the kernel clears a word for each. Thread 1 loads these words until all are 0, without a counter, so that the
places of the program are finitely many. Then it writes the results and the words of the test to the console,
or exits with the results as its status.
"""
from __future__ import annotations

from collections.abc import Iterator

from .instructions import (
    AMOS, FENCES, Amo, Body, Fence, Instruction, Litmus, Load, LoadReserved, Store, StoreConditional,
    has_result, named, operands, result_bits, results, value_bits,
)

STATUS_BITS = 8
RESULT_BYTES = 8
"""So many bytes the results have, or a multiple of them: no word of the test shares the 8 bytes of a
reservation with one of them."""
RESULT_BITS = 8
CLONE_FLAGS = 0x210F00
"""CLONE_VM, CLONE_FS, CLONE_FILES, CLONE_SIGHAND, CLONE_THREAD, and CLONE_CHILD_CLEARTID."""
CALL_WRITE, CALL_EXIT, CALL_EXIT_GROUP, CALL_CLONE = 64, 93, 94, 220
RESULTS = ('t0', 't1', 't2', 't3', 't4', 't5', 't6')
"""The registers of a thread's results, in order."""
WORDS = ('s1', 's2', 's3')
VALUES = {1: 's4', 2: 's5', 3: 's6'}
SHOWN, RUNNING, FLAGS = 's7', 's8', 's0'
"""The registers of the address of the results, of that of the words that say who hasn't ended, and of the
flags of clone."""


class ListingFault(Exception):
    """A test that isn't one this program can hold."""


def check(litmus: Litmus) -> None:
    """Refuses a test with more results, words or other values than there is room for."""
    if value_bits(litmus) > RESULT_BITS:
        raise ListingFault(f'{value_bits(litmus)} bits of a result, and there is room for {RESULT_BITS}')
    if litmus.is_status and result_bits(litmus) > STATUS_BITS:
        raise ListingFault(f'{result_bits(litmus)} bits of results, and a status has {STATUS_BITS}')
    if not 1 <= litmus.words <= len(WORDS) or litmus.spacing not in (4, 8):
        raise ListingFault(f'{litmus.words} words, {litmus.spacing} bytes apart')
    if any(results(body) > len(RESULTS) for body in litmus.threads):
        raise ListingFault(f'more than {len(RESULTS)} results of a thread')
    for instruction in (it for body in litmus.threads for it in body):
        check_instruction(litmus, instruction)


def check_instruction(litmus: Litmus, instruction: Instruction) -> None:
    if isinstance(instruction, Fence):
        if instruction.orders not in FENCES:
            raise ListingFault(f'there is no {named(instruction)} here')
        return
    if not 0 <= instruction.word < litmus.words:
        raise ListingFault(f'there is no word {instruction.word}')
    if isinstance(instruction, (Store, Amo, StoreConditional)) and instruction.value not in VALUES:
        raise ListingFault(f'{named(instruction)}: the values are 1 to {max(VALUES)}')
    if isinstance(instruction, Amo) and instruction.kind not in AMOS:
        raise ListingFault(f'there is no amo{instruction.kind}')


def assembler(litmus: Litmus) -> str:
    """The text of a test's program."""
    check(litmus)
    lines = [f'# {"; ".join(map(named, body)) or "nothing"}' for body in litmus.threads]
    lines += data(litmus)
    lines += ['    .text', '    .option norelax', '    .globl _start', '_start:', *beginning(litmus)]
    lines += starts(len(litmus.threads))
    place = 0
    for number, body in enumerate(litmus.threads, 1):
        lines += [f'thread{number}:', *part(body), *stores(body, place)]
        lines += ending(litmus) if number == 1 else indented(f'li a7, {CALL_EXIT}', 'ecall')
        place += results(body)
    return '\n'.join(lines) + '\n'


def results_size(litmus: Litmus) -> int:
    """How many bytes the results have, with those that fill them up."""
    count = sum(map(results, litmus.threads))
    return max(1, -(-count // RESULT_BYTES)) * RESULT_BYTES


def data(litmus: Litmus) -> list[str]:
    """The results, behind them the words, and then a word for each thread that has to end."""
    running = ['    .word 1'] * (len(litmus.threads) - 1)
    shown = [f'    .zero {results_size(litmus)}', f'    .zero {litmus.words * litmus.spacing}']
    return ['    .data', '    .balign 64', 'shown:', *shown, '    .balign 64', 'running:', *running]


def beginning(litmus: Litmus) -> Iterator[str]:
    """What all threads find in their registers."""
    yield from indented(f'lla {SHOWN}, shown', f'li {FLAGS}, {CLONE_FLAGS:#x}', f'lla {RUNNING}, running')
    used = {it.word for body in litmus.threads for it in body if not isinstance(it, Fence)}
    for word in sorted(used):
        yield from indented(f'addi {WORDS[word]}, {SHOWN}, {results_size(litmus) + word * litmus.spacing}')
    for value in sorted(set(operands(litmus))):
        yield from indented(f'li {VALUES[value]}, {value}')


def starts(threads: int) -> Iterator[str]:
    """The calls by which thread 1 starts the others, each with the word that its end clears."""
    if threads > 1:
        yield from indented('li a1, 0', f'mv a4, {RUNNING}', f'li a7, {CALL_CLONE}')
    for number in range(2, threads + 1):
        yield from indented(f'mv a0, {FLAGS}', 'ecall', f'beqz a0, thread{number}')
        if number < threads:
            yield from indented('addi a4, a4, 4')


def part(body: Body) -> Iterator[str]:
    """The instructions of a thread, each result in a register of its own."""
    registers = iter(RESULTS)
    for instruction in body:
        yield from indented(line_of(instruction, next(registers) if has_result(instruction) else 'zero'))


def line_of(instruction: Instruction, into: str) -> str:
    """An instruction whose result goes to a register."""
    if isinstance(instruction, Fence):
        return 'fence.tso' if instruction.orders == 'tso' else f'fence {instruction.orders}'
    word = WORDS[instruction.word]
    if isinstance(instruction, Load):
        return f'lw {into}, ({word})'
    if isinstance(instruction, Store):
        return f'sw {VALUES[instruction.value]}, ({word})'
    if isinstance(instruction, LoadReserved):
        return f'lr.w {into}, ({word})'
    operand = VALUES[instruction.value]
    if isinstance(instruction, StoreConditional):
        return f'sc.w {into}, {operand}, ({word})'
    return f'amo{instruction.kind}.w {into}, {operand}, ({word})'


def stores(body: Body, place: int) -> Iterator[str]:
    """Stores a thread's results, the first of them in the byte `place`."""
    return indented(*(f'sb {RESULTS[at]}, {place + at}({SHOWN})' for at in range(results(body))))


def ending(litmus: Litmus) -> Iterator[str]:
    """Thread 1 waits for the others, and shows what came of all."""
    for other in range(len(litmus.threads) - 1):
        yield f'wait{other}:'
        yield from indented(f'lw a5, {4 * other}({RUNNING})', f'bnez a5, wait{other}')
    if litmus.is_status:
        yield from indented('li a0, 0')
        for at in reversed(range(sum(map(results, litmus.threads)))):
            yield from indented(f'slli a0, a0, {value_bits(litmus)}')
            yield from indented(f'lbu a1, {at}({SHOWN})', 'add a0, a0, a1')
    else:
        length = results_size(litmus) + litmus.words * litmus.spacing
        yield from indented('li a0, 1', f'mv a1, {SHOWN}', f'li a2, {length}')
        yield from indented(f'li a7, {CALL_WRITE}', 'ecall', 'li a0, 0')
    yield from indented(f'li a7, {CALL_EXIT_GROUP}', 'ecall')


def indented(*lines: str) -> Iterator[str]:
    return (f'    {line}' for line in lines)

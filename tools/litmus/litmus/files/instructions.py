"""The instructions that are taken, and how each is written."""
from __future__ import annotations

import difflib

from .lexer import NAME, NUMBER, Word, refusal
from .parts import Operation
from .reader import Reader

TARGET, SOURCE, SMALL, ANY, AT, ATOMIC_AT, LABEL, SET = (
    'target', 'source', 'small', 'any', 'at', 'atomic at', 'label', 'set',
)
"""What an operand is: the register that is written, one that is read, a number of 12 bits, a number of 64
bits, a place in memory with a distance, one without, a label, and what a fence orders."""
FORMS: dict[str, tuple[str, ...]] = {
    'nop': (), 'fence': (SET, SET), 'fence.tso': (),
    'li': (TARGET, ANY), 'mv': (TARGET, SOURCE),
    **dict.fromkeys(('addi', 'andi', 'ori', 'xori'), (TARGET, SOURCE, SMALL)),
    **dict.fromkeys(('add', 'sub', 'and', 'or', 'xor'), (TARGET, SOURCE, SOURCE)),
    **dict.fromkeys(('lw', 'ld'), (TARGET, AT)),
    **dict.fromkeys(('sw', 'sd'), (SOURCE, AT)),
    **dict.fromkeys(('beq', 'bne', 'blt', 'bge', 'bltu', 'bgeu'), (SOURCE, SOURCE, LABEL)),
    **dict.fromkeys(('beqz', 'bnez'), (SOURCE, LABEL)),
    'j': (LABEL,),
}
AMOS = ('swap', 'add', 'and', 'or', 'xor', 'max', 'min', 'maxu', 'minu')
ATOMIC_FORMS: dict[str, tuple[str, ...]] = {
    'lr': (TARGET, ATOMIC_AT),
    'sc': (TARGET, SOURCE, ATOMIC_AT),
    **{f'amo{kind}': (TARGET, SOURCE, ATOMIC_AT) for kind in AMOS},
}
WIDTHS = ('w', 'd')
ORDERS = {'': '', 'aq': '.aq', 'rl': '.rl', 'aq.rl': '.aqrl', 'aqrl': '.aqrl'}
"""What may follow an atomic instruction, and how GNU's assembler writes it."""
SETS = 'iorw'
IMMEDIATES = {'addi', 'ori', 'xori', 'li'}
"""Those that give a number which stands in the file, if they read x0 or no register."""


def form_of(word: Word) -> tuple[str, tuple[str, ...]]:
    """How GNU's assembler writes the name of an instruction, and its operands."""
    if word.text in FORMS:
        return word.text, FORMS[word.text]
    kind, _, rest = word.text.partition('.')
    width, _, order = rest.partition('.')
    if kind in ATOMIC_FORMS and width in WIDTHS and order in ORDERS:
        return f'{kind}.{width}{ORDERS[order]}', ATOMIC_FORMS[kind]
    known = [*FORMS, *(f'{name}.{width}' for name in ATOMIC_FORMS for width in WIDTHS)]
    near = difflib.get_close_matches(word.text, known, 1)
    raise refusal(word, 'this instruction isn\'t taken' + (f'; the nearest is {near[0]}' if near else ''))


class Operands:
    """Reads the operands of an instruction."""

    def __init__(self, reader: Reader):
        self.reader = reader
        self.texts: list[str] = []
        self.read: list[int] = []
        self.target: int | None = None
        self.number = 0
        self.label: str | None = None

    def take(self, form: str) -> None:
        if form in (TARGET, SOURCE):
            register = self.reader.register()
            self.texts.append(f'x{register}')
            if form == TARGET:
                self.target = register
            else:
                self.read.append(register)
        elif form in (SMALL, ANY):
            self.number = self.small() if form == SMALL else self.reader.number()
            self.texts.append(str(self.number))
        elif form == LABEL:
            self.label = self.reader.of_kind(NAME, 'a label').text
        elif form == SET:
            self.texts.append(self.order_set())
        else:
            self.take_place(form)

    def small(self) -> int:
        word = self.reader.next
        number = self.reader.number()
        if not -2048 <= number < 2048:
            raise refusal(word, 'this number isn\'t from -2048 to 2047')
        return number

    def order_set(self) -> str:
        word = self.reader.of_kind(NAME, 'what the fence orders, as rw')
        if set(word.text) - set(SETS) or len(set(word.text)) != len(word.text):
            raise refusal(word, 'a fence orders i, o, r and w')
        return ''.join(sorted(word.text))

    def take_place(self, form: str) -> None:
        """A place in memory, as in `0(x5)`; for atomic instructions without a distance, or with 0."""
        word, distance = self.reader.next, 0
        if word.kind == NUMBER:
            distance = self.small()
        if form == ATOMIC_AT and distance:
            raise refusal(word, 'an atomic instruction has no distance')
        self.reader.expect('(')
        register = self.reader.register()
        self.reader.expect(')')
        self.read.append(register)
        self.texts.append(f'(x{register})' if form == ATOMIC_AT else f'{distance}(x{register})')


def read_operation(reader: Reader) -> Operation:
    """The instruction that comes next."""
    word = reader.of_kind(NAME, 'an instruction')
    name, form = form_of(word)
    if name == 'fence' and reader.next.is_mark('|', ';'):
        return Operation('fence iorw, iorw', frozenset())
    operands = Operands(reader)
    for at, operand in enumerate(form):
        if at:
            reader.expect(',')
        operands.take(operand)
    read, target = operands.read, operands.target
    is_fixed = name in IMMEDIATES and not any(read) and -(1 << 31) <= operands.number < 1 << 31
    return Operation(
        text=f'{name} {", ".join(operands.texts)}'.rstrip(),
        registers=frozenset(read) | (frozenset() if target is None else {target}),
        target=target,
        is_word=is_fixed or name == 'lw' or name.startswith('sc.') or '.w' in name,
        is_double_access=name in ('ld', 'sd') or '.d' in name,
        label=operands.label,
    )

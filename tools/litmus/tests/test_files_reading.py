"""Litmus files of herd7's format: what is read of them, and which line and word is named of one that isn't
taken."""
from __future__ import annotations

import unittest

from lens.faults import LensFault
from litmus.files.conditions import told
from litmus.files.instructions import ATOMIC_FORMS, FORMS, read_operation
from litmus.files.lexer import words
from litmus.files.parts import (
    AND, DOUBLE, EXISTS, FORALL, NOT_EXISTS, WORD, Both, Equal, Kind, Label, Operation, Register, Test, Truth,
    Variable,
)
from litmus.files.reader import Reader
from litmus.files.reading import read_test

GOOD = '''RISCV MP+ctrl
"Message passing"
Com=Rf Fr
(* a comment before the state *)
{
x=0; int y; uint64_t z=0x10; p=x;
0:x5=1; 0:x6=x; 0:a2=y;
1:x6=x; uint64_t 1:x7=y;
}
 P0             | P1                     ;
 sw x5, 0(x6)   | lw a0,(a7)             ; (* a (* nested *) comment *)
 fence w,w      | bne a0,x0,LC00         ;
 sw x5,0(a2)    | LC00: ld x11,-8(x6)    ;
                | L1:                    ;
 sc.w.aq.rl x1,x2,(x3) | lr.d x4,0(x3)   ;
locations [0:x1; z;]
exists (1:x10=1 /\\ 1:x11=0 \\/ ~([y]=2))
'''

REFUSED = (
    ('RISCV MP+ctrl', 'X86 MP', 1, 'X86', 'begins with RISCV'),
    ('RISCV MP+ctrl', 'RISCV', 1, '', 'name of the test'),
    ('RISCV MP+ctrl', 'RISCV M P', 1, 'M P', 'is one word'),
    ('int y;', 'char y;', 6, 'char', 'type isn\'t taken'),
    ('int y;', 'int y=0x100000000;', 6, 'y', 'more than 4 bytes'),
    ('int y;', 'int y=x;', 6, 'y', 'has 8 bytes'),
    ('p=x;', 'z=x;', 6, 'z', 'already'),
    ('0:x5=1;', '0:x5=1; 0:x5=2;', 7, '0', 'already'),
    ('0:x5=1;', '0:x32=1;', 7, 'x32', 'no such register'),
    ('0:x5=1;', '0:x0=1;', 7, '0', 'x0 is always 0'),
    ('0:x5=1;', '2:x5=1;', 7, '2', 'no thread 2'),
    ('0:x5=1;', '0:x5=1', 7, '0', '\';\' is due'),
    ('0:x5=1;', '0:x5=0x1ffffffffffffffff;', 7, '0x1ffffffffffffffff', '64 bits'),
    ('P1                     ;', 'P2 ;', 10, 'P2', 'P1 is due'),
    ('sw x5, 0(x6)', 'sb x5, 0(x6)', 11, 'sb', 'isn\'t taken'),
    ('sw x5, 0(x6)', 'amoswap.b x5,x5,(x6)', 11, 'amoswap.b', 'nearest is amoswap.'),
    ('sw x5, 0(x6)', 'lw.aq x5,0(x6)', 11, 'lw.aq', 'isn\'t taken'),
    ('sw x5, 0(x6)', 'sw x5, 2048(x6)', 11, '2048', '-2048 to 2047'),
    ('sw x5, 0(x6)', 'sw x5, x6', 11, 'x6', '\'(\' is due'),
    ('sw x5, 0(x6)', 'sw x5 0(x6)', 11, '0', '\',\' is due'),
    ('sw x5, 0(x6)', 'addi x5,x6,x7', 11, 'x7', 'a number is due'),
    ('sw x5, 0(x6)', 'sw x5,0(x6) nop', 11, 'nop', '\'|\' is due'),
    ('sw x5, 0(x6)', 'sw x5,0(x6) | nop', 11, '|', '\';\' is due'),
    ('fence w,w', 'fence w,x', 12, 'x', 'i, o, r and w'),
    ('fence w,w', 'fence w$w', 12, '$w', 'a word of the format'),
    ('bne a0,x0,LC00', 'bne a0,x0,LC01', 12, 'LC01', 'no such label'),
    ('L1:    ', 'LC00:', 14, 'LC00', 'already'),
    ('lr.d x4,0(x3)', 'lr.d x4,8(x3)', 15, '8', 'no distance'),
    ('[0:x1; z;]', '[0:x1; z;', 17, '(', '\';\' is due'),
    ('exists', 'filter', 17, 'filter', 'isn\'t taken here'),
    ('exists', '~forall', 17, 'forall', '"exists" is due'),
    ('1:x10=1 /\\', '1:x10=1 &&', 17, '&&', 'a word of the format'),
    ('1:x10=1 /\\', '1:x10 /\\', 17, '/\\', '\'=\' is due'),
    ('1:x10=1 /\\', '3:x10=1 /\\', 17, '3', 'no thread 3'),
    ('~([y]=2))', '~([y]=2)', 18, 'end of the file', '\')\' is due'),
    ('~([y]=2))', '~([y]=2)) 5', 17, '5', 'isn\'t taken here'),
    ('(* nested *)', '(* nested', 11, '(*', 'has no end'),
)
"""What is put in the place of what, and then the line, the word and the reason that are named."""


def changed(old: str, new: str) -> str:
    assert GOOD.count(old) == 1, old
    return GOOD.replace(old, new)


class Reading(unittest.TestCase):
    def setUp(self) -> None:
        self.test = read_test(GOOD)

    def test_the_initial_state(self) -> None:
        self.assertEqual(self.test.name, 'MP+ctrl')
        due = {'p': Variable('x'), 'x': Variable(), 'y': Variable(0, WORD), 'z': Variable(16, Kind(8, False))}
        self.assertEqual(dict(self.test.variables), due)
        values = {(0, 5): 1, (0, 6): 'x', (0, 12): 'y', (1, 6): 'x', (1, 7): 'y'}
        self.assertEqual(dict(self.test.initial), {Register(*of): value for of, value in values.items()})

    def test_the_threads(self) -> None:
        texts = [[it.text for it in self.test.operations(thread)] for thread in (0, 1)]
        left = ['sw x5, 0(x6)', 'fence w, w', 'sw x5, 0(x12)', 'sc.w.aqrl x1, x2, (x3)']
        right = ['lw x10, 0(x17)', 'bne x10, x0', 'ld x11, -8(x6)', 'lr.d x4, (x3)']
        self.assertEqual(texts, [left, right])
        labels = [it for it in self.test.threads[1] if isinstance(it, Label)]
        self.assertEqual(labels, [Label('LC00'), Label('L1')])
        self.assertEqual([it.label for it in self.test.operations(1)], [None, 'LC00', None, None])

    def test_what_is_seen(self) -> None:
        registers = (Register(0, 1), Register(1, 10), Register(1, 11))
        self.assertEqual(self.test.observed, (*registers, 'y', 'z'))

    def test_kinds(self) -> None:
        """Where the file doesn't say it, a variable has 8 bytes if some instruction touches 8."""
        kinds = {name: self.test.kind(name) for name in self.test.variables}
        self.assertEqual(kinds, {'p': DOUBLE, 'x': DOUBLE, 'y': WORD, 'z': Kind(8, False)})
        words = read_test('RISCV A {} P0 ; nop ; exists (x=1)'.replace('{', '\n{'))
        self.assertEqual(words.kind('x'), WORD)

    def test_questions(self) -> None:
        self.assertEqual(self.test.quantifier, EXISTS)
        self.assertEqual(told(self.test.proposition), '1:x10=1 /\\ 1:x11=0 \\/ not ([y]=2)')
        end = GOOD.index('exists')
        for text, quantifier, due in (
            ('~exists (x=1)', NOT_EXISTS, '[x]=1'),
            ('forall (x=1 => y=2 => z=3)', FORALL, '[x]=1 => [y]=2 => [z]=3'),
            ('forall ((x=1 => y=2) => z=-3)', FORALL, '([x]=1 => [y]=2) => [z]=-3'),
            ('exists ((x=1 \\/ y=2) /\\ not z=0xf)', EXISTS, '([x]=1 \\/ [y]=2) /\\ not ([z]=15)'),
            ('exists (p=x /\\ true)', EXISTS, '[p]=x /\\ true'),
            ('', FORALL, 'true'),
        ):
            with self.subTest(text=text):
                test = read_test(GOOD[:end] + text)
                self.assertEqual((test.quantifier, told(test.proposition)), (quantifier, due))
                again = read_test(GOOD[:end] + f'{quantifier} ({due})')
                self.assertEqual(again.proposition, test.proposition)

    def test_and_groups_to_the_left(self) -> None:
        test = read_test(changed('1:x10=1 /\\ 1:x11=0 \\/ ~([y]=2)', 'x=1 /\\ y=2 /\\ z=3'))
        left = Both(AND, Equal('x', 1), Equal('y', 2))
        self.assertEqual(test.proposition, Both(AND, left, Equal('z', 3)))

    def test_no_question_and_no_thread_that_acts(self) -> None:
        test = read_test('RISCV A\n{}\n P0 ;\n')
        self.assertEqual(test, Test('A', {}, {}, ((),), (), FORALL, Truth(True)))


class Instructions(unittest.TestCase):
    def read(self, text: str) -> Operation:
        return read_operation(Reader(list(words(f'{text} ;', 1))))

    def test_each_that_is_taken(self) -> None:
        """Each form is read with its operands, and its text is what GNU's assembler takes."""
        examples = {
            'target': 'x1', 'source': 'x2', 'small': '-5', 'any': '0x123456789', 'at': '8(x3)',
            'atomic at': '(x3)', 'label': 'L', 'set': 'rw',
        }
        atomics = {f'{name}.{width}{order}': form for name, form in ATOMIC_FORMS.items()
                   for width in 'wd' for order in ('', '.aq', '.rl', '.aqrl')}
        for name, form in {**FORMS, **atomics}.items():
            with self.subTest(name=name):
                read = self.read(f'{name} {",".join(examples[it] for it in form)}')
                self.assertEqual(read.text.split(' ')[0], name)
                self.assertEqual(read.target, 1 if 'target' in form else None)
                self.assertEqual(read.label, 'L' if 'label' in form else None)
                self.assertEqual(2 in read.registers, 'source' in form)
                self.assertEqual(3 in read.registers, bool({'at', 'atomic at'} & set(form)))

    def test_which_leave_32_bits(self) -> None:
        fixed = (
            'li x1,-1', 'li x1,0x7fffffff', 'ori x1,x0,1', 'addi x1,zero,-3', 'lw x1,(x2)', 'lr.w x1,(x2)',
            'sc.d x1,x2,(x3)', 'amoadd.w.aq x1,x2,(x3)',
        )
        other = (
            'li x1,0x80000000', 'ori x1,x2,1', 'ld x1,(x2)', 'lr.d x1,(x2)', 'amoadd.d x1,x2,(x3)',
            'add x1,x0,x0',
        )
        for texts, due in ((fixed, True), (other, False)):
            for text in texts:
                with self.subTest(text=text):
                    self.assertEqual(self.read(text).is_word, due)

    def test_a_fence_of_all(self) -> None:
        self.assertEqual(self.read('fence').text, 'fence iorw, iorw')


class Refused(unittest.TestCase):
    def check_refused(self, text: str, line: int, word: str, why: str) -> None:
        with self.assertRaises(LensFault) as refused:
            read_test(text)
        said = str(refused.exception)
        self.assertTrue(said.startswith(f'line {line}: {word!r}: '), said)
        self.assertIn(why, said)

    def test_the_line_and_the_word_are_named(self) -> None:
        for old, new, line, word, why in REFUSED:
            with self.subTest(new=new):
                self.check_refused(changed(old, new), line, word, why)

    def test_too_many_threads(self) -> None:
        names = ' | '.join(f'P{number}' for number in range(9))
        self.check_refused(f'RISCV A\n{{}}\n{names} ;', 3, 'P8', '8 threads at most')

    def test_what_is_cut_off(self) -> None:
        """Wherever a file ends too soon, that is said, and nothing else goes wrong."""
        taken = 0
        for end in range(len(GOOD)):
            try:
                read_test(GOOD[:end])
                taken += 1
            except LensFault as fault:
                self.assertRegex(str(fault), r'^line \d+: ')
        self.assertLess(taken, 40)


if __name__ == '__main__':
    unittest.main()

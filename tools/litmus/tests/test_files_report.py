"""Litmus files: where a state is on the console, the program that shows it, and what is printed of states."""
from __future__ import annotations

import unittest

from lens.faults import LensFault
from litmus.files.layout import BASE, Slot, State, layout, state
from litmus.files.listing import Listing, assembler
from litmus.files.parts import DOUBLE, EXISTS, FORALL, NOT_EXISTS, WORD, Kind, Register, Test
from litmus.files.reading import read_test
from litmus.files.report import answer, report, word
from litmus.files.running import Observation, Seen, in_order, state_of


def of(cells: str, question: str, initial: str = '') -> Test:
    """A test with one row."""
    names = ' | '.join(f'P{number}' for number in range(cells.count('|') + 1))
    return read_test(f'RISCV T\n{{{initial}}}\n{names} ;\n{cells} ;\n{question}\n')


def console(*words: int) -> bytes:
    return b''.join((word % (1 << 64)).to_bytes(8, 'little') for word in words)


def with_values(test: Test, *values: int) -> State:
    return State(layout(test), values)


class Layouts(unittest.TestCase):
    def test_two_registers_of_32_bits_share_a_word(self) -> None:
        test = of('lw x1,(x5) | ld x2,(x5)', 'locations [1:x2; 1:x3; 1:x4; 0:x1; 1:x6; b; a;] exists (c=0)',
                  '1:x6=0x100000000; c=a; uint32_t b;')
        found = layout(test)
        one, two, three, four, six = (Register(*it) for it in ((0, 1), (1, 2), (1, 3), (1, 4), (1, 6)))
        self.assertEqual(found.words, (((one,),), ((three, four), (two,), (six,))))
        self.assertEqual(found.slots, {
            one: Slot(0, DOUBLE), two: Slot(16, DOUBLE), three: Slot(8, WORD), four: Slot(12, WORD),
            six: Slot(24, DOUBLE), 'a': Slot(32, DOUBLE), 'b': Slot(40, Kind(4, False)),
            'c': Slot(48, DOUBLE),
        })
        self.assertEqual((found.size, found.word_at(1)), (56, 8))
        self.assertEqual(found.addresses, {'a': BASE + 32, 'b': BASE + 40, 'c': BASE + 48})

    def test_variables_that_are_not_seen_are_behind_the_others(self) -> None:
        found = layout(of('nop', 'exists (z=1)', 'a=1;'))
        self.assertEqual(found.addresses, {'z': BASE, 'a': BASE + 8})
        self.assertEqual(found.size, 8)

    def test_states(self) -> None:
        test = of('lw x1,(x5)', 'locations [0:x2; u; d;] exists (0:x1=0)', 'uint32_t u; int d;')
        found = state(layout(test), console(0xFFFFFFFF | 7 << 32, 3, 0xFFFFFFFE))
        assert found is not None
        self.assertEqual(dict(zip(found.layout.slots, found.values)), {
            Register(0, 1): -1, Register(0, 2): 7, 'd': 3, 'u': 0xFFFFFFFE,
        })
        self.assertIsNone(state(layout(test), console(1, 2)))
        for of_console, end in ((console(1, 2, 3), 'killed 11'), (console(1), 'exit 0')):
            with self.assertRaises(LensFault):
                state_of(layout(test), of_console, end)

    def test_what_is_equal(self) -> None:
        """As many bits count as the variable or the register has; a name is an address."""
        test = of('ld x1,(x5)', 'exists (0:x1=0 /\\ u=1)', 'uint32_t u; int d;')
        found = with_values(test, BASE + 8, 0xFFFFFFFF)
        addressed = Register(0, 1)
        self.assertTrue(found.is_equal(addressed, 'u'))
        self.assertFalse(found.is_equal(addressed, 'd'))
        self.assertTrue(found.is_equal('u', -1))
        self.assertTrue(found.is_equal('u', 0xFFFFFFFF))
        self.assertTrue(with_values(test, -1, 0).is_equal(addressed, 0xFFFFFFFFFFFFFFFF))
        self.assertFalse(with_values(test, -1, 0).is_equal(addressed, 0xFFFFFFFF))


class Programs(unittest.TestCase):
    def text(self, test: Test) -> str:
        return assembler(test, layout(test))

    def test_thread_1_is_the_one_that_is_seen_most(self) -> None:
        test = of('nop | nop | nop', 'exists (1:x1=0 /\\ 2:x1=0 /\\ 2:x2=0)')
        self.assertEqual(Listing(test, layout(test)).order, [2, 0, 1])
        same = of('nop | nop', 'exists (1:x1=0 /\\ 0:x1=0)')
        self.assertEqual(Listing(same, layout(same)).order, [0, 1])

    def test_each_thread_has_its_own_hart(self) -> None:
        text = self.text(of('nop | nop | nop', 'exists (2:x1=0)'))
        self.assertIn('harts:\n    .dword 1\n    .dword 2\n    .dword 4\n', text)
        self.assertEqual(text.count('li a7, 122'), 3)
        self.assertEqual(text.count('li a7, 220'), 2)

    def test_a_thread_alone_starts_none(self) -> None:
        text = self.text(of('nop', 'exists (0:x1=0)'))
        self.assertNotIn('li a7, 122', text)
        self.assertNotIn('running', text)

    def test_registers_hold_0_at_first(self) -> None:
        text = self.text(of('add x3,x4,x0 | nop', 'exists (0:x9=0)', '0:x4=x; 0:x7=5; x=3;'))
        part = text[text.index('thread0:') : text.index('    add x3')]
        self.assertEqual(part, f'thread0:\n    li x3, 0\n    li x4, {BASE + 8:#x}\n    li x9, 0\n')

    def test_variables_hold_their_first_values(self) -> None:
        """8 bytes each; of one that has 4 the others are 0."""
        text = self.text(of('nop', 'exists (a=0 /\\ b=0 /\\ c=0)', 'a=-1; int64_t b=-1; c=a;'))
        words = (0xFFFFFFFF, 2**64 - 1, BASE)
        self.assertIn('    .data\n' + ''.join(f'    .dword {it:#x}\n' for it in words), text)

    def test_labels_are_those_of_a_thread(self) -> None:
        text = self.text(of('L: j L | L: beqz x1,L', 'exists (0:x1=0)'))
        self.assertIn('label.0.L:\n    j label.0.L\n', text)
        self.assertIn('label.1.L:\n    beqz x1, label.1.L\n', text)

    def test_too_many_registers_are_seen(self) -> None:
        seen = ' '.join(f'0:x{number};' for number in range(1, 31))
        with self.assertRaisesRegex(LensFault, '30 registers of thread 0 are seen, and 29 may be'):
            self.text(of('nop', f'locations [{seen}] exists (0:x1=0)'))


class Reports(unittest.TestCase):
    def lines(self, question: str, is_complete: bool, *values: int) -> list[str]:
        test = of('lw x1,(x5)', question)
        seen = in_order([Seen(with_values(test, value), 3, None) for value in values])
        return list(report(test, Observation(seen, is_complete, [])))

    def test_a_whole_one(self) -> None:
        self.assertEqual(self.lines('exists (0:x1=1)', True, 2, 1, -1), [
            'Test T Allowed', 'States 3', '0:x1=-1;', '0:x1=1;', '0:x1=2;', 'Ok', 'Witnesses',
            'Positive: 3 Negative: 6', 'Condition exists (0:x1=1)', 'Observation T Sometimes 3 6',
        ])

    def test_a_negated_one_counts_the_other_way_round(self) -> None:
        lines = self.lines('~exists (0:x1=5)', True, 1, 2)
        self.assertEqual(lines[0], 'Test T Forbidden')
        self.assertEqual(lines[4:], [
            'Ok', 'Witnesses', 'Positive: 6 Negative: 0', 'Condition ~exists (0:x1=5)',
            'Observation T Never 0 6',
        ])

    def test_one_for_all(self) -> None:
        lines = self.lines('forall (0:x1=1)', True, 1)
        self.assertEqual((lines[0], lines[-1]), ('Test T Required', 'Observation T Always 3 0'))

    def test_addresses_have_names(self) -> None:
        test = of('ld x1,(x5)', 'exists (0:x1=x)')
        lines = report(test, Observation([Seen(with_values(test, BASE + 8), 1, None)], True, []))
        self.assertIn('0:x1=x;', list(lines))

    def test_never_and_always_are_said_by_a_complete_search_alone(self) -> None:
        due = {
            (0, 2): ('Never', 'Not seen'), (1, 2): ('Sometimes', 'Sometimes'),
            (2, 0): ('Always', 'Sometimes'), (0, 0): ('Never', 'Not seen'),
        }
        for counts, (complete, other) in due.items():
            self.assertEqual((word(*counts, True), word(*counts, False)), (complete, other))

    def test_answers(self) -> None:
        """(true, false): the answer of a complete search, and of another."""
        for quantifier, due in (
            (EXISTS, {(0, 2): ('No', 'Unknown'), (1, 2): ('Ok', 'Ok'), (2, 0): ('Ok', 'Ok')}),
            (NOT_EXISTS, {(0, 2): ('Ok', 'Unknown'), (1, 2): ('No', 'No'), (2, 0): ('No', 'No')}),
            (FORALL, {(0, 2): ('No', 'No'), (1, 2): ('No', 'No'), (2, 0): ('Ok', 'Unknown')}),
        ):
            for counts, answers in due.items():
                with self.subTest(quantifier=quantifier, counts=counts):
                    self.assertEqual(tuple(answer(quantifier, *counts, it) for it in (True, False)), answers)


if __name__ == '__main__':
    unittest.main()

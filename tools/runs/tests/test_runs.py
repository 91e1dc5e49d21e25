"""The readers of texts."""
from __future__ import annotations

import re
import subprocess
import sys
import tempfile
import textwrap
import unittest
from pathlib import Path

from runs import (
    EXEC,
    Explored,
    Found,
    RunsFault,
    Step,
    outline,
    pair_outline,
    parse_output,
    read_explored,
    read_output,
    script_of,
    shown_console,
)

ROOT = Path(__file__).resolve().parents[3]
EXAMPLES = ROOT / 'examples'
PACKAGE = ROOT / 'tools' / 'runs'
LINES = b'0 run 1 00000000000100b0\n0 exec 1 00000000000100b0\n'
OUTPUT = b'console 5\nab\nc\xff\nlog 2\n%send exit 0\n' % LINES
LOOKS_LIKE_A_LOG = b'console 54\nlog 1\n\x00\xfflog 2\nlog 1\n0 run 1 00000000000100b0\nend open\n\n'
PAIR = b'console 1\na\nconsole 0\n\nlog 2\n%sprocess 1 exit 1\nprocess 2 live\nend open\n' % LINES
FIRST = b'runs 2 seed 18446744073709551615 policy one steps 4\nconsole 1\na\nend exit 0\n'
EXPLORED = b'outcomes 1\n%sothers 1 seed 0\nruns 3\nharts 1 3\nswitches 7\n' % FIRST


class Outputs(unittest.TestCase):
    def test_parts(self) -> None:
        parts = outline('it', OUTPUT)
        self.assertEqual((parts.console, parts.log, parts.end), (b'ab\nc\xff', LINES, 'exit 0'))
        self.assertEqual(parts.output().steps[1], Step(2, 0, EXEC, 1, 0x100B0))

    def test_a_console_that_looks_like_a_log(self) -> None:
        parts = outline('it', LOOKS_LIKE_A_LOG + b'log 2\n%send open\n' % LINES)
        self.assertEqual((parts.log, len(parts.console)), (LINES, 54))

    def test_what_is_no_output(self) -> None:
        for text, said in (
            (b'', 'it is cut off: a line "console N" is due where it ends'),
            (OUTPUT[:-1], 'it is cut off: the line of its end is due where it ends'),
            (OUTPUT[:40], 'it is cut off: line 1 of the 2 of its log is due where it ends'),
            (OUTPUT + b'x', 'a line "end REASON" is due behind the log'),
            (b'fault usage\n', 'the program refused what it was asked ("fault usage")'),
            (PAIR, 'it is an output of `pair`, and the run of one process is wanted here'),
            (OUTPUT.replace(b'0 exec', b'9 exec'), "line 2 of its log is '9 exec 1 00000000000100b0'"),
        ):
            with self.subTest(text=text), self.assertRaises(RunsFault) as caught:
                parse_output('it', text)
            self.assertTrue(str(caught.exception).startswith(f'it: {said}'), caught.exception)

    def test_a_file_that_is_not_there(self) -> None:
        with self.assertRaisesRegex(RunsFault, '^no/such: No such file or directory$'):
            read_output('no/such')

    def test_kept_outputs(self) -> None:
        """The script beside an output plays to it; so its log has as many lines, if it isn't refused."""
        found = read_output(str(EXAMPLES / 'peterson' / 'found.output'))
        self.assertEqual((found.end, found.harts, found.threads), ('exit 1', [0, 1], [1, 2]))

    def test_shown_console(self) -> None:
        self.assertEqual(shown_console(b'a\n'), r"'a\n'")
        self.assertEqual(shown_console(b'a' * 61), f"'{'a' * 60}' and 1 bytes more")


class Pairs(unittest.TestCase):
    def test_parts(self) -> None:
        parts = pair_outline('it', PAIR)
        self.assertEqual((parts.consoles, parts.log), ((b'a', b''), LINES))
        self.assertEqual((parts.states, parts.end), (('exit 1', 'live'), 'open'))

    def test_what_is_no_pair(self) -> None:
        for text in (PAIR[:-1], PAIR[:60], PAIR.replace(b'process 2', b'process 3'), OUTPUT):
            with self.subTest(text=text), self.assertRaises(RunsFault):
                pair_outline('it', text)

    def test_kept_pairs(self) -> None:
        parts = pair_outline('it', (EXAMPLES / 'segment_ring' / 'lost.output').read_bytes())
        self.assertEqual(parts.end, 'done')


class Scripts(unittest.TestCase):
    def test_of_each_kind_of_text(self) -> None:
        for text in (OUTPUT, PAIR, LINES):
            self.assertEqual(script_of('it', text), LINES)
        with self.assertRaises(RunsFault):
            script_of('it', b'fault usage\n')


class Explorations(unittest.TestCase):
    def test_parts(self) -> None:
        found = Found(2, 2**64 - 1, 'one', 4, b'a', 'exit 0')
        explored = read_explored('it', EXPLORED)
        self.assertEqual(explored, Explored('it', [found], 1, 3, 7))
        self.assertEqual(explored.seeds, [2**64 - 1, 0, 1])

    def test_by_end(self) -> None:
        found = read_explored('it', EXPLORED.replace(b'console 1\na\n', b'')).found[0]
        self.assertEqual((found.console, found.end, found.is_by_end), (b'', 'exit 0', True))

    def test_what_is_none(self) -> None:
        for text, said in (
            (EXPLORED.replace(b'runs 3', b'runs 4'), 'it is changed: 4 runs are said to be there'),
            (EXPLORED[:90], 'it is cut off'),
            (EXPLORED.replace(b' seed 0', b' 0'), 'a line "others N seed S" is due'),
            (OUTPUT, 'it is no output of rseq_run: a line "outcomes N" is due'),
        ):
            with self.subTest(text=text), self.assertRaisesRegex(RunsFault, f'^it: {said}'):
                read_explored('it', text)


class Package(unittest.TestCase):
    def test_a_script_of_ones_own(self) -> None:
        """The package needs no other one, and no place but its folder."""
        with tempfile.TemporaryDirectory() as room:
            script = Path(room) / 'mine.py'
            script.write_text(f'import sys\nsys.path.append({str(PACKAGE)!r})\nfrom runs import read_output\n'
                              'print(read_output(sys.argv[1]).end)\n')
            words = [sys.executable, '-I', '-S', script, EXAMPLES / 'peterson' / 'found.output']
            ran = subprocess.run(words, capture_output=True, text=True, check=True)
        self.assertEqual(ran.stdout, 'exit 1\n')

    def test_the_page(self) -> None:
        """What its example prints stands below it."""
        blocks = re.findall(r'(?:^ {4}.*\n|^\n(?= {4}))+', (PACKAGE / 'README.md').read_text(), re.MULTILINE)
        code, printed = (textwrap.dedent(block).lstrip('\n') for block in blocks)
        ran = subprocess.run([sys.executable, '-c', code], cwd=ROOT, capture_output=True, text=True, check=True)
        self.assertEqual(ran.stdout, printed)


if __name__ == '__main__':
    unittest.main()

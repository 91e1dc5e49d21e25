"""`lens why`: what is said of the ends of kept runs, and of small programs that are killed."""
import tempfile
import unittest
from pathlib import Path

from .common import COMPILERS, EXAMPLES, PROGRAM, assemble, build, lens, needs_compiler, needs_program

KEPT = {
    'peterson/found': [
        'Thread 1 called exit at _start+0x18, start.S:14 (step 276): the process exited with 1.',
        'The last line on the console is \'count 1: an addition is lost\'.',
        'Thread 1 wrote last, at main+0xd4, peterson.c:47 (calls.h:13) (step 266).',
    ],
    'percpu_counter_wrong_signature/killed': [
        'SIGSEGV (11) killed thread 2 on hart 1, by the `run`, at addv+0x1c, percpu_counter.c:31 (step 110).',
        '    percpu_counter.c:31  asm goto(RSEQ_ASM_DEFINE_TABLE(1, 2f, 3f, 4f)',
        'It had left its hart by `preempt` in step 109.',
        'Its area for restartable sequences is wrong: the word before the abort handler isn\'t the signature '
        'with which the area was registered.',
        'It was registered with 0xf1401073.',
        'Before the abort handler addv+0x28, percpu_counter.c:31 stands 0x53053053.',
    ],
    'pages/late': [
        'SIGSEGV (11) killed thread 2 on hart 1, at store_late+0x18, pages.c:52 (step 655).',
        '    pages.c:52  *shared = \'x\';',
        '`sb a5,0(a4)` is about the byte at 0x2000002000: no page is there, or one that doesn\'t allow it.',
        'No page is there since munmap by thread 1 in step 640, 15 steps before, at main+0x1e0, pages.c:76 (threads.h:34).',
    ],
    'ring_wake_lost/asleep': [
        'Each live thread waits in a futex, and nobody is left to wake one.',
        'Thread 1 waits at consumer_sleeps, since sleep_while+0x3c, ring_wake.c:28 (threads.h:34) (step 128).',
        '    The word is still 1: the last to write it was the store of step 120 by thread 1, at sleep_while+0x20, '
        'ring_wake.c:22.',
        '    No wake of it came after step 128.',
        'Thread 2 waits at producer_sleeps, since sleep_while+0x3c, ring_wake.c:28 (threads.h:34) (step 116).',
        '    The word is still 1: the last to write it was the store of step 108 by thread 2, at sleep_while+0x20, '
        'ring_wake.c:22.',
        '    No wake of it came after step 116.',
    ],
    'threads/sleeps': [
        'The script is over and the run isn\'t: `lens inspect` says what may come next.',
        'Thread 3 is on hart 0, at add+0xd0, threads.c:45.',
        'Thread 2 is on hart 1, at add+0xd0, threads.c:45.',
    ],
}

SEND = 'li a0, 1\nli a1, 1\nli a2, 10\nli a7, 131\necall\nagain: j again'
"""tgkill(1, 1, SIGUSR1)"""
HANDLE = 'la a0, _start\nsd a0, -64(sp)\nli a0, 10\naddi a1, sp, -64\nli a2, 0\nli a3, 8\nli a7, 134\necall'
"""rt_sigaction(SIGUSR1, ..)"""
IN_SEQUENCE = """
    addi s0, sp, -256
    andi s0, s0, -32
    sd   zero, 0(s0)
    sd   zero, 8(s0)
    sd   zero, 16(s0)
    mv   a0, s0
    li   a1, 32
    li   a2, 0
    li   a3, 0
    li   a7, 293
    ecall
    la   t0, table
    sd   t0, 8(s0)
begin:
    ecall
    nop
end:
    .balign 32
table:
    .long 0, 0
    .quad begin, end - begin, abort
    .long 0
abort:
    nop
"""

WAKE_AND_SLEEP = """
    la s0, word
    mv a0, s0
    li a1, 1
    li a2, 1
    li a7, 98
    ecall
    li t0, 7
    sw t0, 0(s0)
    mv a0, s0
    li a1, 0
    li a2, 7
    li a3, 0
    ecall
    .data
word:
    .long 0
"""
MAP_TWO = """
    li a0, 0
    li a1, 8192
    li a2, 3
    li a3, 0x22
    li a4, -1
    li a5, 0
    li a7, 222
    ecall
    mv s0, a0
"""
"""mmap of two pages"""
PROTECT_TWO = f'{MAP_TWO}\nli a1, 4096\nli a2, 1\nli a7, 226\necall\nnop\nsd zero, 8(s0)'
UNMAP_TWO = f'{MAP_TWO}\nli a1, 5000\nli a7, 215\necall\nld a0, 0(s0)\n'
BREAK = """
    li a0, 0
    li a7, 214
    ecall
    mv s0, a0
    li t0, 4096
    add a0, s0, t0
    ecall
    mv a0, s0
    ecall
    sd zero, 8(s0)
"""


def printed(line: str) -> str:
    """write(1, LINE) and EBREAK."""
    write = f'li a0, 1\nla a1, text\nli a2, {len(line) + 1}\nli a7, 64\necall\nebreak'
    return f'{write}\n.data\ntext: .ascii "{line}\\n"'


REGISTER = 'mv a0, s0\nli a1, 32\nli a2, 0\nli a3, 0\nli a7, 293\necall'
"""rseq(s0, 32, 0, 0)"""
MAP = 'li a0, 0\nli a1, 4096\nli a2, 3\nli a3, 0x22\nli a4, -1\nli a5, 0\nli a7, 222\necall\nmv s0, a0'
"""s0 is the address of a new page."""
PROTECT = 'mv a0, s0\nli a1, 4096\nli a2, {prot}\nli a7, 226\necall\nagain: j again'
UNMAP = 'mv a0, s0\nli a1, 4096\nli a7, 215\necall\nagain: j again'
HANDLE_SEGV = HANDLE.replace('li a0, 10', 'sd zero, -56(sp)\nsd zero, -48(sp)\nli a0, 11')
"""rt_sigaction(SIGSEGV, ..)"""
MASK_SEGV = 'li t0, 1024\nsd t0, -64(sp)\nli a0, 0\naddi a1, sp, -64\nli a7, 135\necall'

MOVE_AND_SLEEP = """
    la   s0, _start
    li   a0, 0x10f00
    li   a7, 220
    ecall
    beqz a0, wait
move:
    mv   a0, s0
    li   a1, 131
    li   a2, 0
    li   a3, 1
    addi a4, s0, 4
    li   a7, 98
    ecall
    beqz a0, move
wait:
    mv   a0, s0
    li   a1, 128
    lw   a2, 0(s0)
    li   a3, 0
    li   a7, 98
    ecall
"""
"""Thread 1 lets thread 2 wait at the next word, and waits itself."""
SMALL = {
    MOVE_AND_SLEEP: '    It waited at another word before: thread 1 in step ',
    f'{MOVE_AND_SLEEP} # once more': ', moved it here.\n    The word: nobody has written it.\n    No wake of it came after step ',
    printed('prog.c:31: check failed: count == 2 (1, 2)'): 'The check at prog.c:31 failed: count == 2 (1, 2).',
    printed('free: 0x20 was freed before'): "The last line on the console is 'free: 0x20 was freed before'.",
    WAKE_AND_SLEEP: '    No wake of it came after step 16; the last came before, by thread 1 in step 8, at _start+0x18.',
    f'{WAKE_AND_SLEEP} # once more': '    The word is still 7: the last to write it was the store of step 10 by thread 1, at ',
    PROTECT_TWO: 'The page has PROT_READ since mprotect by thread 1 in step 14, 2 steps before, at _start+0x30.',
    UNMAP_TWO: 'No page is there since munmap by thread 1 in step 14, 1 step before, at _start+0x30.',
    BREAK: 'No page is there since brk by thread 1 in step 10, 1 step before, at ',
    f'{MAP}\n{REGISTER}\n{PROTECT.format(prot=1)}': (
        'At this `run` the words of its area for restartable sequences at 0x2000000000 couldn\'t be written.\n'
        'Thread 1 made its page read-only by mprotect in step 21, at _start+0x4c.\n'
    ),
    f'{MAP}\n{REGISTER}\n{PROTECT.format(prot=0)}': 'Thread 1 made its page unreadable by mprotect in step 21',
    f'{MAP}\n{REGISTER}\n{UNMAP}': (
        '`rseq_cs` or `flags` of its area can\'t be read, or `rseq_cs` can\'t be written.\n'
        'Thread 1 removed its page by munmap in step 20, at _start+0x48.\n'
    ),
    f'la s0, _start\nandi s0, s0, -32\n{REGISTER}': (
        'It called rseq, and the words of its area for restartable sequences at 0x10060 couldn\'t be written.\n'
        'The file loads that as r-x, and no mprotect or munmap changed it.\n'
    ),
    f'li s0, 0x40000\n{REGISTER}': 'The file has no page there, and no mprotect or munmap changed it.',
    'li sp, 64\nli a7, 139\necall': 'It called rt_sigreturn, and the frame at sp, 0x40, can\'t be read.',
    f'{HANDLE_SEGV}\n{MASK_SEGV}\nld a0, 8(zero)': 'It masks SIGSEGV, so no handler of that is entered.',
    f'{HANDLE_SEGV}\nli sp, 64\n{SEND.replace("a2, 10", "a2, 11")}': (
        'SIGSEGV was to be delivered, and its frame can\'t be written below sp, 0x40.'
    ),
    SEND: 'The signal was pending for it, and nothing handles it.',
    f'{HANDLE}\nli sp, 64\n{SEND}': 'SIGUSR1 was to be delivered, and its frame can\'t be written below sp, ',
    IN_SEQUENCE: 'It called rseq: no call may be made inside a restartable sequence.',
    'ebreak': 'It executed EBREAK.',
    '.word 0': '0x00000000 is no instruction of this machine.',
    'ld a0, 8(zero)': '`ld a0,8(zero)` is about the 8 bytes at 0x8: a null pointer, or near one.',
    'la a0, _start\nsd a0, 0(a0)': 'is about the 8 bytes at 0x10078: _start, which the file loads as r-x.',
    'addi a0, sp, 4\namoadd.d a0, a0, (a0)': ': no multiple of 8.',
    'jr zero': 'The file has no code at 0x0: a null pointer, or near one.',
    'nop': 'The file has no code at 0x1007c: behind its end.',
}


CHECKED = """#include "check.h"
static volatile int count = 1;
static int __attribute__((noinline)) two(void) { return 2 * count; }
int main(void) {
    check(count, ==, two());
    return 0;
}
"""


@needs_program
class Ends(unittest.TestCase):
    maxDiff = None

    def test_kept_runs(self):
        for name, lines in KEPT.items():
            run = EXAMPLES / f'{name}.output'
            with self.subTest(run=name):
                answer = lens('why', run, run.parent / f'{run.parent.name}.elf')
                self.assertEqual(answer.stderr, b'')
                self.assertEqual(answer.stdout.decode().splitlines(), lines)

    def test_small_programs(self):
        with tempfile.TemporaryDirectory() as name:
            for source, said in SMALL.items():
                elf = assemble(Path(name), source)
                with self.subTest(source=source):
                    answer = lens('why', '--seed', 1, elf, '--program', PROGRAM)
                    self.assertIn(said, answer.stdout.decode() + answer.stderr.decode())

    @needs_compiler
    def test_a_check_that_fails(self):
        """`check` of examples/common/check.h, by each compiler: its place, its text and both values, and that it
        trapped in the line of the check."""
        with tempfile.TemporaryDirectory() as name:
            for compiler in COMPILERS:
                with self.subTest(compiler=compiler):
                    answer = lens('why', '--seed', 1, build(compiler, Path(name), 'prog', CHECKED))
                    first, text, *_, last = answer.stdout.decode().splitlines()
                    self.assertRegex(first, r'^SIGTRAP \(5\) killed thread 1 on hart [01], at .*, prog\.c:5 ')
                    self.assertEqual(text.strip(), 'prog.c:5  check(count, ==, two());')
                    self.assertEqual(last, 'The check at prog.c:5 failed: count == two() (1, 2).')

    def test_calls_that_are_not_there(self):
        """Where the program fails they are named, each once; where it doesn't, nothing is said of them. A wake with a mask is there."""
        again = 'li a0, 0x2000\nli a1, 133\nli a7, 98\necall\n'
        masked = 'li a1, 10\nli a5, 4\necall\n'
        source = f'li a7, 113\necall\n{again}{again}{masked}li a7, 999\necall\nli a0, {{}}\nli a7, 93\necall'
        said = [
            'This machine has no clock_gettime (113): thread 1 got ENOSYS at _start+0x4 (step 3).',
            'This machine has no futex with operation 5: thread 1 got ENOSYS at _start+0x14 (step 7), the first of 2 times.',
            'This machine has no call 999: thread 1 got ENOSYS at _start+0x38 (step 16).',
        ]
        with tempfile.TemporaryDirectory() as name:
            for code, due in ((1, said), (0, [])):
                elf = assemble(Path(name), source.format(code))
                answer = lens('why', '--seed', 1, elf, '--program', PROGRAM).stdout.decode()
                with self.subTest(code=code):
                    self.assertEqual([line for line in answer.splitlines() if line.startswith('This machine')], due)

    def test_a_full_log(self):
        with tempfile.TemporaryDirectory() as name:
            elf = assemble(Path(name), 'again: j again')
            answer = lens('why', '--seed', 1, elf, '--steps', 50, '--program', PROGRAM).stdout.decode()
        self.assertIn('The log has 50 lines, which is as many as --steps says.', answer)
        self.assertIn('instructions, most of them at _start.', answer.replace('at again', 'at _start'))


if __name__ == '__main__':
    unittest.main()

"""The system calls of Linux on RISC-V by number (include/uapi/asm-generic/unistd.h), those that rseq_run
may answer."""

from collections.abc import Callable, Sequence

WRITE, WRITEV, EXIT, EXIT_GROUP, FUTEX, RT_SIGRETURN, CLONE, MEMBARRIER = 64, 66, 93, 94, 98, 139, 220, 283
TKILL, TGKILL, RT_SIGACTION, MPROTECT, RSEQ = 130, 131, 134, 226, 293
WRITES = (WRITE, WRITEV)
WITHOUT_ANSWER = (EXIT, EXIT_GROUP, RT_SIGRETURN)

NAMES = {
    29: 'ioctl',
    WRITE: 'write',
    WRITEV: 'writev',
    80: 'fstat',
    EXIT: 'exit',
    EXIT_GROUP: 'exit_group',
    96: 'set_tid_address',
    FUTEX: 'futex',
    120: 'sched_getscheduler',
    121: 'sched_getparam',
    122: 'sched_setaffinity',
    123: 'sched_getaffinity',
    124: 'sched_yield',
    125: 'sched_get_priority_max',
    126: 'sched_get_priority_min',
    TKILL: 'tkill',
    TGKILL: 'tgkill',
    RT_SIGACTION: 'rt_sigaction',
    135: 'rt_sigprocmask',
    136: 'rt_sigpending',
    RT_SIGRETURN: 'rt_sigreturn',
    160: 'uname',
    168: 'getcpu',
    172: 'getpid',
    173: 'getppid',
    174: 'getuid',
    175: 'geteuid',
    176: 'getgid',
    177: 'getegid',
    178: 'gettid',
    214: 'brk',
    215: 'munmap',
    CLONE: 'clone',
    222: 'mmap',
    MPROTECT: 'mprotect',
    233: 'madvise',
    261: 'prlimit64',
    278: 'getrandom',
    MEMBARRIER: 'membarrier',
    RSEQ: 'rseq',
}

UNBUILT = {
    56: 'openat',
    57: 'close',
    62: 'lseek',
    63: 'read',
    73: 'ppoll',
    79: 'newfstatat',
    99: 'set_robust_list',
    101: 'nanosleep',
    113: 'clock_gettime',
    114: 'clock_getres',
    115: 'clock_nanosleep',
    129: 'kill',
    132: 'sigaltstack',
    133: 'rt_sigsuspend',
    137: 'rt_sigtimedwait',
    167: 'prctl',
    169: 'gettimeofday',
    216: 'mremap',
}
"""Those that this machine hasn't and that C libraries make; any other is named by its number."""


def name_of(number: int | None) -> str:
    """The name of a call, or its number where it has no name here; `?` where the number isn't known."""
    if number is None:
        return '?'
    return NAMES.get(number) or UNBUILT.get(number) or f'call {number}'


def flags(named: dict[int, str]) -> Callable[[int], str]:
    """Writes a value as the flags that it is the sum of, and what is left of it."""

    def write(value: int) -> str:
        found = [name for bit, name in named.items() if value & bit == bit and bit]
        left = value & ~sum(bit for bit in named if value & bit == bit)
        if not value:
            return named.get(0, '0')
        return '|'.join([*found, f'{left:#x}'] if left else found)

    return write


def one_of(named: dict[int, str]) -> Callable[[int], str]:
    """Writes a value of 32 bits by its name."""
    return lambda value: named.get(value & 0xFFFF_FFFF, f'{value & 0xFFFF_FFFF:#x}')


FUTEX_OPERATIONS = {
    0: 'FUTEX_WAIT',
    1: 'FUTEX_WAKE',
    3: 'FUTEX_REQUEUE',
    4: 'FUTEX_CMP_REQUEUE',
    9: 'FUTEX_WAIT_BITSET',
    10: 'FUTEX_WAKE_BITSET',
}
FUTEX_PRIVATE, FUTEX_CLOCK = 128, 256


def futex_operation(value: int) -> str:
    """Writes an operation of futex by its name, as linux/futex.h has it."""
    low = value & 0xFFFF_FFFF
    name = FUTEX_OPERATIONS.get(low & ~(FUTEX_PRIVATE | FUTEX_CLOCK))
    if name is None:
        return f'{low:#x}'
    private = '_PRIVATE' if low & FUTEX_PRIVATE else ''
    return f'{name}{private}' + ('|FUTEX_CLOCK_REALTIME' if low & FUTEX_CLOCK else '')


NAMES_OF: dict[str, Callable[[int], str]] = {
    'clone': flags(
        {
            0x100: 'CLONE_VM',
            0x200: 'CLONE_FS',
            0x400: 'CLONE_FILES',
            0x800: 'CLONE_SIGHAND',
            0x10000: 'CLONE_THREAD',
            0x40000: 'CLONE_SYSVSEM',
            0x80000: 'CLONE_SETTLS',
            0x100000: 'CLONE_PARENT_SETTID',
            0x200000: 'CLONE_CHILD_CLEARTID',
            0x1000000: 'CLONE_CHILD_SETTID',
        }
    ),
    'futex': futex_operation,
    'mask': one_of({0xFFFF_FFFF: 'FUTEX_BITSET_MATCH_ANY'}),
    'prot': flags({0: 'PROT_NONE', 1: 'PROT_READ', 2: 'PROT_WRITE', 4: 'PROT_EXEC'}),
    'map': flags({0x1: 'MAP_SHARED', 0x2: 'MAP_PRIVATE', 0x10: 'MAP_FIXED', 0x20: 'MAP_ANONYMOUS'}),
    'advice': one_of(
        {
            number: f'MADV_{name}'
            for first, names in (
                (0, 'NORMAL RANDOM SEQUENTIAL WILLNEED DONTNEED'),
                (8, 'FREE REMOVE DONTFORK DOFORK MERGEABLE UNMERGEABLE HUGEPAGE NOHUGEPAGE'),
                (16, 'DONTDUMP DODUMP WIPEONFORK KEEPONFORK COLD PAGEOUT'),
            )
            for number, name in enumerate(names.split(), first)
        }
    ),
    'random': flags({1: 'GRND_NONBLOCK', 2: 'GRND_RANDOM', 4: 'GRND_INSECURE'}),
    'request': one_of({0x5401: 'TCGETS', 0x5413: 'TIOCGWINSZ'}),
    'policy': one_of(
        {
            0: 'SCHED_OTHER',
            1: 'SCHED_FIFO',
            2: 'SCHED_RR',
            3: 'SCHED_BATCH',
            5: 'SCHED_IDLE',
            6: 'SCHED_DEADLINE',
        }
    ),
    'limit': one_of(
        dict(
            enumerate(
                'RLIMIT_CPU RLIMIT_FSIZE RLIMIT_DATA RLIMIT_STACK RLIMIT_CORE RLIMIT_RSS RLIMIT_NPROC '
                'RLIMIT_NOFILE RLIMIT_MEMLOCK RLIMIT_AS RLIMIT_LOCKS RLIMIT_SIGPENDING RLIMIT_MSGQUEUE '
                'RLIMIT_NICE RLIMIT_RTPRIO RLIMIT_RTTIME'.split()
            )
        )
    ),
    'how': one_of({0: 'SIG_BLOCK', 1: 'SIG_UNBLOCK', 2: 'SIG_SETMASK'}),
    'rseq': flags({1: 'RSEQ_FLAG_UNREGISTER'}),
    'signal': one_of(
        dict(
            enumerate(
                'SIGHUP SIGINT SIGQUIT SIGILL SIGTRAP SIGABRT SIGBUS SIGFPE SIGKILL SIGUSR1 SIGSEGV '
                'SIGUSR2 SIGPIPE SIGALRM SIGTERM SIGSTKFLT SIGCHLD SIGCONT SIGSTOP SIGTSTP SIGTTIN '
                'SIGTTOU SIGURG SIGXCPU SIGXFSZ SIGVTALRM SIGPROF SIGWINCH SIGIO SIGPWR SIGSYS'.split(),
                1,
            )
        )
    ),
    'barrier': one_of(
        {
            0: 'MEMBARRIER_CMD_QUERY',
            1: 'MEMBARRIER_CMD_GLOBAL',
            2: 'MEMBARRIER_CMD_GLOBAL_EXPEDITED',
            4: 'MEMBARRIER_CMD_REGISTER_GLOBAL_EXPEDITED',
            8: 'MEMBARRIER_CMD_PRIVATE_EXPEDITED',
            16: 'MEMBARRIER_CMD_REGISTER_PRIVATE_EXPEDITED',
            128: 'MEMBARRIER_CMD_PRIVATE_EXPEDITED_RSEQ',
            256: 'MEMBARRIER_CMD_REGISTER_PRIVATE_EXPEDITED_RSEQ',
            512: 'MEMBARRIER_CMD_GET_REGISTRATIONS',
        }
    ),
}
"""How an argument of a kind is written. (include/uapi of Linux: linux/sched.h, futex.h, membarrier.h, rseq.h,
asm-generic/mman-common.h, signal.h, ioctls.h, resource.h)"""

FORMS: dict[int, tuple[str, ...]] = {
    29: ('d', 'request', 'p'),
    WRITE: ('d', 'p', 'u'),
    WRITEV: ('d', 'p', 'd'),
    80: ('d', 'p'),
    EXIT: ('d',),
    EXIT_GROUP: ('d',),
    96: ('p',),
    FUTEX: ('p', 'futex', 'd'),
    120: ('d',),
    121: ('d', 'p'),
    122: ('d', 'u', 'p'),
    123: ('d', 'u', 'p'),
    124: (),
    125: ('policy',),
    126: ('policy',),
    130: ('d', 'signal'),
    131: ('d', 'd', 'signal'),
    134: ('signal', 'p', 'p', 'u'),
    135: ('how', 'p', 'p', 'u'),
    136: ('p', 'u'),
    RT_SIGRETURN: (),
    160: ('p',),
    168: ('p', 'p', 'p'),
    172: (),
    173: (),
    174: (),
    175: (),
    176: (),
    177: (),
    178: (),
    214: ('x',),
    215: ('x', 'u'),
    CLONE: ('clone', 'p', 'p', 'p', 'p'),
    222: ('x', 'u', 'prot', 'map', 'd', 'u'),
    226: ('x', 'u', 'prot'),
    233: ('x', 'u', 'advice'),
    261: ('d', 'limit', 'p', 'p'),
    278: ('p', 'u', 'random'),
    MEMBARRIER: ('barrier', 'u', 'd'),
    293: ('p', 'u', 'rseq', 'x'),
}
"""The kinds of a call's arguments: `d` a number of 32 bits with a sign, `u` one without, `p` an address, `x`
a number in hexadecimal, or a word of NAMES_OF."""

FUTEX_FORMS: dict[int, tuple[tuple[int, str], ...]] = {
    3: ((0, 'p'), (1, 'futex'), (2, 'd'), (3, 'd'), (4, 'p')),
    4: ((0, 'p'), (1, 'futex'), (2, 'd'), (3, 'd'), (4, 'p'), (5, 'd')),
    9: ((0, 'p'), (1, 'futex'), (2, 'd'), (5, 'mask')),
    10: ((0, 'p'), (1, 'futex'), (2, 'd'), (5, 'mask')),
}
"""The arguments that count in operations of futex that have others than FORMS, with their kinds."""


def form_of(number: int, arguments: Sequence[int]) -> list[tuple[str, int]] | None:
    """The arguments of a call that count, each behind its kind; None where the call isn't known."""
    form = FORMS.get(number)
    if form is None:
        return None
    if number == FUTEX:
        places = FUTEX_FORMS.get(arguments[1] & 0x7F)
        if places is not None and places[-1][0] < len(arguments):
            return [(kind, arguments[at]) for at, kind in places]
    return list(zip(form, arguments))


ANSWERS = {214: 'x', 222: 'x', WRITE: 'u', WRITEV: 'u'}
"""The kinds of answers that aren't `d`."""

ERRORS = {
    1: 'EPERM',
    3: 'ESRCH',
    4: 'EINTR',
    9: 'EBADF',
    11: 'EAGAIN',
    12: 'ENOMEM',
    13: 'EACCES',
    14: 'EFAULT',
    16: 'EBUSY',
    22: 'EINVAL',
    25: 'ENOTTY',
    28: 'ENOSPC',
    38: 'ENOSYS',
    110: 'ETIMEDOUT',
}

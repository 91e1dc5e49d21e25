#!/usr/bin/env python3
"""Runs the tests of the tools and of the counts in docs/, checks their types, and says where packages lack that they stand on.

    tools/check.py

The types of the packages that pyproject.toml names, of examples/check.py and of bench/ are checked by mypy, strictly.

Ends with 0 where every test passed, or where they can't be run here; with 1 where one failed. RSEQ_RUN
names a built program other than crates/rseq_run/out/rseq_run; the tests that need one are left out where
there is none.
"""
import os
import pathlib
import shutil
import subprocess
import sys
import tempfile

TOOLS = pathlib.Path(__file__).resolve().parent
TOP = TOOLS.parent
PYTHON = '/usr/bin/python3' if pathlib.Path('/usr/bin/python3').exists() else sys.executable
PARTS = ('runs', 'lens', 'sweep', 'litmus', 'reductions', 'guests', 'compilers', 'musl', 'prove', 'manual', 'dist', 'docs')
CLANG = 'clang'
MYPY = 'mypy'
PACKAGES: dict[str, dict[str, tuple[str, ...]]] = {
    'lens': {'gdb-multiarch': ('gdb-multiarch',), 'chromium': ('chromium',)},
    'sweep': {'sshd': ('openssh-server',), 'ip': ('iproute2',)},
    'compilers': {'riscv64-unknown-elf-gcc': ('gcc-riscv64-unknown-elf',), CLANG: ('clang', 'lld')},
    'musl': {
        'riscv64-linux-gnu-gcc': ('gcc-riscv64-linux-gnu',),
        'riscv64-unknown-elf-gcc': ('gcc-riscv64-unknown-elf',),
        'make': ('make',),
        'dpkg-source': ('dpkg-dev',),
    },
    'dist': {'dpkg-deb': ('dpkg',), 'lintian': ('lintian',), 'debootstrap': ('debootstrap',)},
    'manual': {'man': ('man-db',), 'mandoc': ('mandoc',), 'zsh': ('zsh',), 'fish': ('fish',)},
}
"""Of each part the tools with which it is tested, with their packages."""


def lacking() -> list[str]:
    """Debian's packages that lack."""
    elftools = subprocess.run([PYTHON, '-c', 'import elftools'], stderr=subprocess.DEVNULL)
    tools = {'riscv64-unknown-elf-objdump': 'binutils-riscv64-unknown-elf', 'parallel': 'parallel'}
    return (['python3-pyelftools'] if elftools.returncode else []) + [
        package for tool, package in tools.items() if shutil.which(tool) is None
    ]


def tell_missing(part: str) -> None:
    """Says which tools of a part lack: what they make isn't tested then."""
    for tool, packages in PACKAGES.get(part, {}).items():
        if shutil.which(tool) is None or (tool == CLANG and shutil.which('ld.lld') is None):
            print(f'tools/{part}: without {tool} (apt-get install {" ".join(packages)})')


def passes(part: str) -> bool:
    """Whether the tests of a part pass."""
    tell_missing(part)
    path = os.pathsep.join(str(TOOLS / name) for name in (part, *PARTS))
    print(f'tools/{part}:', flush=True)
    words = [
        PYTHON,
        '-m',
        'unittest',
        'discover',
        '--top-level-directory',
        part,
        '--start-directory',
        f'{part}/tests',
    ]
    return subprocess.run(words, cwd=TOOLS, env={**os.environ, 'PYTHONPATH': path}).returncode == 0


def has_types() -> bool:
    """Whether mypy finds no fault in the types; says so where it isn't there. (Ruff, for which pyproject.toml has a section
    too, is no package of Debian 12, and isn't run.)"""
    if shutil.which(MYPY) is None:
        print(f'tools: types not checked: there is no {MYPY} (apt-get install {MYPY})')
        return True
    print('tools: types:', flush=True)
    with tempfile.TemporaryDirectory() as cache:
        words = [MYPY, '--config-file', 'pyproject.toml', '--cache-dir', cache]
        scripts = ['examples/check.py'], sorted(f'bench/{path.name}' for path in (TOP / 'bench').glob('*.py'))
        calls = [words, *([*words, *(str(TOP / name) for name in names)] for names in scripts)]
        return all([subprocess.run(one, cwd=TOOLS).returncode == 0 for one in calls])


def main() -> int:
    packages = lacking()
    if packages:
        print(
            f'tools: not tested here, since {", ".join(packages)} lack (apt-get install {" ".join(packages)})'
        )
        return 0
    return 0 if all([has_types(), *[passes(part) for part in PARTS]]) else 1


sys.exit(main())

"""The command `musl`."""
from __future__ import annotations

from pathlib import Path

from lens.command_line import Parser, add_version, end

from .building import compiler_in, source_in
from .commands import ended_by_sigterm


def make_parser() -> Parser:
    parser = Parser(
        prog='musl',
        description='Builds the C library musl for the machine of rseq_run from Debian\'s source package, in a '
        'minute, and leaves FOLDER/bin/rvcc, a compiler to call as any other. A second call builds nothing. '
        'Ends with 3 where no source package can be had from here, and with 1 where one can\'t be built.',
    )
    add_version(parser)
    parser.add_argument('folder', metavar='FOLDER', help='a new folder, or one in which this command built musl')
    parser.add_argument(
        '--source',
        action='append',
        default=[],
        metavar='PACKAGE[=VERSION]',
        help='a source package of Debian that is unpacked in FOLDER/src, to be built there; may be given again',
    )
    return parser


def main() -> int:
    return end('musl', command)


def command() -> int:
    asked = make_parser().parse_args()
    folder = Path(asked.folder).resolve()
    with ended_by_sigterm():
        version = compiler_in(folder)
        sources = [source_in(folder, package) for package in asked.source]
    print(f'{asked.folder.rstrip("/")}/bin/rvcc compiles with {version}')
    for source in sources:
        print(f'{asked.folder.rstrip("/")}/src/{source.name} is there')
    return 0

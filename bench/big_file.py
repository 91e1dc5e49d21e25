"""Writes a static RISC-V program of exactly 8 MiB that exits with 7: one segment to read and execute, whose
memory has 4,031 pages (4,096 frames, less 65 for the stack and the page that signal handlers return to)."""
import struct
import sys

SIZE, BASE, FRAMES = 8 << 20, 0x10000, 4096
code = struct.pack('<3I', 0x00700513, 0x05D00893, 0x00000073)
elf = struct.pack('<16sHHIQQQIHHHHHH', b'\x7fELF\x02\x01\x01', 2, 243, 1, BASE + 120, 64, 0, 0, 64, 56, 1, 0, 0, 0)
segment = struct.pack('<IIQQQQQQ', 1, 5, 0, BASE, BASE, SIZE, (FRAMES - 65) * 4096, 4096)
with open(sys.argv[1], 'wb') as out:
    out.write((elf + segment + code).ljust(SIZE, b'\0'))

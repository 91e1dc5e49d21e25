"""Which version this is, and of which day: the first one that CHANGELOG.md names."""
from __future__ import annotations

import re
from pathlib import Path

from .page import Release
from .reference import ROOT, PageFault

HEADING = re.compile(r'^## \[(\d+\.\d+\.\d+)\] - (\d{4}-\d{2}-\d{2})$', re.MULTILINE)


def release(root: Path = ROOT) -> Release:
    found = HEADING.search((root / 'CHANGELOG.md').read_text())
    if not found:
        raise PageFault('CHANGELOG.md names no version (`## [1.2.3] - 2026-12-31`)')
    return Release(found[1], found[2])

"""What `explore` prints, as `runs` reads it."""
from __future__ import annotations

from runs.explored import Explored, Found, read_explored

__all__ = ['Explored', 'Found', 'read_explored']

"""Plots of text: a bar for each row, so that a page shows how a cost grows."""
from __future__ import annotations

from collections.abc import Sequence
from dataclasses import dataclass

WIDTH = 50
BAR = '#'


@dataclass(frozen=True)
class Point:
    """A size, what is measured at it as text, and its cost, of which the bar is made."""

    size: int
    told: str
    cost: float


def plot(points: Sequence[Point], size: str, told: str, cost: str) -> str:
    """The rows of some points under the heads of their columns. The longest bar is that of the greatest cost."""
    most = max(point.cost for point in points)
    rows = [(f'{point.size:,}', point.told, f'{point.cost:,.1f}', bar(point.cost, most)) for point in points]
    table = [(size, told, cost, ''), *rows]
    widths = [max(len(row[column]) for row in table) for column in range(3)]
    lines = (
        '  '.join([*(cell.rjust(width) for cell, width in zip(row, widths)), row[3]]).rstrip() for row in table
    )
    return '\n'.join(lines)


def bar(cost: float, most: float) -> str:
    """At least one mark, since nothing costs nothing."""
    return BAR * max(1, round(WIDTH * cost / most)) if most > 0 else BAR

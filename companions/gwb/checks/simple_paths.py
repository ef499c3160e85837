"""Closed paths in a plane that don't meet themselves."""

from typing import List, NamedTuple, Sequence

from ..geometry.plane_figures import Exact, Flat, segments, turn


class _Side(NamedTuple):
    """A side from its lesser to its greater point, its place in the path, and how low and high it lies."""

    low: Flat
    high: Flat
    place: int
    bottom: Exact
    top: Exact


def is_simple(points: Sequence[Flat]) -> bool:
    """Whether the sides of a closed path meet only where one follows another. The path is swept from left to right."""
    count = len(points)
    if len(set(points)) < count:
        return False
    sides = [_Side(min(start, end), max(start, end), place, min(start[1], end[1]), max(start[1], end[1]))
             for place, (start, end) in enumerate(segments(points))]
    open_sides: List[_Side] = []
    for side in sorted(sides):
        low, high, place, bottom, top = side
        open_sides = [other for other in open_sides if other.high[0] >= low[0]]
        beside = [other for other in open_sides if other.bottom <= top and bottom <= other.top]
        if any(_meet_wrongly(low, high, other.low, other.high, abs(place - other.place) in (1, count - 1)) for other in beside):
            return False
        open_sides.append(side)
    return True


def _meet_wrongly(a: Flat, b: Flat, c: Flat, d: Flat, follow: bool) -> bool:
    """Whether two sides, each from its lesser to its greater point, have a point in common, other than the end that they share where one follows
    the other."""
    before, after = turn(a, b, c), turn(a, b, d)
    if before == after == 0:
        return max(a, c) < min(b, d) if follow else max(a, c) <= min(b, d)
    return not follow and before * after <= 0 and turn(c, d, a) * turn(c, d, b) <= 0

"""Exact arithmetic on points of a plane, whole or fractional: turns, segments and loops."""

from enum import Enum
from fractions import Fraction
from typing import Iterable, List, NamedTuple, Sequence, Tuple, Union

Exact = Union[int, Fraction]
Flat = Tuple[Exact, Exact]
Segment = Tuple[Flat, Flat]


class Corner(NamedTuple):
    """A corner of a loop: its vertex, and its point in the plane of the face."""

    vertex: int
    point: Flat


Path = List[Corner]


class Place(Enum):
    """Where a point lies against an outline."""

    INSIDE = 'inside'
    OUTSIDE = 'outside'
    ON = 'on'


def turn(a: Flat, b: Flat, c: Flat) -> Exact:
    """Positive where a, b, c turn left, negative where they turn right, zero where they lie on a line."""
    return (b[0] - a[0]) * (c[1] - a[1]) - (b[1] - a[1]) * (c[0] - a[0])


def on_segment(a: Flat, b: Flat, p: Flat) -> bool:
    """Whether p lies on the segment, its ends included."""
    return turn(a, b, p) == 0 and min(a, b) <= p <= max(a, b)


def inside_segment(a: Flat, b: Flat, p: Flat) -> bool:
    """Whether p lies on the segment between its ends."""
    return p not in (a, b) and on_segment(a, b, p)


def crossing(a: Flat, b: Flat, c: Flat, d: Flat) -> bool:
    """Whether the segments a b and c d pass through each other between their ends."""
    return (_opposite(turn(a, b, c), turn(a, b, d))
            and _opposite(turn(c, d, a), turn(c, d, b)))


def _opposite(s: Exact, t: Exact) -> bool:
    return s < 0 < t or t < 0 < s


def twice_area(points: Sequence[Flat]) -> Exact:
    """Twice the area of a closed path, negative where it runs clockwise."""
    return sum(points[i - 1][0] * points[i][1] - points[i - 1][1] * points[i][0] for i in range(len(points)))


def segments(points: Sequence[Flat]) -> List[Segment]:
    """The sides of a closed path."""
    return [(points[i - 1], points[i]) for i in range(len(points))]


def locate(sides: Iterable[Segment], p: Flat) -> Place:
    """Where p lies against the outline that has these sides, by the parity of crossings of a ray to the right."""
    within = False
    for a, b in sides:
        if on_segment(a, b, p):
            return Place.ON
        if (a[1] > p[1]) != (b[1] > p[1]) and (turn(a, b, p) > 0) == (b[1] > a[1]):
            within = not within
    return Place.INSIDE if within else Place.OUTSIDE

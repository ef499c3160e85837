"""Takes loops apart where they touch, and joins them anew, so that each corner is one sector of the region.

Where a ring touches the outline, say, the region has two sectors at that point: from the outline's way out to the ring's way in,
and from the ring's way out to the outline's way in. Joined so, the two loops are one, which only touches itself.
"""

from functools import cmp_to_key
from typing import Dict, Iterator, List, NamedTuple, Sequence, Tuple

from ..errors import Unfit
from .plane_figures import Corner, Flat, Path


class _Way(NamedTuple):
    """A side at a point: where it leads, and the corner that it leads to the point, or away from it."""

    direction: Flat
    leads_in: bool
    corner: int


def unpinched(loops: Sequence[Path]) -> List[Path]:
    """The loops of the same region in which no two corners have a sector in common. The region is on their left."""
    corners = [corner for loop in loops for corner in loop]
    before, after = _neighbours(loops)
    following = list(after)
    for twins in _twins(corners):
        ways = _ways_around(twins, corners, before, after)
        for out, into in zip(ways[::2], ways[1::2]):
            if out.leads_in or not into.leads_in:
                raise Unfit(f'its loops cross at vertex {corners[out.corner].vertex}')
            following[into.corner] = after[out.corner]
    return [[corners[place] for place in cycle] for cycle in _cycles(following)]


def _neighbours(loops: Sequence[Path]) -> Tuple[List[int], List[int]]:
    """For each corner, counted through all loops, the ones before and after it."""
    before: List[int] = []
    after: List[int] = []
    for loop in loops:
        first, count = len(before), len(loop)
        before += [first + (place - 1) % count for place in range(count)]
        after += [first + (place + 1) % count for place in range(count)]
    return before, after


def _twins(corners: Sequence[Corner]) -> List[List[int]]:
    """The corners at each point that has several."""
    places: Dict[Flat, List[int]] = {}
    for place, corner in enumerate(corners):
        places.setdefault(corner.point, []).append(place)
    return [found for found in places.values() if len(found) > 1]


def _ways_around(twins: Sequence[int], corners: Sequence[Corner], before: Sequence[int], after: Sequence[int]) -> List[_Way]:
    """The sides at a point counterclockwise, from one that leads out on; at one direction ways in come first."""
    ways = [_Way(_direction(corners[twin], corners[beside[twin]]), beside is before, twin)
            for twin in twins for beside in (before, after)]
    ways.sort(key=cmp_to_key(_compare))
    return ways if not ways[0].leads_in else ways[1:] + ways[:1]


def _direction(here: Corner, there: Corner) -> Flat:
    return (there.point[0] - here.point[0], there.point[1] - here.point[1])


def _compare(way: _Way, other: _Way) -> int:
    """Negative where the way comes before the other one counterclockwise from the direction to the right."""
    (ax, ay), (bx, by) = way.direction, other.direction
    halves = (ay < 0 or ay == 0 and ax < 0), (by < 0 or by == 0 and bx < 0)
    if halves[0] != halves[1]:
        return 1 if halves[0] else -1
    turned = ax * by - ay * bx
    return -1 if turned > 0 else 1 if turned < 0 else other.leads_in - way.leads_in


def _cycles(following: Sequence[int]) -> Iterator[List[int]]:
    """The cycles of a permutation of places."""
    seen = [False] * len(following)
    for start in range(len(following)):
        cycle: List[int] = []
        while not seen[start]:
            seen[start] = True
            cycle.append(start)
            start = following[start]
        if cycle:
            yield cycle

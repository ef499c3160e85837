"""Planes near a given one that cut a solid at whole coordinates: shifted, or tilted through whole points of cut edges.

A shifted plane is found by congruences: along an edge the whole points lie evenly, so the offsets at which the plane meets it in one
leave one remainder; between two heights of vertices the same edges are cut, and the Chinese remainder theorem joins what they ask for.
"""

from fractions import Fraction
from itertools import combinations, islice, product
from math import floor, gcd, isqrt
from typing import Iterator, List, NamedTuple, Optional, Sequence, Set, Tuple

from .congruences import Congruence, in_all
from .crossings import Crossing, Plane, crossings, edges_of, height, without_common_factor
from .model import Model
from .moved import FARTHEST
from .vectors import Vector, ZERO, cross, dot, negative, reduced, subtract

FARTHEST_OFFSET = 3 * FARTHEST ** 2
# Tilted planes go through whole points of three out of so many cut edges, and of each edge through so many on either side of the cut.
_SPREAD, _BESIDE = 12, 2


class NearPlane(NamedTuple):
    """A plane that cuts the solid at whole points alone, and the square of how far it moves the cut along an edge at most."""

    plane: Plane
    is_parallel: bool
    square_moved: Fraction

    @property
    def hundredths_moved(self) -> int:
        """How far it moves the cut along an edge at most, in hundredths, rounded up."""
        square = -(-self.square_moved.numerator * 10_000 // self.square_moved.denominator)
        root = isqrt(square)
        return root if root * root == square else root + 1


class _Band(NamedTuple):
    """Offsets, both ends among them, at which planes of one normal cut the same edges."""

    low: int
    high: int

    def gap(self, offset: Fraction) -> Fraction:
        """How far the offset lies beside the band."""
        return max(self.low - offset, offset - self.high, Fraction(0))


class _Span(NamedTuple):
    """The offsets at which planes of one normal meet the ends of an edge, and those at which they meet a whole point of it."""

    low: int
    high: int
    whole: Congruence

    def crosses(self, band: _Band) -> bool:
        """Whether planes of the band cut the edge between its ends."""
        return self.low < band.low and band.high < self.high


class NearPlanes:
    """Looks for planes near one that cuts a solid."""

    def __init__(self, model: Model, solid: int, plane: Plane) -> None:
        """Raises NoPart; ValueError where a, b and c are all zero."""
        self._model, self._solid, self._plane = model, solid, plane
        self._cuts = list(crossings(model, solid, plane))
        cut = {crossing.edge for crossing in self._cuts}
        self._edges = [(model.point(edge), model.point(-edge))
                       for edge in sorted(edges_of(model, solid), key=lambda edge: edge not in cut)]

    def parallel(self) -> Optional[NearPlane]:
        """The nearest plane with the same normal; None where there is none, or the plane cuts no edge."""
        normal = reduced(self._plane[:3])
        axis = max(range(3), key=lambda axis: abs(normal[axis]))
        offset = Fraction(self._plane[3] * normal[axis], self._plane[axis])
        spans = [_span(normal, start, end) for start, end in self._edges]
        best: Optional[int] = None
        for band in sorted(_bands(spans), key=lambda band: band.gap(offset)) if self._cuts else ():
            if best is not None and band.gap(offset) >= abs(best - offset):
                break
            found = _nearest_in(band, offset, {span.whole for span in spans if span.crosses(band)})
            if found is not None and (best is None or abs(found - offset) < abs(best - offset)) and self.is_cuttable((*normal, found)):
                best = found
        return None if best is None else self._near((*normal, best), True)

    def tilted(self, most: int = 3) -> List[NearPlane]:
        """The nearest of those through whole points of three cut edges, nearest first; at most so many."""
        found = (self._near(plane, False) for plane in self._candidates() if self.is_whole(plane))
        ranked = sorted((near for near in found if near is not None), key=lambda near: (near.square_moved, sum(abs(part) for part in near.plane)))
        return list(islice((near for near in ranked if self.is_cuttable(near.plane)), most))

    def _candidates(self) -> Iterator[Plane]:
        """The planes through whole points of three cut edges that lie apart, each once, looking the way of the plane but not parallel to it."""
        seen: Set[Plane] = set()
        for three in combinations(_spread(self._cuts), 3):
            for corners in product(*map(_whole_points, three)):
                plane = _through(corners, self._plane[:3])
                if plane is not None and plane not in seen:
                    seen.add(plane)
                    yield plane

    def is_whole(self, plane: Plane) -> bool:
        """Whether the plane parts the solid, crossing edges at whole points alone."""
        above = below = False
        for start, end in self._edges:
            first, last = height(plane, start), height(plane, end)
            if (first < 0 < last or last < 0 < first) and any((b - a) * first % (first - last) for a, b in zip(start, end)):
                return False
            above = above or first > 0 or last > 0
            below = below or first < 0 or last < 0
        return above and below

    def is_cuttable(self, plane: Plane) -> bool:
        """Whether no face would be refused as touched or as cut too often (TouchedFace, CutOften)."""
        return all(_is_drawn([[height(plane, point) for point in self._model.loop_points(loop)] for loop in self._model.faces[face].loops])
                   for face in self._model.faces_of(self._solid))

    def _near(self, plane: Plane, is_parallel: bool) -> Optional[NearPlane]:
        """The plane with how far it moves the cut; None where it is parallel to an edge that was cut."""
        squares = [_square_moved(crossing, plane) for crossing in self._cuts]
        known = [square for square in squares if square is not None]
        return NearPlane(plane, is_parallel, max(known)) if len(known) == len(squares) else None


def _span(normal: Vector, start: Vector, end: Vector) -> _Span:
    """An edge that isn't level between its ends has whole points at every so many offsets; a level one, or one of no length, is never cut."""
    first, last = -dot(normal, start), -dot(normal, end)
    along = subtract(end, start)
    parts = gcd(gcd(along[0], along[1]), along[2])
    step = abs(last - first) // parts if last != first else 1
    return _Span(min(first, last), max(first, last), Congruence(first % step, step))


def _bands(spans: Sequence[_Span]) -> Iterator[_Band]:
    """The heights of vertices between the lowest and the highest, and the ranges between them that hold a whole offset."""
    levels = sorted({level for span in spans for level in span[:2]})
    for low, high in zip(levels, levels[1:]):
        if low + 1 < high:
            yield _Band(low + 1, high - 1)
        if high != levels[-1]:
            yield _Band(high, high)


def _nearest_in(band: _Band, offset: Fraction, asked: Set[Congruence]) -> Optional[int]:
    """The whole offset of the band nearest the given one that all edges which are cut there ask for."""
    common = in_all(asked)
    if common is None:
        return None
    below = common.at_most(min(band.high, max(band.low - 1, floor(offset))))
    beside = [found for found in (below, below + common.modulus) if band.low <= found <= band.high]
    return min(beside, key=lambda found: abs(found - offset)) if beside else None


def _spread(cuts: Sequence[Crossing]) -> List[Crossing]:
    """Some of the cuts, that lie apart: each is the farthest from those before it."""
    points = [tuple(map(float, crossing.point)) for crossing in cuts]
    gaps = [float('inf')] * len(cuts)
    found: List[int] = []
    while len(found) < min(_SPREAD, len(cuts)):
        found.append(max(range(len(cuts)), key=lambda place: (gaps[place], -place)))
        taken = points[found[-1]]
        gaps = [min(gap, sum((a - b) ** 2 for a, b in zip(point, taken))) for gap, point in zip(gaps, points)]
        gaps[found[-1]] = -1.0
    return [cuts[place] for place in found]


def _whole_points(crossing: Crossing) -> List[Vector]:
    """The whole points of the edge, its ends among them, next to where it is cut: so many on either side."""
    along = subtract(crossing.end, crossing.start)
    parts = gcd(gcd(along[0], along[1]), along[2])
    step, last = reduced(along), floor(parts * crossing.along)
    places = range(max(0, last - _BESIDE + 1), min(parts, last + _BESIDE) + 1)
    x, y, z = crossing.start
    return [(x + place * step[0], y + place * step[1], z + place * step[2]) for place in places]


def _through(corners: Tuple[Vector, ...], way: Vector) -> Optional[Plane]:
    """The plane through three points that looks the given way; None where they lie on a line, it is parallel to that way's planes, or out of range."""
    first, second, third = corners
    normal = cross(subtract(second, first), subtract(third, first))
    if cross(normal, way) == ZERO or dot(normal, way) == 0:
        return None
    normal = normal if dot(normal, way) > 0 else negative(normal)
    plane = without_common_factor((*normal, -dot(normal, first)))
    return plane if all(abs(part) <= FARTHEST for part in plane[:3]) and abs(plane[3]) <= FARTHEST_OFFSET else None


def _square_moved(crossing: Crossing, plane: Plane) -> Optional[Fraction]:
    """The square of the distance along the edge's line from where it was cut to where the plane meets it; None where it never does."""
    first, last = height(plane, crossing.start), height(plane, crossing.end)
    if first == last:
        return None
    along = subtract(crossing.end, crossing.start)
    return (Fraction(first, first - last) - crossing.along) ** 2 * dot(along, along)


def _is_drawn(loops: Sequence[Sequence[int]]) -> bool:
    """Whether a face lies on one side of a plane, or can be cut by it: given the heights of the corners of its loops, the outer one first."""
    levels = [level for loop in loops for level in loop]
    if not min(levels) < 0 < max(levels):
        return True
    counts = [_cut_places(loop) for loop in loops]
    known = [count for count in counts if count is not None]
    return len(known) == len(counts) and known[0] > 0 and (0 not in known or sum(known) == 2)


def _cut_places(heights: Sequence[int]) -> Optional[int]:
    """How often a loop with corners at these heights passes through the plane; None where it only touches it somewhere."""
    count = 0
    for place, level in enumerate(heights):
        before, after = heights[place - 1], heights[(place + 1) % len(heights)]
        if level == 0 and not (before < 0 < after or after < 0 < before):
            return None
        count += level == 0 or level < 0 < after or after < 0 < level
    return count

"""Whether the faces of a solid come into a part: by faces that pass through each other, found along the line in which their planes meet,
whatever lies at its ends, or by a face that lies within the part.
"""

from fractions import Fraction
from itertools import count
from math import lcm
from typing import Iterator, List, Sequence, Tuple

from .box_index import Box, BoxIndex, box_of, boxes_meet
from .joined_sets import JoinedSets
from .plane_figures import Exact, Flat, Place, Segment, locate
from .sheets import Sheet
from .vectors import Vector, ZERO, cross, dot, flat_axes

Span = Tuple[Exact, Exact]
ExactPoint = Tuple[Exact, Exact, Exact]


def comes_into(held: Sequence[Sheet], part: Sequence[Sheet]) -> bool:
    """Whether a held sheet comes into the room that closed sheets bound, otherwise than through their edges. Bent ones aren't looked at.

    Cost: for each sheet of the part the sides of the held ones whose boxes meet its box."""
    flat = {place: _Shape(sheet) for place, sheet in enumerate(held) if sheet.lies_in(sheet.level)}
    walls = [_Shape(sheet) for sheet in part]
    if not flat:
        return False
    boxes = BoxIndex({place: shape.box for place, shape in flat.items()})
    if any(_cross(wall, flat[place]) for wall in walls for place in boxes.meeting(wall.box)):
        return True
    around = box_of(point for wall in walls for point in wall.points)
    within = {part.name(place): flat[place] for part in [_parts_beside(held, walls)] for place in boxes.meeting(around)
              if _lies_in(flat[place].box, around)}
    return any(_bound(walls, shape.inner_point()) for shape in within.values())


def _parts_beside(held: Sequence[Sheet], walls: Sequence['_Shape']) -> JoinedSets:
    """The held sheets, by their places, in parts that lie on one side of the walls each: joined across sides whose middles touch no wall."""
    index = BoxIndex({place: wall.box for place, wall in enumerate(walls)})
    beside = {(side.start, side.end): place for place, sheet in enumerate(held) for side in sheet.sides}
    joined = JoinedSets()
    for (start, end), place in beside.items():
        middle = tuple(Fraction(one + other, 2) for one, other in zip(start, end))
        if start < end and (end, start) in beside and not any(True for _ in index.meeting(box_of([middle]))):
            joined.join(place, beside[end, start])
    return joined


class _Shape:
    """A flat region, ready to be cut by planes."""

    def __init__(self, sheet: Sheet) -> None:
        self.across = sheet.across
        self.ends = [(side.start, side.end) for side in sheet.sides]
        self.points = [start for start, _ in self.ends]
        self.box = box_of(self.points)
        self._axes = flat_axes(sheet.across)
        self._outline: List[Segment] = []

    def height(self, point: ExactPoint) -> Exact:
        """Positive before the plane, negative behind it."""
        return _far(self.across, point) - _far(self.across, self.points[0])

    def place_of(self, point: ExactPoint) -> Place:
        """Where a point of the plane lies."""
        return locate(self._sides(), self._flat(point))

    def inner_point(self) -> ExactPoint:
        """A point within: between the first two sides that a line meets which runs between the two lowest corners."""
        first, second, third = (*self._axes, 3 - sum(self._axes))
        low, high = sorted({point[second] for point in self.points})[:2]
        level = Fraction(low + high, 2)
        places = sorted(a[0] + (level - a[1]) * (b[0] - a[0]) / (b[1] - a[1]) for a, b in self._sides() if (a[1] > level) != (b[1] > level))
        point: List[Exact] = [0, 0, 0]
        point[first], point[second] = (places[0] + places[1]) / 2, level
        rest = self.across[first] * point[first] + self.across[second] * point[second] - dot(self.across, self.points[0])
        point[third] = Fraction(-rest) / self.across[third]
        return (point[0], point[1], point[2])

    def hit(self, start: ExactPoint, ray: Vector) -> Place:
        """Where a ray meets it: inside, on its outline, or outside of it or not at all."""
        height, slope = self.height(start), dot(self.across, ray)
        if height == 0 or slope == 0 or (height > 0) == (slope > 0):
            return Place.OUTSIDE
        x, y, z = (here - Fraction(height) / slope * step for here, step in zip(start, ray))
        return self.place_of((x, y, z))

    def _sides(self) -> List[Segment]:
        self._outline = self._outline or [(self._flat(start), self._flat(end)) for start, end in self.ends]
        return self._outline

    def _flat(self, point: ExactPoint) -> Flat:
        return (point[self._axes[0]], point[self._axes[1]])

    def is_cut_by(self, plane: '_Shape') -> bool:
        """Whether it lies on both sides of the plane of another one."""
        heights = [plane.height(point) for point in self.points]
        return min(heights) < 0 < max(heights)

    def spans(self, plane: '_Shape', along: Vector, within: Span) -> Iterator[Span]:
        """Where the plane runs within it, along the line in which both planes meet, as far as that touches what is asked for."""
        points = sorted(self._cuts(plane), key=lambda point: _far(along, point))
        for start, end in zip(points, points[1:]):
            first, last = _far(along, start), _far(along, end)
            if first < last and first < within[1] and within[0] < last:
                x, y, z = (Fraction(one + other) / 2 for one, other in zip(start, end))
                if self.place_of((x, y, z)) is Place.INSIDE:
                    yield first, last

    def _cuts(self, plane: '_Shape') -> Iterator[ExactPoint]:
        """Where its sides meet a plane."""
        for start, end in self.ends:
            before, after = plane.height(start), plane.height(end)
            if before == 0:
                yield start
            elif before < 0 < after or after < 0 < before:
                x, y, z = (here + Fraction(before * (there - here), before - after) for here, there in zip(start, end))
                yield (x, y, z)


def _bound(walls: Sequence[_Shape], point: ExactPoint) -> bool:
    """Whether a point lies in the room that walls bound, and on none of them: by the parity of crossings of a ray that meets no edge. Of the
    rays (1, k, k * k) at most two lie in any plane through the point, so only finitely many meet an edge."""
    if any(boxes_meet(wall.box, box_of([point])) and wall.height(point) == 0 and wall.place_of(point) is not Place.OUTSIDE for wall in walls):
        return False
    scale = lcm(*(Fraction(part).denominator for part in point))
    whole = (int(scale * point[0]), int(scale * point[1]), int(scale * point[2]))
    for k in count(3):
        places = [wall.hit(point, (1, k, k * k)) for wall in walls if _may_meet(wall.box, scale, whole, (1, k, k * k))]
        if Place.ON not in places:
            break
    return places.count(Place.INSIDE) % 2 == 1


def _may_meet(box: Box, scale: int, start: Vector, ray: Vector) -> bool:
    """Whether a ray, all of whose parts are above zero, may meet a box, scaled: no two of its walls keep them apart."""
    (a, u), (b, v), (c, w) = ((scale * low - part, scale * high - part) for (low, high), part in zip(box, start))
    x, y, z = ray
    return (u >= 0 and v >= 0 and w >= 0 and a * y <= v * x and b * x <= u * y
            and a * z <= w * x and c * x <= u * z and b * z <= w * y and c * y <= v * z)


def _lies_in(one: Box, other: Box) -> bool:
    """Whether a box lies in another one."""
    return all(low <= first and last <= high for (first, last), (low, high) in zip(one, other))


def _cross(one: _Shape, other: _Shape) -> bool:
    """Whether both run along one line within, some of the way."""
    along = cross(one.across, other.across)
    if along == ZERO or not one.is_cut_by(other) or not other.is_cut_by(one):
        return False
    reach = [_far(along, point) for point in one.points]
    spans = one.spans(other, along, (min(reach), max(reach)))
    return any(True for span in spans for _ in other.spans(one, along, span))


def _far(along: Vector, point: ExactPoint) -> Exact:
    return along[0] * point[0] + along[1] * point[1] + along[2] * point[2]

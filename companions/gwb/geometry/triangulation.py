"""Cuts faces into triangles by exact tests: loops that touch are joined, rings are bridged to the outline, ears are cut off.

Only vertices of the model become corners of triangles, so faces that share an edge have triangles that share it.
"""

from collections import deque
from heapq import heapify, heappop
from typing import Iterator, List, Optional, Sequence, Tuple

from ..errors import Unfit
from .box_index import BoxIndex, box_of
from .convexity import is_convex
from .measures import normal
from .model import Model
from .pinches import unpinched
from .plane_figures import Corner, Exact, Flat, Path, Place, Segment, crossing, inside_segment, locate, segments, turn, twice_area
from .touched_edges import TouchedEdges
from .vectors import flat_axes

Triangle = Tuple[int, int, int]


def face_triangles(model: Model, face: int, touched: TouchedEdges) -> List[Triangle]:
    """A plain flat face as triangles of vertices, which run as its outer loop does.

    The edges of the face are given a corner where they are touched. At a point that several vertices of the face have,
    triangles may take either.
    """
    halves = model.loops[model.faces[face].outer].halves
    if is_convex(model, face, normal(model, face)) and not any(abs(half) in touched for half in halves):
        *between, last = map(model.tail, halves)
        return [(last, a, b) for a, b in zip(between, between[1:])]
    outline, *rings = _flat_loops(model, face, touched)
    try:
        return triangulate(outline, rings)
    except Unfit as error:
        raise Unfit(f'face {face}: {error}') from None


def _flat_loops(model: Model, face: int, touched: TouchedEdges) -> List[Path]:
    """The loops of a face with an area as seen from its front, the outer loop first."""
    first, second = flat_axes(normal(model, face))
    paths = []
    for loop in model.faces[face].loops:
        points = ((vertex, model.vertices[vertex]) for vertex in _loop_corners(model, loop, touched))
        paths.append([Corner(vertex, (point[first], point[second])) for vertex, point in points])
    return paths


def _loop_corners(model: Model, loop: int, touched: TouchedEdges) -> Iterator[int]:
    """The vertices along a loop, those that touch its edges among them."""
    for half in model.loops[loop].halves:
        yield model.tail(half)
        amid = touched.get(abs(half), [])
        yield from amid if half > 0 else reversed(amid)


def triangulate(outline: Path, rings: Sequence[Path]) -> List[Triangle]:
    """The region within the outline (which runs to the left) and without the rings (which run to the right)."""
    _require_directions(outline, rings)
    triangles: List[Triangle] = []
    for outer, inner in _regions(unpinched([outline, *rings])):
        corners = _bridged(outer, inner)
        triangles += [(corners[a].vertex, corners[b].vertex, corners[c].vertex) for a, b, c in _EarCutter(corners).triangles()]
    return triangles


def _require_directions(outline: Path, rings: Sequence[Path]) -> None:
    if twice_area(_points(outline)) <= 0:
        raise Unfit('its rings run the same way round as its outer loop, or are larger')
    for ring in rings:
        if twice_area(_points(ring)) > 0:
            raise Unfit(f'the ring at vertex {ring[0].vertex} runs the same way round as the outer loop')


def _regions(loops: Sequence[Path]) -> Iterator[Tuple[Path, List[Path]]]:
    """Each loop that goes round an area, with the loops in it that leave one out."""
    outer = [loop for loop in loops if twice_area(_points(loop)) > 0]
    inner = [loop for loop in loops if twice_area(_points(loop)) <= 0]
    if len(outer) == 1:
        yield outer[0], inner
        return
    for loop in outer:
        sides = segments(_points(loop))
        yield loop, [ring for ring in inner if any(locate(sides, point) is Place.INSIDE for point in _points(ring))]


def _points(path: Path) -> List[Flat]:
    return [corner.point for corner in path]


def _bridged(outline: Path, rings: Sequence[Path]) -> Path:
    """One path that goes along the outline and, over bridges, round each of the rings."""
    path, waiting = list(outline), sorted(rings, key=lambda ring: max(_points(ring)), reverse=True)
    walls = _Walls([outline, *rings])
    while waiting:
        for place, ring in enumerate(waiting):
            start = max(range(len(ring)), key=lambda i: ring[i].point)
            end = _bridge_end(path, ring, start, walls)
            if end is not None:
                break
        else:
            raise Unfit(f'the ring at vertex {waiting[0][0].vertex} lies outside the outer loop, or loops cross')
        walls.add((ring[start].point, path[end].point))
        path[end + 1:end + 1] = ring[start:] + ring[:start + 1] + [path[end]]
        del waiting[place]
    return path


def _bridge_end(path: Path, ring: Path, start: int, walls: '_Walls') -> Optional[int]:
    """The nearest corner of the path to which a bridge from the ring's corner can be drawn."""
    x, y = point = ring[start].point
    nearest = [((corner.point[0] - x) ** 2 + (corner.point[1] - y) ** 2, i) for i, corner in enumerate(path)]
    heapify(nearest)
    while nearest:
        _, end = heappop(nearest)
        if (_opens_to(path, end, point) and _opens_to(ring, start, path[end].point)
                and not walls.stand_between(path[end].point, point)):
            return end
    return None


def _opens_to(path: Path, place: int, point: Flat) -> bool:
    """Whether the point lies in the angle that the path's corner opens on its left."""
    before, here, after = path[place - 1].point, path[place].point, path[(place + 1) % len(path)].point
    if turn(before, here, after) > 0:
        return turn(before, here, point) > 0 and turn(here, after, point) > 0
    return turn(before, here, point) > 0 or turn(here, after, point) > 0


class _Walls:
    """The sides of all loops, and the bridges."""

    def __init__(self, paths: Sequence[Path]) -> None:
        self._sides: List[Segment] = [side for path in paths for side in segments(_points(path))]
        self._index = BoxIndex({i: box_of(side) for i, side in enumerate(self._sides)})

    def add(self, side: Segment) -> None:
        """One more wall."""
        self._index.add(len(self._sides), box_of(side))
        self._sides.append(side)

    def stand_between(self, p: Flat, q: Flat) -> bool:
        """Whether a wall meets the segment elsewhere than where both end."""
        return any(self._blocks(*self._sides[i], p, q) for i in self._index.meeting(box_of((p, q))))

    @staticmethod
    def _blocks(a: Flat, b: Flat, p: Flat, q: Flat) -> bool:
        return (crossing(a, b, p, q) or inside_segment(p, q, a) or inside_segment(p, q, b)
                or inside_segment(a, b, p) or inside_segment(a, b, q))


class _EarCutter:
    """Cuts ears off a path until a triangle is left. The path may touch itself, but no two of its corners share a sector."""

    def __init__(self, corners: Path) -> None:
        self._points = _points(corners)
        count = len(corners)
        self._before = [(i - 1) % count for i in range(count)]
        self._after = [(i + 1) % count for i in range(count)]
        self._left = count
        hollow = {i: box_of([self._points[i]]) for i in range(count) if self._turn(i) <= 0}
        self._hollow = BoxIndex(hollow)
        self._cut = [False] * count

    def triangles(self) -> List[Triangle]:
        """The triangles as places in the path."""
        found: List[Triangle] = []
        waiting = deque(range(len(self._points)))
        failures = 0
        while self._left > 2:
            if failures > len(waiting):
                raise Unfit('its loops cross')
            tip = waiting.popleft()
            if self._is_ear(tip):
                found.append((self._before[tip], tip, self._after[tip]))
                self._cut_off(tip)
                failures = 0
            else:
                waiting.append(tip)
                failures += 1
        return found

    def _turn(self, tip: int) -> Exact:
        return turn(self._points[self._before[tip]], self._points[tip], self._points[self._after[tip]])

    def _cut_off(self, tip: int) -> None:
        before, after = self._before[tip], self._after[tip]
        self._after[before], self._before[after] = after, before
        self._cut[tip] = True
        self._left -= 1

    def _is_ear(self, tip: int) -> bool:
        """Whether the triangle at the corner lies within the path, and nothing of the path in it."""
        if self._turn(tip) <= 0:
            return False
        a, b, c = (self._points[place] for place in (self._before[tip], tip, self._after[tip]))
        for place in self._hollow.meeting(box_of((a, b, c))):
            point = self._points[place]
            if (not self._cut[place] and point not in (a, b, c)
                    and min(turn(a, b, point), turn(b, c, point), turn(c, a, point)) >= 0):
                return False
        return True

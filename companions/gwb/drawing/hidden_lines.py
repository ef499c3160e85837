"""Finds which parts of edges a viewer sees, exactly.

An edge is cut where it crosses another one on the screen, and where it passes through a face. No piece is then partly hidden:
it is hidden where its middle lies, on the screen, within a face that is nearer there.
"""

from fractions import Fraction
from typing import Dict, Iterator, List, NamedTuple, Sequence

from ..geometry.box_index import BoxIndex, box_of
from ..geometry.measures import anchor, normal, off_plane
from ..geometry.model import Model
from ..geometry.plane_figures import Exact, Flat, Segment, segments, turn
from ..geometry.vectors import Vector, dot
from .view import Spot, View


class Piece(NamedTuple):
    """A part of an edge, from one fraction of its way to another."""

    start: Fraction
    end: Fraction
    hidden: bool


class _Wall:
    """A flat face that isn't seen from its side, as what may hide."""

    def __init__(self, across: Vector, origin: Vector, view: View, sides: Sequence[Segment]) -> None:
        self._across, self._offset = across, dot(across, origin)
        self._facing = dot(across, view.into)
        self._low = min(min(a[1], b[1]) for a, b in sides)
        high = max(max(a[1], b[1]) for a, b in sides)
        self._height = (high - self._low) // len(sides) + 1
        self._rows: Dict[int, List[Segment]] = {}
        for side in sides:
            for row in range(self._row(min(side[0][1], side[1][1])), self._row(max(side[0][1], side[1][1])) + 1):
                self._rows.setdefault(row, []).append(side)

    def _row(self, y: Exact) -> int:
        return (y - self._low) // self._height

    def depth(self, point: Vector, weight: int = 1) -> int:
        """Positive where the point, divided by the weight, lies beyond the wall's plane as seen by the viewer."""
        height = dot(self._across, point) - weight * self._offset
        return height if self._facing > 0 else -height

    def covers(self, spot: Flat, weight: int) -> bool:
        """Whether the spot, divided by the weight, lies within the wall's outline and not on it."""
        within = False
        x, y = spot
        for (ax, ay), (bx, by) in self._rows.get(self._row(y // weight), ()):
            ax, ay, bx, by = ax * weight, ay * weight, bx * weight, by * weight
            if (ay > y) != (by > y):
                side = turn((ax, ay), (bx, by), spot)
                if side == 0:
                    return False
                within ^= (side > 0) == (by > ay)
            elif ay == by == y and min(ax, bx) <= x <= max(ax, bx):
                return False
        return within


class Scene:
    """A model as a viewer sees it."""

    def __init__(self, model: Model, view: View) -> None:
        self._model = model
        self.spots = {vertex: view.spot(point) for vertex, point in model.vertices.items()}
        sides = {edge: box_of(self._side(edge)) for edge in model.edges}
        self._edges = BoxIndex(sides)
        self._walls = {face: wall for face in model.faces for wall in self._wall(face, view)}
        self._faces = BoxIndex({face: box_of(self.spots[vertex] for vertex in model.face_vertices(face))
                                for face in self._walls})

    def _side(self, edge: int) -> Segment:
        start, end = self._model.edges[edge]
        return (self.spots[start], self.spots[end])

    def _wall(self, face: int, view: View) -> Iterator[_Wall]:
        """The face as a wall, where it is one."""
        across = normal(self._model, face)
        if dot(across, view.into) != 0 and off_plane(self._model, face, across) is None:
            sides = [side for loop in self._model.faces[face].loops
                     for side in segments([self.spots[vertex] for vertex in self._model.loop_vertices(loop)])]
            yield _Wall(across, anchor(self._model, face), view, sides)

    def pieces(self, edge: int) -> List[Piece]:
        """The edge from its start to its end; none where the viewer looks along it."""
        a, b = self._side(edge)
        if a == b:
            return []
        near = [self._walls[face] for face in self._faces.meeting(box_of((a, b)))]
        cuts = sorted({Fraction(0), Fraction(1), *self._crossings(edge), *self._passages(edge, near)})
        pieces: List[Piece] = []
        for start, end in zip(cuts, cuts[1:]):
            hidden = self._is_hidden_at(edge, (start + end) / 2, near)
            if pieces and pieces[-1].hidden == hidden:
                start = pieces.pop().start
            pieces.append(Piece(start, end, hidden))
        return pieces

    def _crossings(self, edge: int) -> Iterator[Fraction]:
        """Where on its way the edge meets others on the screen."""
        a, b = self._side(edge)
        for other in self._edges.meeting(box_of((a, b))):
            c, d = self._side(other)
            if _meets_line(turn(a, b, c), turn(a, b, d)):
                start, end = turn(c, d, a), turn(c, d, b)
                if _meets_line(start, end):
                    yield Fraction(start, start - end)

    def _passages(self, edge: int, walls: Sequence[_Wall]) -> Iterator[Fraction]:
        """Where on its way the edge goes through the planes of walls."""
        start, end = (self._model.vertices[vertex] for vertex in self._model.edges[edge])
        for wall in walls:
            before, after = wall.depth(start), wall.depth(end)
            if before < 0 < after or after < 0 < before:
                yield Fraction(before, before - after)

    def _is_hidden_at(self, edge: int, way: Fraction, walls: Sequence[_Wall]) -> bool:
        start, end = (self._model.vertices[vertex] for vertex in self._model.edges[edge])
        step, weight = way.numerator, way.denominator
        x, y, z = (weight * a + step * (b - a) for a, b in zip(start, end))
        (ax, ay), (bx, by) = self._side(edge)
        spot = (weight * ax + step * (bx - ax), weight * ay + step * (by - ay))
        return _is_hidden(walls, (x, y, z), spot, weight)

    def is_hidden(self, point: Vector, spot: Spot, weight: int) -> bool:
        """Whether the point, which is given with its spot times a weight, lies beyond a face."""
        around = ((spot[0] // weight, -(-spot[0] // weight)), (spot[1] // weight, -(-spot[1] // weight)))
        return _is_hidden([self._walls[face] for face in self._faces.meeting(around)], point, spot, weight)


def _is_hidden(walls: Sequence[_Wall], point: Vector, spot: Flat, weight: int) -> bool:
    return any(wall.depth(point, weight) > 0 and wall.covers(spot, weight) for wall in walls)


def _meets_line(start: Exact, end: Exact) -> bool:
    """Whether a way whose ends lie so far to the left of a line meets it at one point."""
    return start != end and min(start, end) <= 0 <= max(start, end)

"""Which curves of a STEP file are made of straight pieces, and which surfaces are flat, whatever they are held as."""

from typing import Any, List, Optional, Sequence

from ...geometry.flat_face import ExactVector
from ..exact_vectors import cross, dot, subtracted
from .lexer import Entity, StepFile
from .points import StepPoints

# Curves that lie on surfaces: what they are in space is their second value, as is what others are a part of.
_ON_SURFACES = ('SURFACE_CURVE', 'SEAM_CURVE', 'INTERSECTION_CURVE')
_PARTS_OF_SURFACES = ('RECTANGULAR_TRIMMED_SURFACE', 'CURVE_BOUNDED_SURFACE')
_SPLINES = ('B_SPLINE_CURVE', 'B_SPLINE_CURVE_WITH_KNOTS', 'BEZIER_CURVE', 'UNIFORM_CURVE', 'QUASI_UNIFORM_CURVE')
_SPLINE_SURFACES = ('B_SPLINE_SURFACE', 'B_SPLINE_SURFACE_WITH_KNOTS', 'BEZIER_SURFACE', 'UNIFORM_SURFACE', 'QUASI_UNIFORM_SURFACE')
_NOWHERE: ExactVector = (0, 0, 0)
_DEEPEST = 8


class Flatness:
    """Looks at curves and surfaces. A spline lies in the hull of its poles: it is straight where they lie on a line, flat where in a plane."""

    def __init__(self, file: StepFile, points: StepPoints) -> None:
        self._file, self._points = file, points

    def in_space(self, curve: str) -> str:
        """The curve itself, of one that lies on surfaces."""
        return str(self._file.at(curve).items[1]) if self._file.kind(curve) in _ON_SURFACES else curve

    def corners(self, curve: str, depth: int = 0) -> Optional[List[ExactVector]]:
        """The points between which a curve runs straight: none of one that is straight as a whole. None where it is curved, or isn't understood."""
        entity = self._file.at(curve)
        if entity.kind == 'LINE':
            return []
        if depth < _DEEPEST and (entity.kind in _ON_SURFACES or entity.kind == 'TRIMMED_CURVE'):
            found = self.corners(entity.items[1], depth + 1)
            return None if found and entity.kind == 'TRIMMED_CURVE' else found
        if entity.kind == 'POLYLINE':
            return _without_straight([self._points.point(point) for point in entity.items[1]])
        spline = _values(entity, _SPLINES)
        if spline is None:
            return None
        poles = [self._points.point(point) for point in next(value for value in spline if isinstance(value, list))]
        degree = next(value for value in spline if isinstance(value, str) and value.isdigit())
        return _without_straight(poles) if degree == '1' or not _without_straight(poles) else None

    def is_flat(self, surface: str, depth: int = 0) -> bool:
        """Whether a surface lies in one plane."""
        entity = self._file.at(surface)
        if entity.kind == 'PLANE':
            return True
        if depth < _DEEPEST and entity.kind in _PARTS_OF_SURFACES:
            return self.is_flat(entity.items[1], depth + 1)
        if entity.kind == 'SURFACE_OF_LINEAR_EXTRUSION':
            return self.corners(entity.items[1]) == []
        spline = _values(entity, _SPLINE_SURFACES)
        if spline is None:
            return False
        rows = next(value for value in spline if isinstance(value, list))
        return _in_a_plane([self._points.point(point) for row in rows for point in row])


def _values(entity: Entity, kinds: Sequence[str]) -> Optional[List[Any]]:
    """The values of an entity that is of one of the kinds, or of several at once of which the first one is one."""
    return entity.items if entity.kind in kinds else entity.parts.get(kinds[0])


def _without_straight(points: Sequence[ExactVector]) -> List[ExactVector]:
    """The points of a path where it turns, with its ends; none where all lie on one line."""
    if _on_a_line(points):
        return []
    points = [point for place, point in enumerate(points) if not place or point != points[place - 1]]
    turns = [here for before, here, after in zip(points, points[1:], points[2:])
             if cross(subtracted(here, before), subtracted(after, here)) != _NOWHERE]
    return [points[0], *turns, points[-1]]


def _on_a_line(points: Sequence[ExactVector]) -> bool:
    along = next((way for way in (subtracted(point, points[0]) for point in points) if way != _NOWHERE), _NOWHERE)
    return all(cross(along, subtracted(point, points[0])) == _NOWHERE for point in points)


def _in_a_plane(points: Sequence[ExactVector]) -> bool:
    ways = [subtracted(point, points[0]) for point in points]
    along = next((way for way in ways if way != _NOWHERE), _NOWHERE)
    across = next((normal for normal in (cross(along, way) for way in ways) if normal != _NOWHERE), _NOWHERE)
    return all(dot(across, way) == 0 for way in ways)

"""Polygons over whole points, as files give them: no edge of one knows of another yet."""

from typing import Dict, List, NamedTuple, Sequence

from ..geometry.measures import area_vector
from ..geometry.vectors import Vector, ZERO, dot, reduced, subtract, total

Cycles = List[List[int]]


class Soup(NamedTuple):
    """Faces, each an outline and rings of places of points; for each the place of the polygon that it comes from."""

    points: List[Vector]
    faces: List[Cycles]
    origins: List[int]

    def loops(self, place: int) -> List[List[Vector]]:
        """The points of the loops of a face."""
        return [[self.points[vertex] for vertex in cycle] for cycle in self.faces[place]]


def soup_of(points: Sequence[Vector], polygons: Sequence[Cycles]) -> Soup:
    """The polygons with points at one place joined. Sides and rings that come to nothing are left out, and so are polygons of fewer
    than three corners; a surface that was closed stays closed."""
    places: Dict[Vector, int] = {}
    name = [places.setdefault(point, len(places)) for point in points]
    if len(places) == len(points) and all(map(_is_plain, polygons)):
        return Soup(list(points), list(polygons), list(range(len(polygons))))
    soup = Soup(list(places), [], [])
    for origin, polygon in enumerate(polygons):
        cycles = [_distinct([name[vertex] for vertex in cycle]) for cycle in polygon]
        if len(cycles[0]) > 2:
            soup.faces.append([cycle for cycle in cycles if len(cycle) > 2])
            soup.origins.append(origin)
    return soup


def _is_plain(polygon: Cycles) -> bool:
    """Whether no corner of a polygon repeats another one of its cycle, and each cycle has at least three."""
    return all(len(set(cycle)) == len(cycle) > 2 for cycle in polygon)


def _distinct(cycle: List[int]) -> List[int]:
    """The cycle without corners that repeat the one before."""
    return [vertex for i, vertex in enumerate(cycle) if vertex != cycle[i - 1]]


def across(loops: Sequence[Sequence[Vector]]) -> Vector:
    """The normal of a face, as long as twice its area."""
    return total(map(area_vector, loops))


def is_bent(loops: Sequence[Sequence[Vector]], normal: Vector) -> bool:
    """Whether a corner of the face lies off the plane through its first one with this normal."""
    if len(loops) == 1 and len(loops[0]) == 3:
        return False
    origin = loops[0][0]
    return any(dot(normal, subtract(point, origin)) for loop in loops for point in loop)


def direction(loops: Sequence[Sequence[Vector]]) -> Vector:
    """The way that a flat face looks; zero for one that is bent or has no area."""
    normal = across(loops) if len(loops) > 1 else area_vector(loops[0])
    return ZERO if normal == ZERO or is_bent(loops, normal) else reduced(normal)

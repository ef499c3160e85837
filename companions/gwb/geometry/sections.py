"""The polygons in which a plane cuts a solid, exactly.

In each face the sides of the section run along the line in which its plane meets the other, from a half-edge that goes down through the plane
to one that goes up; the face beyond that one goes on. Vertices in the plane count as above it, which is the section of a plane less than any
length lower: what lies in the plane needs no rule of its own.
"""

from fractions import Fraction
from typing import Callable, Dict, Iterator, List, Tuple

from ..errors import Unfit
from .crossings import Plane, height, require_part, require_plane
from .flat_face import ExactVector
from .measures import normal, why_unfit
from .model import Model
from .vectors import Vector, cross, dot, subtract

Polygon = Tuple[ExactVector, ...]


def section(model: Model, solid: int, plane: Plane) -> List[Polygon]:
    """The polygons in which the plane a x + b y + c z + d = 0 cuts the solid, seen from above the plane: outlines run counterclockwise, holes
    clockwise. None where the plane misses it.

    A face in the plane is part of the section where the solid lies below it. Raises NoPart; ValueError where a, b and c are all zero; Unfit
    where a face isn't plain and flat.
    """
    require_plane(plane)
    require_part(model.solids, 'solid', solid)
    following: Dict[int, int] = {}
    for face in model.faces_of(solid):
        why = why_unfit(model, face)
        if why is not None:
            raise Unfit(why)
        following.update(_sides(model, face, plane))
    outlines = (_without_repeats([_point(model, half, plane) for half in cycle]) for cycle in _cycles(following))
    return [outline for outline in outlines if len(outline) > 2]


def _sides(model: Model, face: int, plane: Plane) -> Iterator[Tuple[int, int]]:
    """The sides of the section in a face: each from a half-edge that goes down through the plane to one that goes up."""
    down: List[int] = []
    up: List[int] = []
    for half in model.face_halves(face):
        first, last = height(plane, model.point(half)), height(plane, model.point(-half))
        if (first < 0) != (last < 0):
            (down if last < 0 else up).append(half)
    way = cross(plane[:3], normal(model, face))
    places: Callable[[int], Tuple[Fraction, Fraction]] = lambda half: _place(model, half, plane, way)
    return zip(sorted(down, key=places), sorted(up, key=places))


def _place(model: Model, half: int, plane: Plane, way: Vector) -> Tuple[Fraction, Fraction]:
    """How far along the way the plane meets a half-edge, and how much farther a lower one would."""
    start, end = model.point(half), model.point(-half)
    first, last = height(plane, start), height(plane, end)
    slope = Fraction(dot(way, subtract(end, start)), first - last)
    return (dot(way, start) + first * slope, slope)


def _point(model: Model, half: int, plane: Plane) -> ExactVector:
    """Where the plane meets a half-edge."""
    start, end = model.point(half), model.point(-half)
    first, last = height(plane, start), height(plane, end)
    x, y, z = (a + Fraction(first * (b - a), first - last) for a, b in zip(start, end))
    return (x, y, z)


def _cycles(following: Dict[int, int]) -> Iterator[List[int]]:
    """The half-edges at which sides start, side after side; takes them out of what follows what."""
    while following:
        half = next(iter(following))
        cycle = []
        while half in following:
            cycle.append(half)
            half = -following.pop(half)
        yield cycle


def _without_repeats(points: List[ExactVector]) -> Polygon:
    """The points of a closed path, of which none is the one before it."""
    return tuple(point for place, point in enumerate(points) if point != points[place - 1])

"""Faces that are convex: nothing of them can touch or cross anything else of them."""

from typing import Sequence

from .model import Model
from .vectors import Vector, flat_axes


def is_convex(model: Model, face: int, across: Vector) -> bool:
    """Whether a flat face, whose normal is given, is a triangle or a quadrilateral that turns left at each corner."""
    _, outer, rings = model.faces[face]
    outline = () if rings else model.outlines[outer]
    return len(outline) == 3 or len(outline) == 4 and _turns_left(model.loop_points(outer), across)


def is_parallelogram(a: Vector, b: Vector, c: Vector, d: Vector) -> bool:
    """Whether four points are the corners of a parallelogram: it is flat, and where it has an area, it turns left at each corner."""
    return a[0] + c[0] == b[0] + d[0] and a[1] + c[1] == b[1] + d[1] and a[2] + c[2] == b[2] + d[2]


def _turns_left(points: Sequence[Vector], across: Vector) -> bool:
    """Whether four points in a plane with this normal turn left at each."""
    first, second = flat_axes(across)
    a, b, c, d = points
    x, y, u, v = b[first] - a[first], b[second] - a[second], c[first] - b[first], c[second] - b[second]
    z, w, s, t = d[first] - c[first], d[second] - c[second], a[first] - d[first], a[second] - d[second]
    return x * v > y * u and u * w > v * z and z * t > w * s and s * y > t * x

"""Normals, flatness and volumes, by the definitions of docs/MODEL.md."""

from typing import Iterable, Optional, Sequence

from ..errors import Unfit
from ..meanings import NUMBERS, refusal
from .model import Model
from .vectors import Vector, ZERO, cross, dot, total


def area_vector(points: Sequence[Vector]) -> Vector:
    """Twice the area that the closed path through the points goes round, as a vector."""
    if len(points) == 3:
        (x, y, z), (a, b, c), (u, v, w) = points
        a, b, c, u, v, w = a - x, b - y, c - z, u - x, v - y, w - z
        return (b * w - c * v, c * u - a * w, a * v - b * u)
    if len(points) == 4:
        (x, y, z), (u, v, w), (a, b, c), (d, e, f) = points
        a, b, c, d, e, f = a - x, b - y, c - z, d - u, e - v, f - w
        return (b * f - c * e, c * d - a * f, a * e - b * d)
    return total(cross(points[i - 1], points[i]) for i in range(len(points)))


def loop_normal(model: Model, loop: int) -> Vector:
    """The area vector of one loop."""
    return area_vector(model.loop_points(loop))


def normal(model: Model, face: int) -> Vector:
    """The face's normal: the sum over its loops."""
    row = model.faces[face]
    return total(loop_normal(model, loop) for loop in row.loops) if row.rings else area_vector(model.loop_points(row.outer))


def anchor(model: Model, face: int) -> Vector:
    """The first corner of the face's outer loop."""
    halves, lone = model.loops[model.faces[face].outer]
    return model.point(halves[0]) if lone is None else model.vertices[lone]


def off_plane(model: Model, face: int, across: Vector) -> Optional[int]:
    """A vertex of the face off the plane through its anchor with this normal, or None."""
    (a, b, c), points, level = across, model.vertices, dot(across, anchor(model, face))
    for vertex in model.face_vertices(face):
        x, y, z = points[vertex]
        if a * x + b * y + c * z != level:
            return vertex
    return None


def six_volume(model: Model, faces: Iterable[int]) -> int:
    """Six times the volume that the faces enclose."""
    found = 0
    for face in faces:
        (a, b, c), (x, y, z) = normal(model, face), anchor(model, face)
        found += a * x + b * y + c * z
    return found


def why_unfit(model: Model, face: int) -> Optional[str]:
    """Why the face isn't a plain flat one, or None where it is."""
    for loop in model.faces[face].loops:
        if model.loops[loop].is_lone:
            return f'face {face} has the lone loop {loop}'
    across = normal(model, face)
    if across == ZERO:
        return f'face {face} has no area'
    vertex = off_plane(model, face, across)
    if vertex is not None:
        return f'{refusal(NUMBERS["NotFlat"], face).text}: vertex {vertex} lies off its plane'
    for half in model.face_halves(face):
        if model.point(half) == model.point(-half):
            return f'edge {abs(half)} of face {face} has no length'
    return None


def require_fit(model: Model) -> None:
    """Raises Unfit at the first face that isn't a plain flat one."""
    for face in model.faces:
        why = why_unfit(model, face)
        if why is not None:
            raise Unfit(why)

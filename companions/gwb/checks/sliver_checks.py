"""Slivers: faces that are many times as long as they are wide, and solids that are many times as long as they are thick."""

from math import isqrt
from typing import Iterator, List

from ..geometry.measures import normal, six_volume
from ..geometry.model import Model
from ..geometry.vectors import Vector, ZERO, dot
from .findings import SLIVER, Finding

# Lengths are reckoned in this part of one.
_FINE = 10 ** 6


def sliver_findings(model: Model, most: int) -> Iterator[Finding]:
    """The faces and solids that are more than so many times as long as they are wide, or thick.

    The length is that of the box's diagonal. The width of a face is twice its area over its length, which is the height of a triangle; the
    thickness of a solid twice its volume over its area, which is that of a plate. Both are rounded by less than one part of a million.
    """
    for face in model.faces:
        across = normal(model, face)
        long = _square_length(model.face_points(face))
        if across != ZERO:
            yield from _finding(f'face {face}', 'wide', isqrt(long * long * _FINE ** 2 // dot(across, across)), most)
    for solid in model.solids:
        faces = model.faces_of(solid)
        six, twice_area = abs(six_volume(model, faces)), sum(isqrt(dot(across, across) * _FINE ** 2) for across in (normal(model, face) for face in faces))
        long = isqrt(_square_length([point for face in faces for point in model.face_points(face)]) * _FINE ** 2)
        if six:
            yield from _finding(f'solid {solid}', 'thick', 3 * long * twice_area // (2 * six * _FINE), most)


def _finding(thing: str, what: str, ratio: int, most: int) -> Iterator[Finding]:
    """What is said of a ratio, given in millionths, that is larger than wanted."""
    if ratio > most * _FINE:
        yield Finding(SLIVER, f'{thing} is {ratio // _FINE:,} times as long as it is {what}')


def _square_length(points: List[Vector]) -> int:
    """The square of the diagonal of the box around points."""
    return sum((max(parts) - min(parts)) ** 2 for parts in zip(*points))

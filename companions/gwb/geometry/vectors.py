"""Exact arithmetic on whole points and vectors in space."""

from math import gcd
from typing import Iterable, Tuple

Vector = Tuple[int, int, int]

ZERO: Vector = (0, 0, 0)


def add(a: Vector, b: Vector) -> Vector:
    """The sum of two vectors."""
    return (a[0] + b[0], a[1] + b[1], a[2] + b[2])


def subtract(a: Vector, b: Vector) -> Vector:
    """The vector from b to a."""
    return (a[0] - b[0], a[1] - b[1], a[2] - b[2])


def dot(a: Vector, b: Vector) -> int:
    """The scalar product."""
    return a[0] * b[0] + a[1] * b[1] + a[2] * b[2]


def cross(a: Vector, b: Vector) -> Vector:
    """The vector product."""
    return (a[1] * b[2] - a[2] * b[1],
            a[2] * b[0] - a[0] * b[2],
            a[0] * b[1] - a[1] * b[0])


def negative(a: Vector) -> Vector:
    """The opposite vector."""
    return (-a[0], -a[1], -a[2])


def scaled(a: Vector, factor: int) -> Vector:
    """The vector, longer by a factor."""
    return (a[0] * factor, a[1] * factor, a[2] * factor)


def total(vectors: Iterable[Vector]) -> Vector:
    """The sum of all."""
    result = ZERO
    for vector in vectors:
        result = add(result, vector)
    return result


def reduced(a: Vector) -> Vector:
    """The shortest whole vector in the direction of a, which isn't zero."""
    divisor = gcd(gcd(a[0], a[1]), a[2])
    return (a[0] // divisor, a[1] // divisor, a[2] // divisor)


def same_direction(a: Vector, b: Vector) -> bool:
    """Whether both point the same way; neither is zero."""
    return cross(a, b) == ZERO and dot(a, b) > 0


def lies_between(start: Vector, end: Vector, point: Vector) -> bool:
    """Whether the point lies on the segment, not at its ends."""
    along, way = subtract(end, start), subtract(point, start)
    return cross(along, way) == ZERO and 0 < dot(along, way) < dot(along, along)


def flat_axes(normal: Vector) -> Tuple[int, int]:
    """The two axes to look at so that a plane with this normal is seen from its front, undistorted enough to be exact.

    A loop that runs counterclockwise as seen from where the normal points runs counterclockwise in these two coordinates.
    """
    x, y, z = abs(normal[0]), abs(normal[1]), abs(normal[2])
    widest = 0 if x >= y and x >= z else 1 if y >= z else 2
    first, second = (widest + 1) % 3, (widest + 2) % 3
    return (first, second) if normal[widest] > 0 else (second, first)

"""Where things of a file are put: turned, mirrored or stretched about the origin, and then moved, in exact numbers."""

from fractions import Fraction
from math import isqrt
from typing import NamedTuple

from ..geometry.flat_face import ExactVector
from .exact_vectors import added, cross, dot, times

_DIGITS = 10 ** 40


class Placement(NamedTuple):
    """The images of the three unit vectors, and that of the origin."""

    x: ExactVector
    y: ExactVector
    z: ExactVector
    origin: ExactVector

    def of(self, point: ExactVector) -> ExactVector:
        """Where the point comes to lie."""
        return added(self.direction(point), self.origin)

    def direction(self, way: ExactVector) -> ExactVector:
        """Where a way leads, wherever it begins."""
        return added(added(times(self.x, way[0]), times(self.y, way[1])), times(self.z, way[2]))

    def after(self, first: 'Placement') -> 'Placement':
        """The placement by `first` and then by this one."""
        return Placement(self.direction(first.x), self.direction(first.y), self.direction(first.z), self.of(first.origin))

    def undone(self) -> 'Placement':
        """The placement back, of one that turns and moves alone."""
        x, y, z = ((self.x[i], self.y[i], self.z[i]) for i in range(3))
        back = Placement(x, y, z, (0, 0, 0))
        return back._replace(origin=times(back.direction(self.origin), -1))


IN_PLACE = Placement((1, 0, 0), (0, 1, 0), (0, 0, 1), (0, 0, 0))


def frame(origin: ExactVector, axis: ExactVector, beside: ExactVector) -> Placement:
    """A right-handed frame: its z along the axis, its x in the half-plane of `beside`. Raises ValueError where both lie on a line.

    Unit vectors are exact where they are rational, and else right to 40 digits.
    """
    z = _unit(axis)
    across = added(beside, times(z, -dot(z, beside)))
    x = _unit(across)
    return Placement(x, cross(z, x), z, origin)


def _unit(way: ExactVector) -> ExactVector:
    square = Fraction(dot(way, way))
    if square == 0:
        raise ValueError('a direction of no length')
    return times(way, 1 / _root(square))


def _root(square: Fraction) -> Fraction:
    """The square root, exact where it is rational."""
    above, below = isqrt(square.numerator), isqrt(square.denominator)
    if above * above == square.numerator and below * below == square.denominator:
        return Fraction(above, below)
    return Fraction(isqrt(square.numerator * _DIGITS ** 2 // square.denominator), _DIGITS)
